/* Prints which packages modules import most, and which modules have an argument of which nothing is known: the table
 * of job.py. Jansson reads the answers; cJSON would do as well.
 *
 * usage: job FILE ..
 * example: cc -o job examples/job/job.c $(pkg-config --cflags --libs modinfo jansson) && ./job examples/messages.js
 */
#define _POSIX_C_SOURCE 200809L
#include <jansson.h>
#include <modinfo.h>
#include <stdio.h>
#include <stdlib.h>
#include <string.h>
#include <unistd.h>

#define MOST 20

struct text {
    char *at;
    size_t length, room;
};

static void *resized(void *at, size_t size)
{
    at = realloc(at, size);
    if (at == NULL) {
        fputs("job: out of memory\n", stderr);
        exit(2);
    }
    return at;
}

/* Returns 0 where the file can't be read. */
static int read_file(const char *path, struct text *text)
{
    FILE *file = fopen(path, "rb");
    size_t count = 0;
    text->length = 0;
    if (file == NULL)
        return 0;
    do {
        text->length += count;
        if (text->room - text->length < 65536)
            text->at = resized(text->at, text->room = 2 * text->room + 65536);
        count = fread(text->at + text->length, 1, text->room - text->length, file);
    } while (count > 0);
    count = (size_t)ferror(file);
    fclose(file);
    return count == 0;
}

/* Appends a path to a URL, with each byte encoded that could have another meaning there. */
static void append_path(char *url, const char *path)
{
    char *end = url + strlen(url);
    for (; *path != '\0'; path++) {
        int is_kept = (*path >= 'a' && *path <= 'z') || (*path >= '-' && *path <= '9') || (*path >= 'A' && *path <= 'Z')
                      || *path == '_';
        end += sprintf(end, is_kept ? "%c" : "%%%02X", (unsigned char)*path);
    }
    *end = '\0';
}

static char *url_of(const char *path)
{
    char *folder = *path == '/' ? NULL : getcwd(NULL, 0);
    char *url = resized(NULL, 3 * (strlen(path) + (folder == NULL ? 0 : strlen(folder))) + 16);
    strcpy(url, "file://");
    if (folder != NULL) {
        append_path(url, folder);
        strcat(url, "/");
    }
    append_path(url, path);
    free(folder);
    return url;
}

typedef uint8_t function(const char *, size_t, const char *, size_t, uint8_t, char *, size_t, size_t *);

/* Makes a call, and again with the room that it needs. */
static uint8_t call(function *function, const struct text *text, const char *url, struct text *answer)
{
    for (;;) {
        uint8_t status = function(text->at, text->length, url, strlen(url), MODINFO_OF_SPECIFIER, answer->at,
                                  answer->room, &answer->length);
        if (status != MODINFO_TOO_SMALL)
            return status;
        answer->at = resized(answer->at, answer->room = answer->length);
    }
}

/* The ModuleInfo of a file. NULL after a line on the error output. */
static json_t *info_of(const char *path)
{
    static struct text text, answer;
    char *url = url_of(path);
    json_t *info = NULL;
    if (answer.room == 0)
        answer.at = resized(NULL, answer.room = 4096);
    if (!read_file(path, &text)) {
        fprintf(stderr, "%s: the file can't be read\n", path);
    } else if (call(modinfo_analyze_text, &text, url, &answer) == MODINFO_ANSWERED) {
        info = json_loadb(answer.at, answer.length, JSON_ALLOW_NUL, NULL);
    } else {
        /* The name of a fault, as of a text that isn't UTF-8, has no line feed. */
        const char *end = call(modinfo_check_text, &text, url, &answer) == MODINFO_ANSWERED ? "" : "\n";
        fprintf(stderr, "%s: %.*s%s", path, (int)answer.length, answer.at, end);
    }
    free(url);
    return info;
}

/* Counts the package that a specifier names, `fs` for `node:fs`, and nothing for a path and for another URL. */
static void count_package(json_t *counts, const char *specifier)
{
    const char *bare = strncmp(specifier, "node:", 5) == 0 ? specifier + 5 : specifier, *end = bare;
    if (*bare == '\0' || strchr("./#", *bare) != NULL || strchr(bare, ':') != NULL)
        return;
    for (int slashes = *bare == '@' ? 2 : 1; *end != '\0' && (*end != '/' || --slashes > 0);)
        end++;
    char *name = resized(NULL, (size_t)(end - bare) + 1);
    memcpy(name, bare, (size_t)(end - bare));
    name[end - bare] = '\0';
    json_object_set_new(counts, name, json_integer(json_integer_value(json_object_get(counts, name)) + 1));
    free(name);
}

/* Whether nothing of an argument is known: it is missing, or has unknown parts alone. */
static int is_unknown(const json_t *argument)
{
    size_t number;
    const json_t *part;
    json_array_foreach (argument, number, part)
        if (strcmp(json_string_value(json_object_get(part, "type")), "expr") != 0)
            return 0;
    return !json_is_string(argument);
}

/* Counts the packages of a module. Returns whether it has an argument of which nothing is known. */
static int count_packages(json_t *counts, const json_t *info)
{
    size_t number;
    const json_t *dependency;
    int has_unknown = 0;
    json_array_foreach (json_object_get(info, "dependencies"), number, dependency) {
        const json_t *specifier = json_object_get(dependency, "specifier");
        const json_t *argument = json_object_get(dependency, "argument");
        const char *named = json_string_value(specifier != NULL ? specifier : argument);
        if (named != NULL)
            count_package(counts, named);
        has_unknown |= specifier == NULL && is_unknown(argument);
    }
    return has_unknown;
}

static json_t *counts;

static int by_count(const void *one, const void *other)
{
    const char *first = *(const char *const *)one, *second = *(const char *const *)other;
    json_int_t more = json_integer_value(json_object_get(counts, second));
    json_int_t less = json_integer_value(json_object_get(counts, first));
    return more == less ? strcmp(first, second) : more > less ? 1 : -1;
}

static int by_name(const void *one, const void *other)
{
    return strcmp(*(const char *const *)one, *(const char *const *)other);
}

int main(int count, char **words)
{
    const char **unknown = resized(NULL, (size_t)count * sizeof *unknown), **names, *name;
    size_t files = 0, packages = 0;
    int status = 0;
    json_t *each;
    counts = json_object();
    for (int word = 1; word < count; word++) {
        json_t *info = info_of(words[word]);
        if (info == NULL)
            status = 1;
        else if (count_packages(counts, info))
            unknown[files++] = words[word];
        json_decref(info);
    }
    names = resized(NULL, (json_object_size(counts) + 1) * sizeof *names);
    json_object_foreach (counts, name, each)
        names[packages++] = name;
    qsort(names, packages, sizeof *names, by_count);
    for (size_t number = 0; number < packages && number < MOST; number++)
        printf("%lld %s\n", (long long)json_integer_value(json_object_get(counts, names[number])), names[number]);
    puts("");
    qsort(unknown, files, sizeof *unknown, by_name);
    for (size_t number = 0; number < files; number++)
        puts(unknown[number]);
    return status;
}
