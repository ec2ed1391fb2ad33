/* Analyzes each of the named documents in this one process, and prints what ./modinfo prints.
 *
 * --again analyzes the same document COUNT times, and prints the peak memory alone.
 */
#include <stdio.h>
#include <stdlib.h>
#include <string.h>
#include <sys/resource.h>

#include "modinfo.h"

struct bytes {
    uint8_t *at;
    size_t length;
};

static const char usage[] =
    "usage: analyze DOCUMENT ..\n"
    "       analyze --again COUNT DOCUMENT\n"
    "example: analyze examples/small-module.json\n\n"
    "Analyzes each document in this one process, and prints what ./modinfo prints. With --again analyzes the\n"
    "document COUNT times, and prints the peak memory.\n";

static void stop(const char *what, const char *name)
{
    fprintf(stderr, "analyze: %s %s\n", what, name);
    exit(2);
}

static struct bytes read_file(const char *name)
{
    FILE *file = fopen(name, "rb");
    if (file == NULL || fseek(file, 0, SEEK_END) != 0)
        stop("can't read", name);
    long length = ftell(file);
    rewind(file);
    struct bytes read = {malloc((size_t)length + 1), (size_t)length};
    if (read.at == NULL || fread(read.at, 1, read.length, file) != read.length)
        stop("can't read", name);
    fclose(file);
    return read;
}

/* The answer in `answer`, which grows where it is too small. */
static uint8_t analyze(struct bytes document, struct bytes *answer, size_t *length)
{
    uint8_t status = modinfo_analyze(document.at, document.length, answer->at, answer->length, length);
    if (status != MODINFO_TOO_SMALL)
        return status;
    answer->at = realloc(answer->at, *length);
    if (answer->at == NULL)
        stop("out of memory:", "the output has no room");
    answer->length = *length;
    return modinfo_analyze(document.at, document.length, answer->at, answer->length, length);
}

static int print(struct bytes document, struct bytes *answer)
{
    size_t length = 0;
    uint8_t status = analyze(document, answer, &length);
    if (status == MODINFO_ANSWERED)
        return fwrite(answer->at, 1, length, stdout) == length ? 0 : 1;
    fprintf(stderr, "modinfo: %.*s\n", (int)length, (const char *)answer->at);
    return 1;
}

static long peak_kilobytes(void)
{
    struct rusage usage;
    getrusage(RUSAGE_SELF, &usage);
    return usage.ru_maxrss;
}

static int again(long count, const char *name)
{
    struct bytes document = read_file(name);
    struct bytes answer = {malloc(1), 1};
    size_t length = 0;
    for (long call = 0; call < count; call++)
        if (analyze(document, &answer, &length) != MODINFO_ANSWERED)
            stop("no output for", name);
    printf("%ld calls, %ld KiB at most\n", count, peak_kilobytes());
    return 0;
}

int main(int count, char **words)
{
    if (count == 2 && (strcmp(words[1], "-h") == 0 || strcmp(words[1], "--help") == 0))
        return fputs(usage, stdout) < 0;
    if (count == 4 && strcmp(words[1], "--again") == 0)
        return again(atol(words[2]), words[3]);
    struct bytes answer = {malloc(1), 1};
    int status = 0;
    for (int word = 1; word < count; word++) {
        struct bytes document = read_file(words[word]);
        if (print(document, &answer) != 0)
            status = 1;
        free(document.at);
    }
    free(answer.at);
    return status;
}
