/* Calls the library with just the room that modinfo.h calls enough, on the texts and documents whose answers are long for
 * their length. Prints how many calls there were, and how many had too little room. */
#include <stdio.h>
#include <stdlib.h>
#include <string.h>

#include "modinfo.h"

/* What a text or a document begins with, repeats and ends with. A %d stands for the number of the repetition, a %e for
 * that number and two. */
struct form {
    const char *first, *repeated, *last;
    const char *specifier;
};

static const struct form texts[] = {
    {"", "import\"\";", "", "file:///a.js"},
    {"", "import\"\"\n", "", "file:///a.js"},
    {"", "export*from\"\";", "", "file:///a.js"},
    {"", "import\"\"with{};", "", "file:///a.js"},
    {"", "import(a);", "", "file:///a.js"},
    {"", "import(a,b);", "", "file:///a.js"},
    {"", "require(a);", "", "file:///a.js"},
    {"import(`", "${b}c", "`)", "file:///a.js"},
    {"import(\"\"", "+\"\"", ")", "file:///a.js"},
    {"import(\"\"", "+b", ")", "file:///a.js"},
    {"import\"", "\1", "\"", "file:///a.js"},
    {"import(a,{with:{", "\"%d\1\":b,", "}})", "file:///a.js"},
    {"let x:", "import(\"\")|", "T", "file:///a.ts"},
    {"declare module\"./a\"{", "module\"\"{}", "}", "file:///a.ts"},
    {"", "declare module\"\"{}", "", "file:///a.ts"},
    {"", "/*@ts-types='x'*/import\"\";", "", "file:///a.js"},
    {"", "///<reference path=\"\"/>\n", "0", "file:///a.ts"},
    {"/**", "{import(\"\")", "}*/", "file:///a.js"},
    {"/**", "@import a from\"\"", "*/", "file:///a.js"},
    {"/*@jsxImportSource \1*//*@jsxImportSourceTypes \1*//*@ts-self-types='\1'*/", "\n", "0//#sourceMappingURL=\1",
     "file:///a.jsx"},
    {"", "let a = ;", "", "file:///a.js"},
    {"", "", "", "no URL"},
    {"\xff", "", "", "file:///a.js"},
};

#define MODULE "{\"specifier\":\"file:///a.ts\",\"mediaType\":\"TypeScript\",\"source\":"
#define SPACES "                                                                                "
#define WIDE SPACES SPACES SPACES SPACES SPACES SPACES SPACES SPACES SPACES SPACES SPACES SPACES SPACES SPACES
#define BODY MODULE "\"" WIDE "\",\"program\":{\"range\":[0,0],\"body\":["
#define OTHER "{\"kind\":\"Other\",\"range\":[0,0]}"
#define LAST OTHER "]}}"

static const struct form documents[] = {
    {BODY, "{\"kind\":\"ImportDecl\",\"range\":[%d,%d],\"src\":{\"value\":\"\",\"range\":[%d,%d]}},", LAST, NULL},
    {BODY, "{\"kind\":\"ModuleDecl\",\"range\":[%d,%d],\"name\":{\"value\":\"\",\"range\":[%d,%d]}},", LAST, NULL},
    {BODY "{\"kind\":\"ImportType\",\"range\":[0,0],\"arg\":{\"range\":[0,0],\"value\":[", "1,", "1]}}]}}", NULL},
    {BODY "{\"kind\":\"ImportType\",\"range\":[0,0],\"arg\":{\"range\":[0,0],\"value\":[", "55296,", "1]}}]}}", NULL},
};

/* Any two of these characters spell an empty string. */
#define QUOTES "''''''''''''''''''''''''''"
#define MANY_QUOTES QUOTES QUOTES QUOTES QUOTES
static const struct form estree_documents[] = {
    {MODULE "\"" MANY_QUOTES "\",\"program\":{\"type\":\"Program\",\"body\":[",
     "{\"type\":\"ImportDeclaration\",\"start\":%d,\"end\":%e,\"source\":{\"type\":\"Literal\",\"value\":\"\",\"start\":%d,"
     "\"end\":%e}},",
     "{\"type\":\"EmptyStatement\",\"start\":0,\"end\":0}],\"comments\":[]}}", NULL},
};

static const struct form graphs[] = {
    {"{\"root\":\"a\",\"modules\":{", "\"%d\":{},", "\"a\":{}}}", NULL},
    {"{\"root\":\"\\u0001", "\\u0001", "\",\"modules\":{}}", NULL},
};

static const struct form stored[] = {
    {"{\"dependencies\":[", "{\"leadingComments\":[{\"range\":[[0,9],[0,9]],\"text\":\"@deno-types=x\"}]},", "0]}", NULL},
    {"[", "\"\x7f\",", "0]", NULL},
};

static int calls, small;

static void count(const char *what, uint8_t status)
{
    calls++;
    if (status == MODINFO_TOO_SMALL) {
        fprintf(stderr, "rooms: too little room for %s\n", what);
        small++;
    }
}

static void *allocate(size_t length)
{
    void *at = malloc(length);
    if (at == NULL)
        exit(2);
    return at;
}

/* The text with so many repetitions. */
static uint8_t *made(const struct form *form, int repetitions, size_t *length)
{
    size_t room = strlen(form->first) + strlen(form->last) + (strlen(form->repeated) + 40) * (size_t)repetitions + 1;
    char *text = allocate(room);
    char *end = text + sprintf(text, "%s", form->first);
    for (int number = 0; number < repetitions; number++)
        for (const char *at = form->repeated; *at != 0; at++)
            if (at[0] == '%' && (at[1] == 'd' || at[1] == 'e'))
                end += sprintf(end, "%d", at[1] == 'd' ? number : number + 2), at++;
            else
                *end++ = *at;
    end += sprintf(end, "%s", form->last);
    *length = (size_t)(end - text);
    uint8_t *copy = allocate(*length + 1);
    memcpy(copy, text, *length);
    free(text);
    return copy;
}

static void try_text(const struct form *form, int repetitions)
{
    size_t length, written, room;
    uint8_t *text = made(form, repetitions, &length);
    const uint8_t *specifier = (const uint8_t *)form->specifier;
    room = MODINFO_SOURCE_ROOM(length);
    uint8_t *answer = allocate(room);
    count(form->repeated, modinfo_analyze_source(text, length, specifier, strlen(form->specifier), MODINFO_OF_SPECIFIER,
                                                 answer, room, &written));
    count(form->repeated, modinfo_check_source(text, length, specifier, strlen(form->specifier), MODINFO_OF_SPECIFIER,
                                               answer, room, &written));
    free(answer);
    free(text);
}

static void try_document(uint8_t command, const struct form *form, int repetitions)
{
    size_t length, written, room;
    uint8_t *document = made(form, repetitions, &length);
    room = MODINFO_DOCUMENT_ROOM(length);
    uint8_t *answer = allocate(room);
    uint8_t status = modinfo_run(command, document, length, answer, room, &written);
    if (status == MODINFO_FAULT)
        fprintf(stderr, "rooms: %.*s\n", (int)written, (const char *)answer), small++;
    count(form->repeated, status);
    free(answer);
    free(document);
}

#define TRY(command, forms, repetitions)                           \
    for (size_t at = 0; at < sizeof forms / sizeof *forms; at++) \
    try_document(command, &forms[at], repetitions)

int main(void)
{
    static const int repetitions[] = {0, 1, 2, 9, 100};
    for (size_t n = 0; n < sizeof repetitions / sizeof *repetitions; n++) {
        for (size_t at = 0; at < sizeof texts / sizeof *texts; at++)
            try_text(&texts[at], repetitions[n]);
        TRY(MODINFO_ANALYZE, documents, repetitions[n]);
        TRY(MODINFO_ANALYZE_ESTREE, estree_documents, repetitions[n]);
        TRY(MODINFO_REACH, graphs, repetitions[n]);
        TRY(MODINFO_CONVERT, stored, repetitions[n]);
    }
    printf("%d calls, %d with too little room\n", calls, small);
    return 0;
}
