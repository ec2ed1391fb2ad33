/* Counts the calls of the library that copy their document: those that ask malloc for more than a million bytes more where
 * the document has a million spaces more. The JSON reader asks for as many bytes as its text has, for strings without
 * their escapes. Whatever a call asks for beyond that is a copy. */
#include <stdio.h>
#include <stdlib.h>
#include <string.h>

#include "modinfo.h"

enum { SPACES = 1000000, ROOM = 4096 };

#define MODULE "{\"specifier\":\"file:///a.js\",\"mediaType\":\"JavaScript\",\"source\":\"\",\"program\":{\"range\":[0,0],\"body\":[]}}"
#define ESTREE "{\"specifier\":\"file:///a.js\",\"mediaType\":\"JavaScript\",\"source\":\"\",\"program\":{\"type\":\"Program\",\"body\":[],\"comments\":[]}}"

static const struct {
    const char *name;
    uint8_t (*function)(const uint8_t *, size_t, uint8_t *, size_t, size_t *);
    uint8_t command;
    const char *document;
} calls[] = {
    {"analyze", modinfo_analyze, MODINFO_ANALYZE, MODULE},
    {"analyze_estree", modinfo_analyze_estree, MODINFO_ANALYZE_ESTREE, ESTREE},
    {"convert", modinfo_convert, MODINFO_CONVERT, "{}"},
    {"reach", modinfo_reach, MODINFO_REACH, "{\"root\":\"a\",\"modules\":{\"a\":{}}}"},
    {"check", modinfo_check, MODINFO_CHECK, MODULE},
    {"check_estree", modinfo_check_estree, MODINFO_CHECK_ESTREE, ESTREE},
    {"check_convert", modinfo_check_convert, MODINFO_CHECK_CONVERT, "{}"},
    {"check_reach", modinfo_check_reach, MODINFO_CHECK_REACH, "{\"root\":\"a\",\"modules\":{\"a\":{}}}"},
};

static size_t asked;

/* The functions of the C library, which these two hide. */
void *__libc_malloc(size_t size);
void *__libc_realloc(void *old, size_t size);

void *malloc(size_t size)
{
    asked += size;
    return __libc_malloc(size);
}

void *realloc(void *old, size_t size)
{
    asked += size;
    return __libc_realloc(old, size);
}

/* The bytes that a call asks for, as a function of its own or of modinfo_lines. */
static size_t asked_by(size_t call, int is_by_lines, const uint8_t *document, size_t document_length)
{
    uint8_t answer[ROOM], status;
    size_t length;
    asked = 0;
    if (is_by_lines)
        status = modinfo_lines(calls[call].command, document, document_length, answer, ROOM, &length);
    else
        status = calls[call].function(document, document_length, answer, ROOM, &length);
    if (status != MODINFO_ANSWERED) {
        fprintf(stderr, "allocated: %s returns %d\n", calls[call].name, status);
        exit(1);
    }
    return asked;
}

int main(void)
{
    uint8_t *document = __libc_malloc(SPACES + ROOM);
    int count = 0, copies = 0;
    for (size_t call = 0; call < sizeof calls / sizeof *calls; call++) {
        size_t length = strlen(calls[call].document);
        memcpy(document, calls[call].document, length);
        memset(document + length, ' ', SPACES);
        for (int is_by_lines = 0; is_by_lines < 2; is_by_lines++) {
            size_t few = asked_by(call, is_by_lines, document, length);
            size_t many = asked_by(call, is_by_lines, document, length + SPACES);
            count++;
            if (many > few + SPACES) {
                fprintf(stderr, "allocated: %s%s: %zu bytes more\n", is_by_lines ? "lines of " : "", calls[call].name,
                        many - few);
                copies++;
            }
        }
    }
    printf("%d calls, %d copies\n", count, copies);
    return 0;
}
