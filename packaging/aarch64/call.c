/* Calls the library, for tests on another processor. The standard input has calls: a line with the function's name and
 * the document's length, and then the document. For each it prints a line with the status and the length, and then what
 * the function wrote. */
#include <stdio.h>
#include <stdlib.h>
#include <string.h>

#include "modinfo.h"

typedef uint8_t function(const uint8_t *, size_t, uint8_t *, size_t, size_t *);

/* Each command: its own function, or none where that takes a text in place of a document, and its number. The test
 * writes the commands from docs/commands.json. */
static const struct command {
    const char *name;
    function *function;
    uint8_t number;
} commands[] = {
#include "commands.inc"
};

static void stop(const char *why)
{
    fprintf(stderr, "call: %s\n", why);
    exit(2);
}

static const struct command *command_named(const char *name)
{
    for (size_t i = 0; i < sizeof commands / sizeof *commands; i++)
        if (strcmp(commands[i].name, name) == 0)
            return &commands[i];
    stop("there is no such function");
    return NULL;
}

static uint8_t run(const struct command *command, const uint8_t *document, size_t document_length, uint8_t *answer,
                   size_t room, size_t *length)
{
    if (command->function == NULL)
        return modinfo_run(command->number, document, document_length, answer, room, length);
    return command->function(document, document_length, answer, room, length);
}

static void call(const struct command *command, const uint8_t *document, size_t document_length)
{
    size_t room = 1, length = 0;
    uint8_t *answer = malloc(room);
    uint8_t status = run(command, document, document_length, answer, room, &length);
    if (status == MODINFO_TOO_SMALL) {
        free(answer);
        room = length;
        answer = malloc(room);
        status = run(command, document, document_length, answer, room, &length);
    }
    printf("%d %zu\n", status, length);
    fwrite(answer, 1, length, stdout);
    free(answer);
}

int main(void)
{
    char name[20];
    size_t length;
    while (scanf("%19s %zu", name, &length) == 2) {
        uint8_t *document = malloc(length + 1);
        if (getchar() != '\n' || fread(document, 1, length, stdin) != length)
            stop("a document is shorter than its length");
        call(command_named(name), document, length);
        free(document);
    }
    return 0;
}
