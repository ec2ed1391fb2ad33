/* The functions by which the program reads its words and the number of the last error. The kit has an archive of them for
 * x86-64; this file is for the other processors. */
#include <errno.h>
#include <stdint.h>
#include <string.h>

enum { NO_ARGUMENT = -1, TOO_SMALL = -2 };

int64_t rattle_arg_count(void);
int64_t rattle_arg(uint64_t number, uint8_t *room, uint64_t size);
int rattle_errno(void);
void rattle_set_errno(int number);

static int count;
static char **words;

/* The C library of Linux hands the words of main to each such function before main runs. */
__attribute__((constructor)) static void keep(int argument_count, char **arguments)
{
    count = argument_count;
    words = arguments;
}

int64_t rattle_arg_count(void)
{
    return count;
}

/* The length of a word, which is copied without a zero byte. */
int64_t rattle_arg(uint64_t number, uint8_t *room, uint64_t size)
{
    if (number >= (uint64_t)count || words[number] == NULL)
        return NO_ARGUMENT;
    size_t length = strlen(words[number]);
    if (length > size)
        return TOO_SMALL;
    memcpy(room, words[number], length);
    return (int64_t)length;
}

int rattle_errno(void)
{
    return errno;
}

void rattle_set_errno(int number)
{
    errno = number;
}
