/* What a program that is linked with musl needs of what glibc does: before main runs, the words of the command line are
 * handed to the functions that keep them, as that of the kit's archive. musl hands them nothing, so the program is
 * linked with --wrap=main, and they are called again. */
#include <cpuid.h>
#include <sys/syscall.h>
#include <unistd.h>

typedef void initializer(int, char **, char **);

extern initializer *__init_array_start[], *__init_array_end[];
extern char **environ;

/* Of a group of the processor's features, in four registers: which there are, and which can be used. */
typedef struct {
    unsigned found[4], usable[4];
} features;

int __real_main(int, char **);
int __wrap_main(int, char **);
const features *__x86_get_cpuid_feature_leaf(unsigned);
ssize_t __write(int, const void *, size_t);
int statx(int, const char *, int, unsigned, void *);
long syscall(long, ...);

int __wrap_main(int count, char **words)
{
    for (initializer **each = __init_array_start; each < __init_array_end; each++)
        (*each)(count, words, environ);
    return __real_main(count, words);
}

/* By this and by the next function main refuses a processor that lacks what it needs. */
const features *__x86_get_cpuid_feature_leaf(unsigned group)
{
    static const unsigned leaves[] = {1, 7, 0x80000001};
    static features result[3], none;
    if (group > 2)
        return &none;
    unsigned *of = result[group].usable;
    __get_cpuid_count(leaves[group], 0, of, of + 1, of + 2, of + 3);
    return &result[group];
}

ssize_t __write(int file, const void *bytes, size_t length)
{
    return write(file, bytes, length);
}

/* Debian's musl has no function for this call of the system. */
int statx(int folder, const char *path, int flags, unsigned mask, void *found)
{
    return (int)syscall(SYS_statx, folder, path, flags, mask, found);
}
