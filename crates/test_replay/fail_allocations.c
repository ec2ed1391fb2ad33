// Lets each allocation of the program that it is loaded into fail, all in one run.
//
// At each allocation the program is forked. In the child the allocation fails (where FAIL_ALL is set,
// every later one too), and the child runs to its end. Its output is kept, and the parent goes on with
// the memory. Where PARTS is set, only the allocations fail whose number modulo PARTS is PART. After the
// first ALL_UP_TO only a third fail, by a hash of their numbers: a plain third would miss a call in a loop
// that allocates three times a turn. When the parent ends, it writes to the file descriptor REPORT a line
// with the number of allocations, and then each different output of a child, once:
//
//     requests NUMBER
//     answer REQUEST COUNT STATUS LENGTH LENGTH
//
// REQUEST is the number of the first allocation with this output, COUNT the number of allocations with
// it, STATUS the exit status, or 128 plus the signal. The line is followed by the output and the error
// output, of these lengths. The program's output and error output have to be files.
#define _GNU_SOURCE
#include <dlfcn.h>
#include <fcntl.h>
#include <stdint.h>
#include <stdio.h>
#include <stdlib.h>
#include <string.h>
#include <sys/mman.h>
#include <sys/wait.h>
#include <unistd.h>

enum { SECONDS = 60, ALL_UP_TO = 1000, ANSWERS = 64, LONGEST = 1 << 16, DESCRIPTORS = 64 };

struct answer {
    long request, count;
    int status;
    size_t lengths[2];
    char *bytes[2];
};

static struct answer answers[ANSWERS];
static size_t answer_count;
static long requests, part = 0, parts = 1;
static int is_child, succeeds = 1, fails_all, report = -1;

static void stop(const char *why) {
    fprintf(stderr, "fail_allocations: %s\n", why);
    _exit(99);
}

__attribute__((constructor)) static void start(void) {
    fails_all = getenv("FAIL_ALL") != NULL;
    if (getenv("PARTS")) {
        part = atol(getenv("PART"));
        parts = atol(getenv("PARTS"));
    }
    if (getenv("REPORT"))
        report = atoi(getenv("REPORT"));
    succeeds = report < 0;
}

__attribute__((destructor)) static void end(void) {
    if (is_child || report < 0)
        return;
    succeeds = 1;
    dprintf(report, "requests %ld\n", requests);
    for (size_t i = 0; i < answer_count; i++) {
        struct answer *a = &answers[i];
        dprintf(report, "answer %ld %ld %d %zu %zu\n", a->request, a->count, a->status, a->lengths[0], a->lengths[1]);
        for (int stream = 0; stream < 2; stream++)
            if (write(report, a->bytes[stream], a->lengths[stream]) != (ssize_t)a->lengths[stream])
                stop("the report can't be written");
    }
}

// A file in memory with what was written to a descriptor so far.
static int copy_of(int descriptor) {
    char bytes[4096];
    ssize_t length;
    off_t at = 0;
    int copy = memfd_create("copy", 0);
    while ((length = pread(descriptor, bytes, sizeof bytes, at)) > 0) {
        if (write(copy, bytes, length) != length)
            stop("output can't be copied");
        at += length;
    }
    if (copy < 0 || length < 0)
        stop("output can't be copied");
    return copy;
}

// Opens every other file of the child anew, so that it doesn't read on in its parent's.
static void open_anew(void) {
    for (int old = 0; old < DESCRIPTORS; old++) {
        char name[32];
        off_t at = lseek(old, 0, SEEK_CUR);
        if (old == 1 || old == 2 || old == report || at < 0)
            continue;
        snprintf(name, sizeof name, "/proc/self/fd/%d", old);
        int copy = open(name, O_RDONLY | O_CLOEXEC);
        if (copy < 0 || lseek(copy, at, SEEK_SET) != at || dup2(copy, old) < 0)
            stop("a file can't be opened anew");
        close(copy);
    }
}

static size_t read_all(int descriptor, char *bytes) {
    ssize_t length = pread(descriptor, bytes, LONGEST, 0);
    close(descriptor);
    if (length < 0 || length == LONGEST)
        stop("output is too long");
    return length;
}

static void note(int status, const int copies[2]) {
    static char bytes[2][LONGEST];
    size_t lengths[2];
    for (int stream = 0; stream < 2; stream++)
        lengths[stream] = read_all(copies[stream], bytes[stream]);
    for (size_t i = 0; i < answer_count; i++) {
        struct answer *a = &answers[i];
        if (a->status == status && !memcmp(a->lengths, lengths, sizeof lengths) &&
            !memcmp(a->bytes[0], bytes[0], lengths[0]) && !memcmp(a->bytes[1], bytes[1], lengths[1])) {
            a->count++;
            return;
        }
    }
    if (answer_count == ANSWERS)
        stop("there are too many different outputs");
    struct answer *a = &answers[answer_count++];
    *a = (struct answer){.request = requests, .count = 1, .status = status};
    for (int stream = 0; stream < 2; stream++) {
        a->lengths[stream] = lengths[stream];
        a->bytes[stream] = memcpy(malloc(lengths[stream] + 1), bytes[stream], lengths[stream]);
    }
}

// Whether an allocation is one of those that fail.
static int is_chosen(long request) {
    return request % parts == part && (request <= ALL_UP_TO || ((uint32_t)request * 2654435761u >> 16) % 3 == 0);
}

// Whether the allocation fails in this process.
static int has_to_fail(void) {
    if (succeeds)
        return 0;
    if (is_child)
        return fails_all;
    if (!is_chosen(++requests))
        return 0;
    succeeds = 1;
    int status, copies[2] = {copy_of(1), copy_of(2)};
    pid_t child = fork();
    if (child == 0) {
        is_child = 1;
        dup2(copies[0], 1);
        dup2(copies[1], 2);
        close(copies[0]);
        close(copies[1]);
        open_anew();
        alarm(SECONDS);
        succeeds = 0;
        return 1;
    }
    if (child < 0 || waitpid(child, &status, 0) != child)
        stop("the program can't be forked");
    note(WIFSIGNALED(status) ? 128 + WTERMSIG(status) : WEXITSTATUS(status), copies);
    succeeds = 0;
    return 0;
}

void *malloc(size_t size) {
    static void *(*next)(size_t);
    if (!next)
        next = (void *(*)(size_t))dlsym(RTLD_NEXT, "malloc");
    return has_to_fail() ? NULL : next(size);
}

void *realloc(void *old, size_t size) {
    static void *(*next)(void *, size_t);
    if (!next)
        next = (void *(*)(void *, size_t))dlsym(RTLD_NEXT, "realloc");
    return has_to_fail() ? NULL : next(old, size);
}
