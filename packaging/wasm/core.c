/* What the WebAssembly module exports. Its numbers have 32 bits, as those of JavaScript have. A call is
 *
 *     address = reserve(length)    gives up all of the call before, and returns room for what is handed in; 0 if
 *                                  there is no memory. A text is followed by its specifier.
 *     status = run(command, length), analyze_source(..) or check_source(..)
 *     answer(), answer_length()    the answer or the name of the fault, in UTF-8; the status is 0 or 1, as
 *                                  include/modinfo.h has it, or 3 for a command that there isn't
 */
#include "heap.h"

#define EXPORT(name) __attribute__((export_name(#name))) unsigned name

/* The library's functions, as include/modinfo.h has them. Of what they return the lowest eight bits count. */
typedef const unsigned char *bytes;
unsigned modinfo_version(void);
unsigned modinfo_run(unsigned char, bytes, size_t, unsigned char *, size_t, size_t *);
unsigned modinfo_analyze_source(bytes, size_t, bytes, size_t, unsigned char, unsigned char *, size_t, size_t *);
unsigned modinfo_check_source(bytes, size_t, bytes, size_t, unsigned char, unsigned char *, size_t, size_t *);

enum { FAULT = 1, TOO_SMALL = 2, ROOM = 4096 };

static const char no_memory[] = "OutOfMemory";

static bytes document;
static unsigned char *result;
static size_t result_length;

/* A call that is made again where there is too little room for its answer. */
typedef struct {
    unsigned char kind, number;
    size_t length, specifier_length;
} call;

enum { RUN, ANALYZE_SOURCE, CHECK_SOURCE };

static unsigned once(const call *of, size_t room)
{
    bytes specifier = document + of->length;
    switch (of->kind) {
    case ANALYZE_SOURCE:
        return modinfo_analyze_source(document, of->length, specifier, of->specifier_length, of->number, result, room,
                                      &result_length);
    case CHECK_SOURCE:
        return modinfo_check_source(document, of->length, specifier, of->specifier_length, of->number, result, room,
                                    &result_length);
    default:
        return modinfo_run(of->number, document, of->length, result, room, &result_length);
    }
}

/* Makes a call with room of the document's length, which most answers need less than. */
static unsigned answered(call of)
{
    size_t room = of.length + ROOM;
    for (;;) {
        memory made = rattle_alloc(room, 1);
        if (!made.is_granted) {
            result = (unsigned char *)no_memory;
            result_length = sizeof no_memory - 1;
            return FAULT;
        }
        result = made.address;
        unsigned status = once(&of, room) & 0xff;
        if (status != TOO_SMALL)
            return status;
        rattle_dealloc(result);
        room = result_length;
    }
}

EXPORT(reserve)(unsigned length)
{
    forget_all();
    memory made = rattle_alloc(length, 1);
    document = made.address;
    return made.is_granted ? (unsigned)(size_t)document : 0;
}

EXPORT(run)(unsigned command, unsigned length)
{
    return answered((call){RUN, (unsigned char)command, length, 0});
}

EXPORT(analyze_source)(unsigned length, unsigned specifier_length, unsigned media_type)
{
    return answered((call){ANALYZE_SOURCE, (unsigned char)media_type, length, specifier_length});
}

EXPORT(check_source)(unsigned length, unsigned specifier_length, unsigned media_type)
{
    return answered((call){CHECK_SOURCE, (unsigned char)media_type, length, specifier_length});
}

EXPORT(answer)(void)
{
    return (unsigned)(size_t)result;
}

EXPORT(answer_length)(void)
{
    return (unsigned)result_length;
}

EXPORT(version)(void)
{
    return modinfo_version();
}
