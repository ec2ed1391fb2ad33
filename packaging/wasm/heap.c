/* The memory of the WebAssembly module: what the library allocates in one call. `forget_all` gives up everything before
 * the next call. A block has eight bytes before its address, which hold its class, the size of the block in 107 steps,
 * four for each doubling. A freed block is used again for a request of its class, or given back if it is the last one.
 * The memory grows up to the most that the module declares, and never shrinks. */
#include "heap.h"

enum { HEADER = 8, UNIT = 16, CLASSES = 108 };

/* The most bytes of one block. */
#define MOST ((size_t)1 << 31)

/* The memory grows by so many bytes, sixteen of the engine's pages. */
#define STEP ((size_t)1 << 20)
#define PAGES ((size_t)16)

/* The end of the module's constants, by the linker. */
extern unsigned char __heap_base;

typedef struct block {
    size_t class;
    struct block *next;
} block;

static block *freed[CLASSES];
static size_t top;

static size_t class_of(size_t size)
{
    size_t last = (size + HEADER - 1) / UNIT;
    size_t shift = last < 8 ? 0 : 61 - (size_t)__builtin_clzl(last);
    return shift * 4 + (last >> shift);
}

/* The bytes of a block of a class, with those before its address. */
static size_t size_of(size_t class)
{
    size_t shift = class < 8 ? 0 : class / 4 - 1;
    return ((class - shift * 4 + 1) << shift) * UNIT;
}

static block *block_of(void *address)
{
    return (block *)((unsigned char *)address - HEADER);
}

/* Whether the memory reaches to an address, once it has grown where it doesn't. */
static int reach(size_t end)
{
    size_t steps = (end + STEP - 1) / STEP, held = __builtin_wasm_memory_size(0) / PAGES;
    return steps <= held || __builtin_wasm_memory_grow(0, (steps - held) * PAGES) != (size_t)-1;
}

static memory granted(block *made)
{
    memory result = {1, (unsigned char *)made + HEADER};
    return result;
}

static memory refused(void)
{
    memory result = {0, &__heap_base};
    return result;
}

void forget_all(void)
{
    for (size_t class = 0; class < CLASSES; class++)
        freed[class] = 0;
    /* So that each address is a multiple of UNIT. */
    top = ((size_t)&__heap_base + UNIT - 1) / UNIT * UNIT + HEADER;
}

memory rattle_alloc(size_t size, size_t alignment)
{
    if (size > MOST || alignment > UNIT)
        return refused();
    size_t class = class_of(size);
    block *made = freed[class];
    if (made) {
        freed[class] = made->next;
        return granted(made);
    }
    made = (block *)top;
    if (!reach(top + size_of(class)))
        return refused();
    top += size_of(class);
    made->class = class;
    return granted(made);
}

memory rattle_realloc(void *address, size_t old_size, size_t size, size_t alignment)
{
    block *old = block_of(address);
    size_t end = (size_t)old + size_of(old->class);
    if (size <= size_of(old->class) - HEADER)
        return granted(old);
    if (end == top && size <= MOST && reach((size_t)old + size_of(class_of(size)))) {
        old->class = class_of(size);
        top = (size_t)old + size_of(old->class);
        return granted(old);
    }
    memory made = rattle_alloc(size, alignment);
    if (made.is_granted) {
        __builtin_memcpy(made.address, address, old_size);
        rattle_dealloc(address);
    }
    return made;
}

void rattle_dealloc(void *address)
{
    block *old = block_of(address);
    if ((size_t)old + size_of(old->class) == top) {
        top = (size_t)old;
    } else {
        old->next = freed[old->class];
        freed[old->class] = old;
    }
}
