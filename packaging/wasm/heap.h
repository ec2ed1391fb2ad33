/* The functions by which the library allocates memory, and the module's own. */
#ifndef HEAP_H
#define HEAP_H

typedef __SIZE_TYPE__ size_t;

/* A struct that is returned in two registers. */
typedef struct {
    size_t is_granted;
    void *address;
} memory;

memory rattle_alloc(size_t size, size_t alignment);
memory rattle_realloc(void *address, size_t old_size, size_t size, size_t alignment);
void rattle_dealloc(void *address);

/* Gives up all blocks. Is called before the first allocation too. */
void forget_all(void);

#endif
