/* The three functions by which the library allocates memory, with malloc. The kit has an archive of them for x86-64; this
 * file is for the other processors. A request for no bytes allocates as many as its alignment, so that each address is
 * different. */
#include <stdint.h>
#include <stdlib.h>

/* The size of a struct that is returned in two registers. */
struct memory {
    uint64_t is_granted;
    void *address;
};

struct memory rattle_alloc(size_t size, size_t alignment);
struct memory rattle_realloc(void *address, size_t old_size, size_t size, size_t alignment);
void rattle_dealloc(void *address);

/* The address that is returned where an allocation fails. */
static char nothing;

static struct memory memory_at(void *address)
{
    struct memory memory = {address != NULL, address != NULL ? address : &nothing};
    return memory;
}

struct memory rattle_alloc(size_t size, size_t alignment)
{
    return memory_at(malloc(size != 0 ? size : alignment));
}

struct memory rattle_realloc(void *address, size_t old_size, size_t size, size_t alignment)
{
    (void)old_size;
    return memory_at(realloc(address, size != 0 ? size : alignment));
}

void rattle_dealloc(void *address)
{
    free(address);
}
