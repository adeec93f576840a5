/* Serves the library's memory from a static pool, without malloc, by the three functions that it
   calls. Blocks follow each other; once all are given back, the whole pool is free again. It is for
   one thread. For tests, requests can be made to fail from a given number on. */
#include <stdbool.h>
#include <stddef.h>
#include <string.h>

struct rattle_request {
    bool served;
    unsigned char *bytes; /* not null, even if it is not served */
};

#ifndef POOL_BYTES
#define POOL_BYTES (2 * 1024 * 1024)
#endif

static _Alignas(16) unsigned char pool[POOL_BYTES];
static size_t used, live;
size_t pool_requests, pool_refused = (size_t)-1, pool_refusals = 1, pool_most;

static struct rattle_request answer(unsigned char *bytes)
{
    return (struct rattle_request){bytes != NULL, bytes ? bytes : pool};
}

struct rattle_request rattle_alloc(size_t size, size_t alignment)
{
    size_t start = (used + alignment - 1) / alignment * alignment;
    size_t number = pool_requests++;
    if (number - pool_refused < pool_refusals || size > sizeof pool || start > sizeof pool - size)
        return answer(NULL);
    used = start + size;
    pool_most = used > pool_most ? used : pool_most;
    live++;
    return answer(pool + start);
}

struct rattle_request rattle_realloc(unsigned char *old, size_t kept, size_t size, size_t alignment)
{
    struct rattle_request fresh = rattle_alloc(size, alignment);
    if (fresh.served) {
        memmove(fresh.bytes, old, kept < size ? kept : size);
        live--;
    }
    return fresh;
}

void rattle_dealloc(unsigned char *bytes)
{
    (void)bytes;
    if (--live == 0)
        used = 0;
}

size_t pool_live(void)
{
    return live;
}
