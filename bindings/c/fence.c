/* Serves the library's memory for tests: each block ends where memory ends, and is gone once it is
   given back, so that a read or write elsewhere ends the program. Bytes that nobody wrote differ
   from block to block. */
#define _GNU_SOURCE
#include <stdbool.h>
#include <stddef.h>
#include <stdint.h>
#include <string.h>
#include <sys/mman.h>
#include <unistd.h>

struct rattle_request {
    bool served;
    unsigned char *bytes; /* not null, even if it is not served */
};

static size_t live, served;

/* A page with the length of all, then the block at the end of its pages, and a page of nothing. */
struct rattle_request rattle_alloc(size_t size, size_t alignment)
{
    const size_t page = (size_t)sysconf(_SC_PAGESIZE), inner = (size + page - 1) / page * page;
    const size_t all = inner + 2 * page;
    unsigned char *start = size > SIZE_MAX / 2 ? MAP_FAILED
        : mmap(NULL, all, PROT_READ | PROT_WRITE, MAP_PRIVATE | MAP_ANONYMOUS, -1, 0);
    if (start == MAP_FAILED || mprotect(start + page + inner, page, PROT_NONE))
        return (struct rattle_request){false, (unsigned char *)&live};
    unsigned char *bytes = start + page + (inner - size) / alignment * alignment;
    memset(bytes, (int)(served++ * 37 + 11), size);
    memcpy(start, &all, sizeof all);
    live++;
    return (struct rattle_request){true, bytes};
}

void rattle_dealloc(unsigned char *bytes)
{
    const size_t page = (size_t)sysconf(_SC_PAGESIZE);
    unsigned char *start = bytes - (uintptr_t)bytes % page - page;
    size_t all;
    memcpy(&all, start, sizeof all);
    munmap(start, all);
    live--;
}

struct rattle_request rattle_realloc(unsigned char *old, size_t kept, size_t size, size_t alignment)
{
    struct rattle_request fresh = rattle_alloc(size, alignment);
    if (fresh.served) {
        memcpy(fresh.bytes, old, kept < size ? kept : size);
        rattle_dealloc(old);
    }
    return fresh;
}

size_t pool_live(void)
{
    return live;
}
