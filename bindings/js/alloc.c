/* The heap of the module: the three functions that compiled Rattle code calls for memory, over
   memory.grow. Blocks come in classes of size, four to each doubling. A block that is given back
   goes to the list of its class; once all are given back, the whole heap is free again. A request
   that the engine does not serve is answered `served` = false, and the library then returns
   GOQ_OUT_OF_MEMORY. host_alloc and host_free serve the host's own buffers. Only this code lets the
   memory grow. For one thread. */
typedef unsigned char byte;
typedef unsigned long size;

struct request {
    _Bool served;
    byte *bytes; /* not null, even if it is not served */
};

/* Stands before each block, so that a block is aligned to 16 bytes. */
struct head {
    size class;
    struct head *next;
};

enum { CLASSES = 160, PAGE = 65536 };
#define LARGEST ((size)1 << 40)

extern byte __heap_base;
static struct head *spare[CLASSES];
static byte *end, *limit; /* of what was given out; of what may be */
static size live; /* blocks that are out */

/* Returns the class of the smallest blocks that have n bytes, and the bytes of its blocks: 16, 32,
   48, 64, 80, 96, 112, 128, 160, 192, 224, 256, 320 .. */
static size class_of(size n, size *bytes)
{
    size units = (n + 15) / 16;
    if (units <= 4) {
        *bytes = (units ? units : 1) * 16;
        return units ? units : 1;
    }
    size top = 63 - __builtin_clzl(units - 1);
    size step = (size)1 << (top - 2);
    size count = (units + step - 1) / step; /* 5 to 8 */
    *bytes = count * step * 16;
    return (top - 2) * 4 + count;
}

/* Takes n bytes, a multiple of 16, from the end of the memory; null if it does not grow. */
static byte *fresh(size n)
{
    if (n > (size)(limit - end)) {
        size pages = (n - (size)(limit - end) + PAGE - 1) / PAGE;
        /* -1, in 32 bits once the module was lowered to a memory of 32 bits */
        if ((unsigned)__builtin_wasm_memory_grow(0, pages) == (unsigned)-1)
            return 0;
        limit += pages * PAGE;
    }
    byte *block = end;
    end += n;
    return block;
}

static byte *taken(size n)
{
    if (n > LARGEST)
        return 0;
    if (live == 0) {
        end = (byte *)(((size)&__heap_base + 15) / 16 * 16);
        limit = (byte *)(__builtin_wasm_memory_size(0) * PAGE);
        __builtin_memset(spare, 0, sizeof spare);
    }
    size bytes, class = class_of(n, &bytes);
    struct head *head = spare[class];
    if (head != 0)
        spare[class] = head->next;
    else
        head = (struct head *)fresh(sizeof *head + bytes);
    if (head == 0)
        return 0;
    live++;
    head->class = class;
    return (byte *)(head + 1);
}

static void given(byte *block)
{
    struct head *head = (struct head *)block - 1;
    head->next = spare[head->class];
    spare[head->class] = head;
    live--;
}

static struct request answer(byte *block)
{
    return (struct request){block != 0, block ? block : (byte *)16};
}

struct request rattle_alloc(size n, size alignment)
{
    return alignment > 16 ? answer(0) : answer(taken(n));
}

struct request rattle_realloc(byte *old, size kept, size n, size alignment)
{
    size bytes;
    if (n <= LARGEST && class_of(n, &bytes) == ((struct head *)old - 1)->class)
        return answer(old);
    struct request new = rattle_alloc(n, alignment);
    if (new.served) {
        __builtin_memcpy(new.bytes, old, kept < n ? kept : n);
        given(old);
    }
    return new;
}

void rattle_dealloc(byte *block)
{
    given(block);
}

/* Exports for the host. The attribute export_name would also make the module want a table. */
__asm__(".export_name host_alloc, host_alloc\n.export_name host_free, host_free");

/* The guard of exports, as those of the library have it: after a trap none runs. */
_Bool __rattle_enter(void);
void __rattle_leave(void);
void __rattle_trap(void);

/* Returns a block of n bytes for the host, or 0. */
byte *host_alloc(size n)
{
    if (__rattle_enter())
        __rattle_trap();
    byte *block = taken(n);
    __rattle_leave();
    return block;
}

/* Takes back a block of host_alloc. */
void host_free(byte *block)
{
    if (__rattle_enter())
        __rattle_trap();
    given(block);
    __rattle_leave();
}
