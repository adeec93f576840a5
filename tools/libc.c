/* Memory for the library and the program on 64-bit ARM, as the kit's liblibc_c.a gives it on
   x86-64. */
#include <stdbool.h>
#include <stdlib.h>

/* Whether there was memory, and where. */
struct answer {
    bool is_made;
    void *at;
};

static char none;

static struct answer answer(void *at) {
    return (struct answer){at != NULL, at ? at : &none};
}

struct answer rattle_alloc(size_t size, size_t align) {
    return answer(malloc(size ? size : align));
}

struct answer rattle_realloc(void *old, size_t old_size, size_t size, size_t align) {
    (void)old_size;
    return answer(realloc(old, size ? size : align));
}

void rattle_dealloc(void *old) {
    free(old);
}
