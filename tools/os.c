/* The program's arguments, environment and errors on 64-bit ARM, as the kit's libos_c.a gives them
   on x86-64. */
#include <errno.h>
#include <stdlib.h>
#include <sys/types.h>

static int count;
static char **words;

__attribute__((constructor)) static void keep(int argc, char **argv) {
    count = argc;
    words = argv;
}

/* Copies a text without its NUL. Returns its length, -1 without a text, -2 without room. */
static ssize_t copy(const char *from, char *out, size_t room) {
    if (!from)
        return -1;
    size_t n = 0;
    for (; from[n]; n++) {
        if (n == room)
            return -2;
        out[n] = from[n];
    }
    return (ssize_t)n;
}

ssize_t rattle_arg(size_t i, char *out, size_t room) {
    return copy(i < (size_t)count ? words[i] : NULL, out, room);
}

ssize_t rattle_env(const char *name, char *out, size_t room) {
    return copy(getenv(name), out, room);
}

int rattle_errno(void) {
    return errno;
}

void rattle_set_errno(int value) {
    errno = value;
}
