/* Writes a PBM file of a symbol to standard output. */
#include <goqlanis.h>
#include <stdio.h>

int main(void) {
    static uint8_t modules[GOQ_MODULES_MAX], file[40000];
    goq_symbol s;
    size_t count = 0;
    if (goq_encode_text((const uint8_t *)"https://example.org/", 20, GOQ_M, modules, sizeof modules, &s)
        || goq_draw(modules, s.width * s.width, s.width, 4, 8, GOQ_PBM, file, sizeof file, &count))
        return 1;
    return fwrite(file, 1, count, stdout) != count;
}
