/* Makes a call of the library for C so many times, of the data in a file:

     calls symbol COUNT FILE VERSION LEVEL                  a version of 0 is the least of Normal
     calls picture COUNT FILE VERSION LEVEL FORMAT SCALE    of the symbol; prints its length
     calls read COUNT FILE                                  of modules, 0 and 1 row by row
     calls scan COUNT FILE                                  of a picture */
#include "goqlanis.h"
#include <stdio.h>
#include <stdlib.h>
#include <string.h>

static uint8_t data[GOQ_MODULES_MAX], modules[GOQ_MODULES_MAX], out[4000000];
static size_t size, length;
static goq_symbol symbol;
static goq_code code;
static goq_part parts[GOQ_PARTS_MAX];
static uint32_t version, level, format, scale;

static uint32_t encode(void)
{
    if (version)
        return goq_encode_in(data, size, version, level, modules, sizeof modules, &symbol);
    return goq_encode(data, size, level, modules, sizeof modules, &symbol);
}

static uint32_t call(const char *kind)
{
    size_t side = symbol.width;
    goq_reading reading;
    goq_scan scan = GOQ_SCAN;
    if (!strcmp(kind, "picture"))
        return goq_draw(modules, side * side, symbol.width, 4, scale, format, out, sizeof out,
            &length);
    if (!strcmp(kind, "read"))
        return goq_read(data, size, out, sizeof out, &reading);
    if (!strcmp(kind, "scan"))
        return goq_read_picture(data, size, &code, 1, parts, GOQ_PARTS_MAX, out, sizeof out, &scan);
    return encode();
}

int main(int argc, char **argv)
{
    uint32_t *numbers[] = {&version, &level, &format, &scale};
    FILE *file = argc > 3 ? fopen(argv[3], "rb") : NULL;
    if (!file)
        return 1;
    size = fread(data, 1, sizeof data, file);
    fclose(file);
    for (int i = 4; i < argc && i < 8; i++)
        *numbers[i - 4] = (uint32_t)atoi(argv[i]);
    for (size_t i = 0; i < size && !strcmp(argv[1], "read"); i++)
        data[i] -= '0';
    if (!strcmp(argv[1], "picture") && encode() != GOQ_OK)
        return 1;
    for (int left = atoi(argv[2]); left > 0; left--)
        if (call(argv[1]) != GOQ_OK)
            return 1;
    printf("%zu\n", length);
    return 0;
}
