/* Reads PNG files, each behind its length of four bytes, and prints what libpng says of each:

     ACROSS DOWN SUM     the sides, and the CRC-32 of red, green, blue and opacity of the pixels
     refused: TEXT       its error

   A warning is printed in front. */
#include <png.h>
#include <setjmp.h>
#include <stdio.h>
#include <stdlib.h>
#include <string.h>
#include <zlib.h>

static const unsigned char *rest;
static size_t left;

static void take(png_structp png, png_bytep out, size_t count)
{
    if (count > left)
        png_error(png, "cut off");
    memcpy(out, rest, count);
    rest += count;
    left -= count;
}

static void fail(png_structp png, png_const_charp text)
{
    printf("refused: %s\n", text);
    longjmp(png_jmpbuf(png), 1);
}

static void warn(png_structp png, png_const_charp text)
{
    (void)png;
    printf("(%s) ", text);
}

static void show(void)
{
    png_structp png = png_create_read_struct(PNG_LIBPNG_VER_STRING, NULL, fail, warn);
    png_infop info = png_create_info_struct(png);
    unsigned char *volatile pixels = NULL;
    if (!setjmp(png_jmpbuf(png))) {
        png_set_read_fn(png, NULL, take);
        png_read_info(png, info);
        if (png_get_interlace_type(png, info) != PNG_INTERLACE_NONE)
            png_error(png, "interlaced");
        png_set_expand(png);
        png_set_strip_16(png);
        png_set_gray_to_rgb(png);
        png_set_add_alpha(png, 255, PNG_FILLER_AFTER);
        png_read_update_info(png, info);
        size_t across = png_get_image_width(png, info), down = png_get_image_height(png, info);
        pixels = malloc(across * down * 4);
        for (size_t y = 0; pixels && y < down; y++)
            png_read_row(png, pixels + y * across * 4, NULL);
        png_read_end(png, NULL);
        printf("%zu %zu %lu\n", across, down, crc32(0, pixels, across * down * 4));
    }
    free(pixels);
    png_destroy_read_struct(&png, &info, NULL);
}

int main(void)
{
    unsigned char size[4], *file;
    while (fread(size, 1, 4, stdin) == 4) {
        left = (size_t)size[0] << 24 | size[1] << 16 | size[2] << 8 | size[3];
        file = malloc(left + 1);
        if (!file || fread(file, 1, left, stdin) != left)
            return 1;
        rest = file;
        show();
        free(file);
    }
    return 0;
}
