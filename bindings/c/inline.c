/* The calls that stand in goqlanis.h itself, and what structs begin with, as a library has them:
   bindings/c/ask cannot call what is inline. */
#include <stdbool.h>
#include <stddef.h>
#include <stdint.h>
#include <string.h>
#define static
#define inline
#include "goqlanis.h"

#define BEGINS(name, value) void initial_##name(goq_##name *it) { *it = value; }
BEGINS(options, GOQ_OPTIONS)
BEGINS(several, GOQ_SEVERAL)
BEGINS(drawing, GOQ_DRAWING)
BEGINS(scan, GOQ_SCAN)
BEGINS(checks, GOQ_CHECKS)
BEGINS(wish, GOQ_WISH)
BEGINS(wrong, GOQ_WRONG)
