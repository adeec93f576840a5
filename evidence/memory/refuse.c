/* Refuses requests for memory of the program that it is preloaded into, and counts them.
 *
 * REFUSE=N refuses the Nth request, and REFUSE=N+ the Nth and each one after it. At the end of the
 * program a last line of stderr says how many requests there were, how many of them were refused,
 * and how many blocks of memory are left. For programs of one thread, over glibc. */
#include <limits.h>
#include <stdio.h>
#include <stdlib.h>
#include <unistd.h>

/* what glibc calls its own allocator */
void *__libc_malloc(size_t size);
void *__libc_calloc(size_t count, size_t size);
void *__libc_realloc(void *block, size_t size);
void __libc_free(void *block);

static long requests, refusals, blocks;
static long first_refused = LONG_MAX, last_refused;

__attribute__((constructor)) static void begin(void)
{
	const char *asked = getenv("REFUSE");
	char *rest;

	if (asked && *asked) {
		first_refused = last_refused = strtol(asked, &rest, 10);
		if (*rest == '+')
			last_refused = LONG_MAX;
	}
}

__attribute__((destructor)) static void end(void)
{
	char line[120];
	int length = snprintf(line, sizeof line, "requests %ld refused %ld left %ld\n", requests, refusals, blocks);

	if (write(STDERR_FILENO, line, length) != length)
		_exit(125);
}

static int is_refused(void)
{
	requests++;
	if (requests < first_refused || requests > last_refused)
		return 0;
	refusals++;
	return 1;
}

void *malloc(size_t size)
{
	void *block = is_refused() ? NULL : __libc_malloc(size);

	blocks += block != NULL;
	return block;
}

void *calloc(size_t count, size_t size)
{
	void *block = is_refused() ? NULL : __libc_calloc(count, size);

	blocks += block != NULL;
	return block;
}

void *realloc(void *old, size_t size)
{
	void *block = is_refused() ? NULL : __libc_realloc(old, size);

	blocks += !old && block;
	return block;
}

void free(void *block)
{
	blocks -= block != NULL;
	__libc_free(block);
}
