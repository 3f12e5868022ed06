/* The C library's allocation, of which the request whose number REFUSED holds gets nothing; nor do those behind it, where
 * ONWARDS isn't empty. How many requests there were is written to the file COUNT, where that is given. */
#define _GNU_SOURCE
#include <dlfcn.h>
#include <stdio.h>
#include <stdlib.h>

static long requests;

static int is_refused(void)
{
	static long refused;

	if (!refused) {
		const char *number = getenv("REFUSED");
		refused = number ? atol(number) : -1;
	}
	requests++;
	return requests == refused || (refused > 0 && requests > refused && *getenv("ONWARDS"));
}

void *malloc(size_t size)
{
	static void *(*real)(size_t);

	if (!real)
		real = dlsym(RTLD_NEXT, "malloc");
	return is_refused() ? NULL : real(size);
}

void *realloc(void *old, size_t size)
{
	static void *(*real)(void *, size_t);

	if (!real)
		real = dlsym(RTLD_NEXT, "realloc");
	return is_refused() ? NULL : real(old, size);
}

__attribute__((destructor)) static void tell(void)
{
	const char *name = getenv("COUNT");
	long made = requests;
	FILE *file = name ? fopen(name, "w") : NULL;

	if (file) {
		fprintf(file, "%ld\n", made);
		fclose(file);
	}
}
