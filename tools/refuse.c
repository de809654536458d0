/* Preloaded into a program: counts its requests for memory, and refuses some of them.

   REFUSE_FROM, REFUSE_TO  the numbers, from 1, of the first and the last request that is refused; none where they are absent
   REFUSE_COUNT            an open descriptor, to which the number of requests goes in decimal digits when the program ends

   A request is a call of malloc, calloc, realloc, aligned_alloc or posix_memalign. Those before the program begins are granted and
   not counted. */
#define _GNU_SOURCE
#include <errno.h>
#include <stdio.h>
#include <stdlib.h>
#include <unistd.h>

extern void *__libc_malloc(size_t);
extern void *__libc_calloc(size_t, size_t);
extern void *__libc_realloc(void *, size_t);
extern void *__libc_memalign(size_t, size_t);

static long asked, from, to;
static int begun, counter = -1;

static long number_of(const char *name, long absent)
{
    const char *text = getenv(name);
    return text ? strtol(text, NULL, 10) : absent;
}

__attribute__((constructor)) static void begin(void)
{
    from = number_of("REFUSE_FROM", 1);
    to = number_of("REFUSE_TO", 0);
    counter = (int)number_of("REFUSE_COUNT", -1);
    begun = 1;
}

__attribute__((destructor)) static void end(void)
{
    char text[32];
    begun = 0;
    if (counter >= 0 && write(counter, text, (size_t)snprintf(text, sizeof text, "%ld\n", asked)) < 0)
        _exit(125);
}

static int is_refused(void)
{
    if (!begun)
        return 0;
    asked++;
    if (asked < from || asked > to)
        return 0;
    errno = ENOMEM;
    return 1;
}

void *malloc(size_t size)
{
    return is_refused() ? NULL : __libc_malloc(size);
}

void *calloc(size_t count, size_t size)
{
    return is_refused() ? NULL : __libc_calloc(count, size);
}

void *realloc(void *old, size_t size)
{
    return is_refused() ? NULL : __libc_realloc(old, size);
}

void *aligned_alloc(size_t alignment, size_t size)
{
    return is_refused() ? NULL : __libc_memalign(alignment, size);
}

int posix_memalign(void **made, size_t alignment, size_t size)
{
    if (is_refused())
        return ENOMEM;
    *made = __libc_memalign(alignment, size);
    return *made ? 0 : ENOMEM;
}
