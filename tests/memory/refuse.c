/*
 * Makes allocations fail, for `sweep` in this folder.
 *
 * Preloaded into a program that the kit built, it replaces the two functions with which such a
 * program requests memory from the C library, malloc and realloc. Requests are counted from the
 * start of the program proper, 1 for the first:
 *
 *   REFUSE_AT=N     only the N-th request fails
 *   REFUSE_FROM=N   the N-th and all later requests fail
 *   REFUSE_TOLD=FD  when the first one fails, writes the byte 'r' to this file descriptor
 *
 * A failed request returns a null pointer, as if out of memory; the block of a failed realloc is
 * unchanged. Build it with `cc -O2 -shared -fPIC -o refuse.so refuse.c`, for the GNU C library,
 * whose own names of the two functions it uses.
 */
#include <errno.h>
#include <stdlib.h>
#include <unistd.h>

extern void *__libc_malloc(size_t size);
extern void *__libc_realloc(void *block, size_t size);

static int is_started;
static int has_told;
static int told = -1;
static unsigned long at;
static unsigned long from;
static unsigned long count;

static unsigned long number_of(const char *name)
{
    const char *text = getenv(name);
    return text == NULL ? 0 : strtoul(text, NULL, 10);
}

/* Runs after the loader's own requests, and before those of the program. */
__attribute__((constructor)) static void start(void)
{
    at = number_of("REFUSE_AT");
    from = number_of("REFUSE_FROM");
    if (getenv("REFUSE_TOLD") != NULL)
        told = (int)number_of("REFUSE_TOLD");
    is_started = 1;
}

static int is_refused(void)
{
    if (!is_started)
        return 0;
    count++;
    if (count != at && (from == 0 || count < from))
        return 0;
    if (!has_told && told >= 0 && write(told, "r", 1) != 1)
        _exit(99); /* otherwise the sweep would see a run in which no request failed */
    has_told = 1;
    errno = ENOMEM;
    return 1;
}

void *malloc(size_t size)
{
    return is_refused() ? NULL : __libc_malloc(size);
}

void *realloc(void *block, size_t size)
{
    return is_refused() ? NULL : __libc_realloc(block, size);
}
