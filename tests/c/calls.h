/* Code shared by the tests. Each run is repeated with each of its allocations failing in turn, by
 * the number in `refused`. The call that requests it then returns OTEL_STATUS_NO_MEMORY, its
 * arguments are unchanged, and the run continues from there. */
#include <stdio.h>
#include <stdlib.h>
#include <string.h>

#include "otel.h"

void *__real_malloc(size_t size);
void *__real_realloc(void *block, size_t size);

static long requests, refused;
static int starved, failed, passed;

/* The linker replaces malloc and realloc with these (`-Wl,--wrap`). */
void *__wrap_malloc(size_t size) {
    return ++requests == refused ? NULL : __real_malloc(size);
}

void *__wrap_realloc(void *block, size_t size) {
    return ++requests == refused ? NULL : __real_realloc(block, size);
}

#define TEXT(text) text, strlen(text)

static void check(int good, const char *what) {
    passed += good;
    failed += !good;
    if (!good)
        printf("%s: wrong (request %ld refused)\n", what, refused);
}

/* Whether the call is as expected. A call with a failed request is made again. */
#define CALL(wanted, call)                                                                         \
    do {                                                                                           \
        uint32_t status = call;                                                                    \
        if (status == OTEL_STATUS_NO_MEMORY && (wanted) != OTEL_STATUS_NO_MEMORY && refused != 0) {\
            starved++;                                                                             \
            status = call;                                                                         \
        }                                                                                          \
        check(status == (wanted), #call);                                                          \
    } while (0)

/* Whether the function, which takes more arguments, a room, its length and `written`, writes the
 * text into a room of exactly its length, and reports a room that is one byte shorter. */
#define WRITES(text, function, ...)                                                                \
    do {                                                                                           \
        static char room[16448];                                                                   \
        size_t length = strlen(text), written = 0;                                                 \
        memset(room, '#', sizeof room);                                                            \
        if (length != 0) {                                                                         \
            CALL(OTEL_STATUS_NO_ROOM, function(__VA_ARGS__, room, length - 1, &written));          \
            check(written == length && room[0] == '#', #function);                                 \
        }                                                                                          \
        CALL(OTEL_STATUS_OK, function(__VA_ARGS__, room, length, &written));                       \
        check(written == length && memcmp(room, text, length) == 0, #function);                    \
        check(room[length] == '#', "the rest of the room");                                        \
    } while (0)

/* Whether it returns the status, and leaves the room unchanged. */
#define LEAVES(wanted, function, ...)                                                              \
    do {                                                                                           \
        char room[8] = "#######";                                                                  \
        size_t written = 0;                                                                        \
        CALL(wanted, function(__VA_ARGS__, room, 7, &written));                                    \
        check(memcmp(room, "#######", 8) == 0, #function);                                         \
    } while (0)

/* Reads the header into a new context of the handle. */
static inline void extract(otel_handle *context, const char *name, const char *value) {
    otel_handle headers = OTEL_NOTHING;
    CALL(OTEL_STATUS_OK, otel_headers_new(&headers));
    CALL(OTEL_STATUS_OK, otel_headers_append(&headers, TEXT(name), TEXT(value)));
    if (context->object == NULL)
        CALL(OTEL_STATUS_OK, otel_context_new(context));
    CALL(OTEL_STATUS_OK, otel_context_extract(&headers, context));
    otel_free(&headers);
}

/* Whether the context is sent on with the header. */
static inline void injects(otel_handle *context, const char *name, const char *value) {
    otel_handle headers = OTEL_NOTHING;
    CALL(OTEL_STATUS_OK, otel_headers_new(&headers));
    CALL(OTEL_STATUS_OK, otel_context_inject(context, &headers));
    WRITES(value, otel_headers_get, &headers, TEXT(name));
    otel_free(&headers);
}

/* Makes the runs, and prints the counts. The status for `main` to return. */
static inline int ends(void (*const runs[])(void), size_t count) {
    for (size_t at = 0; at < count; at++) {
        refused = 0;
        requests = 0;
        runs[at]();
        long most = requests;
        for (long number = 1; number <= most; number++) {
            requests = 0;
            refused = number;
            runs[at]();
        }
    }
    check(starved != 0, "no request was refused");
    printf("%d passed, %d failed\n", passed, failed);
    return failed != 0;
}
