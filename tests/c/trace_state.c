/* Calls each function of include/otel.h. Each allocation fails in turn, by the number in
 * `refused`. The answer is then OTEL_STATUS_NO_MEMORY, or the same as with ample memory. */
#include <stdio.h>
#include <stdlib.h>
#include <string.h>

#include "otel.h"

void *__real_malloc(size_t size);
void *__real_realloc(void *block, size_t size);

static long requests, refused;

/* The linker replaces malloc and realloc with these (`-Wl,--wrap`). */
void *__wrap_malloc(size_t size) {
    return ++requests == refused ? NULL : __real_malloc(size);
}

void *__wrap_realloc(void *block, size_t size) {
    return ++requests == refused ? NULL : __real_realloc(block, size);
}

struct row {
    const char *call, *header, *key, *value;
    size_t room;
    enum otel_status status;
    const char *answer; /* after OTEL_STATUS_NO_ROOM, a text as long as the answer */
};

#define KEYS32 "a0=1,a1=1,a2=1,a3=1,a4=1,a5=1,a6=1,a7=1,a8=1,a9=1,b0=1,b1=1,b2=1,b3=1,b4=1,b5=1," \
               "b6=1,b7=1,b8=1,b9=1,c0=1,c1=1,c2=1,c3=1,c4=1,c5=1,c6=1,c7=1,c8=1,c9=1,d0=1"

/* Headers of W3C trace-context-2 ("tracestate Header", "Mutating the tracestate Field"). */
static const struct row rows[] = {
    {"get", "rojo=00f067aa0ba902b7,congo=t61rcWkgMzE", "congo", "", 64, OTEL_STATUS_OK,
     "t61rcWkgMzE"},
    {"get", "rojo=00f067aa0ba902b7,congo=t61rcWkgMzE", "rojo", "", 64, OTEL_STATUS_OK,
     "00f067aa0ba902b7"},
    {"get", "rojo=00f067aa0ba902b7,congo=t61rcWkgMzE", "rojo", "", 16, OTEL_STATUS_OK,
     "00f067aa0ba902b7"},
    {"get", "rojo=00f067aa0ba902b7,congo=t61rcWkgMzE", "rojo", "", 15, OTEL_STATUS_NO_ROOM,
     "00f067aa0ba902b7"},
    {"get", "rojo=00f067aa0ba902b7", "congo", "", 64, OTEL_STATUS_ABSENT, ""},
    {"get", "", "congo", "", 64, OTEL_STATUS_ABSENT, ""},
    {"get", "rojo=1 , \tcongo=2", "congo", "", 64, OTEL_STATUS_OK, "2"},
    {"get", "rojo", "rojo", "", 64, OTEL_STATUS_LIST, ""},
    {"get", "ROJO=1", "rojo", "", 64, OTEL_STATUS_KEY, ""},
    {"get", "rojo=\xff", "rojo", "", 64, OTEL_STATUS_NOT_TEXT, ""},
    {"get", "rojo=1", "\xff", "", 64, OTEL_STATUS_NOT_TEXT, ""},
    {"insert", "rojo=00f067aa0ba902b7,congo=t61rcWkgMzE", "congo", "ucfJifl5GOE", 64,
     OTEL_STATUS_OK, "congo=ucfJifl5GOE,rojo=00f067aa0ba902b7"},
    {"insert", "congo=t61rcWkgMzE", "rojo", "00f067aa0ba902b7", 64, OTEL_STATUS_OK,
     "rojo=00f067aa0ba902b7,congo=t61rcWkgMzE"},
    {"insert", "", "rojo", "1", 6, OTEL_STATUS_OK, "rojo=1"},
    {"insert", "", "rojo", "1", 5, OTEL_STATUS_NO_ROOM, "rojo=1"},
    {"insert", KEYS32 ",d1=1", "new", "2", 256, OTEL_STATUS_OK, "new=2," KEYS32},
    {"insert", "", "Rojo", "1", 64, OTEL_STATUS_KEY, ""},
    {"insert", "", "rojo", "1,2", 64, OTEL_STATUS_VALUE, ""},
    {"insert", "", "rojo", "\xff", 64, OTEL_STATUS_NOT_TEXT, ""},
    {"delete", "rojo=00f067aa0ba902b7,congo=t61rcWkgMzE", "rojo", "", 64, OTEL_STATUS_OK,
     "congo=t61rcWkgMzE"},
    {"delete", "rojo=00f067aa0ba902b7", "rojo", "", 0, OTEL_STATUS_OK, ""},
    {"delete", "rojo=00f067aa0ba902b7", "congo", "", 64, OTEL_STATUS_OK, "rojo=00f067aa0ba902b7"},
    {"delete", "rojo=1", "Congo", "", 64, OTEL_STATUS_KEY, ""},
};

static uint32_t answer(const struct row *row, char *room, size_t *written) {
    size_t header = strlen(row->header), key = strlen(row->key), value = strlen(row->value);
    if (strcmp(row->call, "get") == 0)
        return otel_trace_state_get(row->header, header, row->key, key, room, row->room, written);
    if (strcmp(row->call, "insert") == 0)
        return otel_trace_state_insert(row->header, header, row->key, key, row->value, value, room,
                                       row->room, written);
    return otel_trace_state_delete(row->header, header, row->key, key, room, row->room, written);
}

/* Whether the call returned the row's answer, and wrote nothing else. */
static int fits(const struct row *row, uint32_t status, const char *room, size_t written) {
    size_t length = strlen(row->answer), kept = status == OTEL_STATUS_OK ? length : 0;
    if (status == OTEL_STATUS_OK && memcmp(room, row->answer, length) != 0)
        return 0;
    for (size_t at = kept; at < row->room; at++)
        if (room[at] != '#')
            return 0;
    return (status != OTEL_STATUS_OK && status != OTEL_STATUS_NO_ROOM) || written == length;
}

/* Makes the call with the request of that number failing, in a block of exactly the room's size. */
static int passes(const struct row *row, long number, uint32_t *status) {
    size_t written = 0;
    char *room = __real_malloc(row->room + 1);
    memset(room, '#', row->room + 1);
    requests = 0;
    refused = number;
    *status = answer(row, room, &written);
    int good = (*status == row->status || (number != 0 && *status == OTEL_STATUS_NO_MEMORY))
               && fits(row, *status, room, written) && room[row->room] == '#';
    free(room);
    return good;
}

int main(void) {
    int passed = 0, failed = 0, starved = 0;
    for (size_t at = 0; at < sizeof rows / sizeof *rows; at++) {
        uint32_t status;
        int good = passes(&rows[at], 0, &status);
        long most = requests;
        for (long number = 1; number <= most; number++) {
            good &= passes(&rows[at], number, &status);
            starved += status == OTEL_STATUS_NO_MEMORY;
        }
        if (!good)
            printf("%s of `%s` and `%s`: wrong\n", rows[at].call, rows[at].header, rows[at].key);
        passed += good;
        failed += !good;
    }
    if (starved == 0)
        failed++, puts("no allocation was refused");
    printf("%d passed, %d failed\n", passed, failed);
    return failed != 0;
}
