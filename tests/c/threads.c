/* Uses contexts in several threads as otel.h allows, for helgrind, which sees the library's own
 * accesses: contexts that share memory under a lock, others and copies that share nothing without
 * one, and one that is handed on. With -DRACE there is no lock, and helgrind reports it. */
#include <pthread.h>
#include <stdio.h>
#include <string.h>

#include "otel.h"

#define THREADS 4
#define TIMES 25
#define TEXT(text) text, strlen(text)
#define PARENT "00-0af7651916cd43dd8448eb211c80319c-b7ad6b7169203331-01"

static pthread_mutex_t lock = PTHREAD_MUTEX_INITIALIZER;
static otel_handle shared = OTEL_NOTHING;

/* A thread's own counts: counting takes no lock, which would order the threads. */
typedef struct counts {
    int passed, failed, number;
} counts;

static void check(counts *own, int good, const char *what) {
    own->passed += good;
    own->failed += !good;
    if (!good)
        printf("%s: wrong\n", what);
}

/* Clones and changes the shared context. */
static otel_status changes(void) {
    otel_handle clone = OTEL_NOTHING, changed = OTEL_NOTHING;
    otel_status status;
    if ((status = otel_context_clone(&shared, &clone)) == OTEL_STATUS_OK)
        status = otel_baggage_set(&clone, TEXT("k"), TEXT("v"), "", 0, &changed);
    otel_free(&clone);
    otel_free(&changed);
    return status;
}

static otel_status changes_locked(void) {
    otel_status status;
#ifdef RACE
    return changes();
#endif
    pthread_mutex_lock(&lock);
    status = changes();
    pthread_mutex_unlock(&lock);
    return status;
}

/* A copy of the shared context for each thread, which it uses without the lock. */
static otel_handle copies[THREADS];

/* Changes and sends on the thread's copy. */
static otel_status uses(otel_handle *copy) {
    otel_handle child = OTEL_NOTHING, changed = OTEL_NOTHING, out = OTEL_NOTHING;
    otel_status status = otel_context_start_child(copy, &child);
    if (status == OTEL_STATUS_OK
        && (status = otel_baggage_set(&child, TEXT("k"), TEXT("w"), "", 0, &changed))
           == OTEL_STATUS_OK
        && (status = otel_headers_new(&out)) == OTEL_STATUS_OK)
        status = otel_context_inject(&changed, &out);
    otel_free(&child);
    otel_free(&changed);
    otel_free(&out);
    return status;
}

/* Reads headers into a context of the thread's own, and sends it on, without the lock. */
static otel_status carries(void) {
    otel_handle in = OTEL_NOTHING, context = OTEL_NOTHING, out = OTEL_NOTHING;
    otel_status status = otel_headers_new(&in);
    if (status == OTEL_STATUS_OK)
        status = otel_headers_append(&in, TEXT("traceparent"), TEXT(PARENT));
    if (status == OTEL_STATUS_OK && (status = otel_context_new(&context)) == OTEL_STATUS_OK
        && (status = otel_context_extract(&in, &context)) == OTEL_STATUS_OK
        && (status = otel_headers_new(&out)) == OTEL_STATUS_OK)
        status = otel_context_inject(&context, &out);
    otel_free(&in);
    otel_free(&context);
    otel_free(&out);
    return status;
}

static void *work(void *counts_of_its_own) {
    counts *own = counts_of_its_own;
    otel_handle *copy = &copies[own->number];
    int at;
    for (at = 0; at < TIMES; at++) {
        check(own, changes_locked() == OTEL_STATUS_OK, "a change under the lock");
        check(own, carries() == OTEL_STATUS_OK, "a context of the thread's own");
        check(own, uses(copy) == OTEL_STATUS_OK, "a copy of the thread's own");
    }
    otel_free(copy);
    return NULL;
}

static otel_handle given = OTEL_NOTHING;

/* Takes over the given context, and frees it. */
static void *take(void *own) {
    size_t count = 9;
    otel_status status = otel_baggage_length(&given, &count);
    check(own, status == OTEL_STATUS_OK && count == 0, "one handed on");
    otel_free(&given);
    return NULL;
}

/* Makes a context with a span, a trace state and a baggage. */
static otel_status makes(otel_handle *context) {
    otel_handle in = OTEL_NOTHING;
    otel_status status = otel_headers_new(&in);
    if (status == OTEL_STATUS_OK
        && (status = otel_headers_append(&in, TEXT("traceparent"), TEXT(PARENT))) == OTEL_STATUS_OK
        && (status = otel_headers_append(&in, TEXT("tracestate"), TEXT("a=1,b=2")))
           == OTEL_STATUS_OK
        && (status = otel_headers_append(&in, TEXT("baggage"), TEXT("l=v;m"))) == OTEL_STATUS_OK
        && (status = otel_context_new(context)) == OTEL_STATUS_OK)
        status = otel_context_extract(&in, context);
    otel_free(&in);
    return status;
}

int main(void) {
    pthread_t threads[THREADS];
    counts own[THREADS] = {{0, 0, 0}}, all = {0, 0, 0};
    int at;
    check(&all, makes(&shared) == OTEL_STATUS_OK, "the shared context");
    check(&all, otel_context_new(&given) == OTEL_STATUS_OK, "otel_context_new");
    for (at = 1; at < THREADS; at++) {
        own[at].number = at;
        check(&all, otel_context_detach_copy(&shared, &copies[at]) == OTEL_STATUS_OK, "a copy");
    }
    for (at = 0; at < THREADS; at++) {
        int status = pthread_create(&threads[at], NULL, at == 0 ? take : work, &own[at]);
        check(&all, status == 0, "pthread_create");
    }
    for (at = 0; at < THREADS; at++) {
        pthread_join(threads[at], NULL);
        all.passed += own[at].passed;
        all.failed += own[at].failed;
    }
    otel_free(&shared);
    printf("%d passed, %d failed\n", all.passed, all.failed);
    return all.failed != 0;
}
