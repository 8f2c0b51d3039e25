/* Calls each function that writes output with buffers and structs that are uninitialised, for
 * valgrind, which reports a read of them. */
#include "calls.h"

#define PARENT "00-0af7651916cd43dd8448eb211c80319c-b7ad6b7169203331-01"
#define CAPACITY 16447

/* Whether the function, which takes more arguments, a buffer, its capacity and the length, writes
 * the text into a fresh block, and the length that is needed beside a shorter one. */
#define FILLS(text, function, ...)                                                                 \
    do {                                                                                           \
        char *buffer = __real_malloc(CAPACITY), *shorter = __real_malloc(1);                       \
        size_t length, needed;                                                                     \
        CALL(OTEL_STATUS_OK, function(__VA_ARGS__, buffer, CAPACITY, &length));                    \
        check(length == strlen(text) && memcmp(buffer, text, length) == 0, #function);             \
        CALL(OTEL_STATUS_NO_ROOM, function(__VA_ARGS__, shorter, 0, &needed));                     \
        check(needed == length, #function);                                                        \
        free(buffer);                                                                              \
        free(shorter);                                                                             \
    } while (0)

static void texts(void) {
    static const uint8_t id[8] = {0x00, 0xf0, 0x67, 0xaa, 0x0b, 0xa9, 0x02, 0xb7};
    otel_handle headers = OTEL_NOTHING, context = OTEL_NOTHING;
    otel_span_context *span = __real_malloc(sizeof *span);
    CALL(OTEL_STATUS_OK, otel_headers_new(&headers));
    CALL(OTEL_STATUS_OK, otel_headers_append(&headers, TEXT("traceparent"), TEXT(PARENT)));
    CALL(OTEL_STATUS_OK, otel_headers_append(&headers, TEXT("tracestate"), TEXT("a=1,b=2")));
    CALL(OTEL_STATUS_OK, otel_headers_append(&headers, TEXT("baggage"), TEXT("k=v;m")));
    CALL(OTEL_STATUS_OK, otel_context_new(&context));
    CALL(OTEL_STATUS_OK, otel_context_extract(&headers, &context));
    FILLS(PARENT, otel_headers_get, &headers, TEXT("traceparent"));
    FILLS(PARENT, otel_context_traceparent, &context);
    FILLS("a=1,b=2", otel_context_trace_state, &context);
    FILLS("a=1,b=2", otel_span_from_values, TEXT(PARENT), TEXT("a=1,b=2"), span);
    FILLS(PARENT, otel_span_traceparent, span);
    FILLS("k=v;m", otel_context_baggage, &context);
    FILLS("00f067aa0ba902b7", otel_span_id_to_hex, id);
    FILLS("k", otel_baggage_key, &context, 0);
    FILLS("v", otel_baggage_get, &context, TEXT("k"));
    FILLS("m", otel_baggage_metadata, &context, TEXT("k"));
    FILLS("b", otel_trace_state_key, TEXT("a=1,b=2"), 1);
    FILLS("2", otel_trace_state_get, TEXT("a=1,b=2"), TEXT("b"));
    FILLS("c=3,a=1", otel_trace_state_insert, TEXT("a=1"), TEXT("c"), TEXT("3"));
    FILLS("b=2", otel_trace_state_delete, TEXT("a=1,b=2"), TEXT("a"));
    otel_free(&headers);
    otel_free(&context);
    free(span);
}

static void numbers(void) {
    static const otel_member member = {" ", 1, "", 0, "", 0};
    otel_handle stack = OTEL_NOTHING, context = OTEL_NOTHING, changed = OTEL_NOTHING;
    otel_span_context *span = __real_malloc(sizeof *span);
    size_t *count = __real_malloc(sizeof *count), *failed = __real_malloc(sizeof *failed);
    uint16_t *position = __real_malloc(sizeof *position);
    extract(&context, "traceparent", PARENT);
    CALL(OTEL_STATUS_OK, otel_context_span(&context, span));
    check(span->span_id[0] == 0xb7 && span->flags == 1 && span->is_remote == 1, "the span");
    CALL(OTEL_STATUS_OK, otel_baggage_length(&context, count));
    check(*count == 0, "the number of members");
    CALL(OTEL_STATUS_KEY, otel_baggage_set_all(&context, &member, 1, &changed, failed));
    check(*failed == 0, "the index of a refused member");
    CALL(OTEL_STATUS_OK, otel_stack_new(&stack));
    CALL(OTEL_STATUS_OK, otel_stack_attach(&stack, &context, position));
    check(*position == 1, "the position");
    otel_free(&stack);
    otel_free(&context);
    free(span);
    free(count);
    free(failed);
    free(position);
}

static void (*const runs[])(void) = {texts, numbers};

int main(void) {
    return ends(runs, sizeof runs / sizeof *runs);
}
