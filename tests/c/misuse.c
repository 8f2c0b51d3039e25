/* Calls the functions of include/otel.h with null pointers, lengths that no object has, and one
 * handle twice. */
#include "calls.h"

#define PARENT "00-0af7651916cd43dd8448eb211c80319c-b7ad6b7169203331-01"
#define LONG ((size_t)PTRDIFF_MAX + 1)

/* Whether the function, which takes more arguments, a buffer, its capacity and the length, refuses
 * a null buffer that has a capacity and a capacity that is too large, and takes a null length. */
#define ASKS(needed, function, ...)                                                                \
    do {                                                                                           \
        char buffer[64];                                                                           \
        size_t length = 0;                                                                         \
        CALL(OTEL_STATUS_INVALID, function(__VA_ARGS__, NULL, 1, &length));                        \
        CALL(OTEL_STATUS_INVALID, function(__VA_ARGS__, buffer, LONG, &length));                   \
        check(length == 0, #function);                                                             \
        CALL(OTEL_STATUS_NO_ROOM, function(__VA_ARGS__, NULL, 0, &length));                        \
        check(length == (needed), #function);                                                      \
        CALL(OTEL_STATUS_NO_ROOM, function(__VA_ARGS__, NULL, 0, NULL));                           \
        CALL(OTEL_STATUS_OK, function(__VA_ARGS__, buffer, sizeof buffer, NULL));                  \
    } while (0)

static void outputs(void) {
    otel_handle headers = OTEL_NOTHING, context = OTEL_NOTHING;
    otel_span_context span = OTEL_NO_SPAN;
    ASKS(7, otel_span_from_values, TEXT(PARENT), TEXT("a=1,b=2"), &span);
    ASKS(55, otel_span_traceparent, &span);
    CALL(OTEL_STATUS_OK, otel_headers_new(&headers));
    CALL(OTEL_STATUS_OK, otel_headers_append(&headers, TEXT("traceparent"), TEXT(PARENT)));
    CALL(OTEL_STATUS_OK, otel_headers_append(&headers, TEXT("tracestate"), TEXT("a=1,b=2")));
    CALL(OTEL_STATUS_OK, otel_headers_append(&headers, TEXT("baggage"), TEXT("k=v;m")));
    CALL(OTEL_STATUS_OK, otel_context_new(&context));
    CALL(OTEL_STATUS_OK, otel_context_extract(&headers, &context));
    ASKS(55, otel_headers_get, &headers, TEXT("traceparent"));
    ASKS(55, otel_context_traceparent, &context);
    ASKS(7, otel_context_trace_state, &context);
    ASKS(5, otel_context_baggage, &context);
    ASKS(1, otel_baggage_key, &context, 0);
    ASKS(1, otel_baggage_get, &context, TEXT("k"));
    ASKS(1, otel_baggage_metadata, &context, TEXT("k"));
    ASKS(1, otel_trace_state_key, TEXT("a=1,b=2"), 1);
    ASKS(1, otel_trace_state_get, TEXT("a=1,b=2"), TEXT("b"));
    ASKS(7, otel_trace_state_insert, TEXT("a=1"), TEXT("c"), TEXT("3"));
    ASKS(3, otel_trace_state_delete, TEXT("a=1,b=2"), TEXT("a"));
    otel_free(&headers);
    otel_free(&context);
}

/* Null is the empty text, but not a longer one. */
static void inputs(void) {
    otel_handle headers = OTEL_NOTHING, context = OTEL_NOTHING, changed = OTEL_NOTHING;
    otel_span_context span = OTEL_NO_SPAN;
    char none;
    CALL(OTEL_STATUS_OK, otel_headers_new(&headers));
    CALL(OTEL_STATUS_OK, otel_headers_append(&headers, TEXT("host"), NULL, 0));
    WRITES("", otel_headers_get, &headers, TEXT("host"));
    CALL(OTEL_STATUS_KEY, otel_headers_append(&headers, NULL, 0, NULL, 0));
    CALL(OTEL_STATUS_INVALID, otel_headers_append(&headers, NULL, 1, TEXT("v")));
    CALL(OTEL_STATUS_INVALID, otel_headers_append(&headers, TEXT("host"), NULL, 1));
    CALL(OTEL_STATUS_INVALID, otel_headers_append(&headers, "host", LONG, TEXT("v")));
    CALL(OTEL_STATUS_INVALID, otel_headers_append(&headers, TEXT("host"), "v", SIZE_MAX));
    CALL(OTEL_STATUS_INVALID, otel_headers_append(NULL, TEXT("host"), TEXT("v")));
    CALL(OTEL_STATUS_INVALID, otel_headers_get(&headers, NULL, 1, &none, 1, NULL));
    CALL(OTEL_STATUS_INVALID, otel_headers_remove(&headers, NULL, 1));
    CALL(OTEL_STATUS_INVALID, otel_headers_remove(NULL, TEXT("host")));
    CALL(OTEL_STATUS_OK, otel_context_new(&context));
    span.is_remote = 2;
    CALL(OTEL_STATUS_OK, otel_context_set_span(&context, &span, NULL, 0));
    CALL(OTEL_STATUS_OK, otel_context_span(&context, &span));
    check(span.is_remote == 1, "is_remote");
    CALL(OTEL_STATUS_INVALID, otel_context_set_span(&context, NULL, NULL, 0));
    CALL(OTEL_STATUS_INVALID, otel_context_set_span(&context, &span, "a=1", LONG));
    CALL(OTEL_STATUS_INVALID, otel_span_from_values(NULL, 1, "", 0, &span, NULL, 0, NULL));
    CALL(OTEL_STATUS_INVALID, otel_span_from_values("", LONG, "", 0, &span, NULL, 0, NULL));
    CALL(OTEL_STATUS_INVALID, otel_span_from_values("", 0, NULL, 1, &span, NULL, 0, NULL));
    CALL(OTEL_STATUS_INVALID, otel_span_from_values("", 0, "", SIZE_MAX, &span, NULL, 0, NULL));
    CALL(OTEL_STATUS_INVALID, otel_span_from_values("", 0, "", 0, NULL, NULL, 0, NULL));
    CALL(OTEL_STATUS_OK, otel_span_from_values(NULL, 0, NULL, 0, &span, NULL, 0, NULL));
    CALL(OTEL_STATUS_INVALID, otel_span_traceparent(NULL, &none, 1, NULL));
    CALL(OTEL_STATUS_INVALID, otel_context_set_trace_state_pair(NULL, TEXT("a"), TEXT("1")));
    CALL(OTEL_STATUS_INVALID, otel_context_set_trace_state_pair(&headers, TEXT("a"), TEXT("1")));
    CALL(OTEL_STATUS_INVALID, otel_context_set_trace_state_pair(&context, NULL, 1, "1", 1));
    CALL(OTEL_STATUS_INVALID, otel_context_set_trace_state_pair(&context, "a", LONG, "1", 1));
    CALL(OTEL_STATUS_INVALID, otel_context_set_trace_state_pair(&context, "a", 1, NULL, 1));
    CALL(OTEL_STATUS_INVALID, otel_context_set_trace_state_pair(&context, "a", 1, "1", LONG));
    CALL(OTEL_STATUS_KEY, otel_context_set_trace_state_pair(&context, NULL, 0, NULL, 0));
    CALL(OTEL_STATUS_INVALID, otel_context_baggage(NULL, &none, 1, NULL));
    CALL(OTEL_STATUS_INVALID, otel_context_baggage(&headers, &none, 1, NULL));
    CALL(OTEL_STATUS_OK, otel_baggage_set(&context, TEXT("k"), NULL, 0, NULL, 0, &changed));
    WRITES("", otel_baggage_get, &changed, TEXT("k"));
    CALL(OTEL_STATUS_INVALID, otel_baggage_set(&context, TEXT("k"), "v", LONG, "", 0, &changed));
    CALL(OTEL_STATUS_INVALID, otel_baggage_set(&context, TEXT("k"), "v", 1, "", LONG, &changed));
    CALL(OTEL_STATUS_INVALID, otel_baggage_remove(&context, NULL, 1, &changed));
    CALL(OTEL_STATUS_OK, otel_baggage_remove(&context, NULL, 0, &changed));
    CALL(OTEL_STATUS_OK, otel_trace_state_delete(NULL, 0, TEXT("a"), NULL, 0, NULL));
    CALL(OTEL_STATUS_INVALID, otel_trace_state_delete(NULL, 1, TEXT("a"), NULL, 0, NULL));
    CALL(OTEL_STATUS_INVALID, otel_trace_state_get(NULL, 0, NULL, 1, NULL, 0, NULL));
    CALL(OTEL_STATUS_INVALID, otel_trace_state_key(NULL, 1, 0, NULL, 0, NULL));
    CALL(OTEL_STATUS_INVALID, otel_trace_state_insert(NULL, 0, "a", 1, NULL, 1, NULL, 0, NULL));
    otel_free(&headers);
    otel_free(&context);
    otel_free(&changed);
}

/* No handle is given twice, and none is null. */
static void handles(void) {
    otel_handle headers = OTEL_NOTHING, context = OTEL_NOTHING, stack = OTEL_NOTHING;
    otel_handle nothing = OTEL_NOTHING, copy;
    otel_span_context span = OTEL_NO_SPAN;
    size_t count;
    CALL(OTEL_STATUS_OK, otel_headers_new(&headers));
    CALL(OTEL_STATUS_OK, otel_context_new(&context));
    CALL(OTEL_STATUS_OK, otel_stack_new(&stack));
    copy = context;
    CALL(OTEL_STATUS_INVALID, otel_context_clone(&context, &context));
    CALL(OTEL_STATUS_INVALID, otel_context_clone(&context, &copy));
    CALL(OTEL_STATUS_INVALID, otel_context_detach_copy(&context, &copy));
    CALL(OTEL_STATUS_INVALID, otel_context_detach_copy(&nothing, &context));
    CALL(OTEL_STATUS_INVALID, otel_context_detach_copy(&headers, &context));
    CALL(OTEL_STATUS_INVALID, otel_context_detach_copy(&context, NULL));
    CALL(OTEL_STATUS_INVALID, otel_context_extract(&headers, &headers));
    CALL(OTEL_STATUS_INVALID, otel_context_inject(&context, &context));
    CALL(OTEL_STATUS_INVALID, otel_baggage_set(&context, TEXT("k"), "", 0, "", 0, &context));
    CALL(OTEL_STATUS_INVALID, otel_baggage_remove(&context, TEXT("k"), &context));
    CALL(OTEL_STATUS_INVALID, otel_baggage_clear(&context, &context));
    CALL(OTEL_STATUS_INVALID, otel_baggage_clear(&headers, &context));
    CALL(OTEL_STATUS_INVALID, otel_stack_current(&stack, &stack));
    CALL(OTEL_STATUS_INVALID, otel_stack_attach(&stack, &stack, (uint16_t[]){0}));
    CALL(OTEL_STATUS_INVALID, otel_stack_attach(&stack, &context, NULL));
    CALL(OTEL_STATUS_INVALID, otel_stack_detach(NULL, 1));
    CALL(OTEL_STATUS_INVALID, otel_stack_current(&stack, NULL));
    CALL(OTEL_STATUS_INVALID, otel_stack_new(NULL));
    CALL(OTEL_STATUS_INVALID, otel_headers_new(NULL));
    CALL(OTEL_STATUS_INVALID, otel_context_new(NULL));
    CALL(OTEL_STATUS_INVALID, otel_context_clone(NULL, &context));
    CALL(OTEL_STATUS_INVALID, otel_context_extract(&headers, NULL));
    CALL(OTEL_STATUS_INVALID, otel_context_inject(NULL, &headers));
    CALL(OTEL_STATUS_INVALID, otel_context_span(&context, NULL));
    CALL(OTEL_STATUS_INVALID, otel_context_start_child(&context, &context));
    CALL(OTEL_STATUS_INVALID, otel_context_start_child(&context, NULL));
    CALL(OTEL_STATUS_INVALID, otel_context_start_child(&nothing, &context));
    CALL(OTEL_STATUS_INVALID, otel_context_start_child_with(&context, NULL, &nothing));
    CALL(OTEL_STATUS_INVALID, otel_context_start_child_with(&context, &span, &context));
    CALL(OTEL_STATUS_INVALID, otel_baggage_length(&context, NULL));
    CALL(OTEL_STATUS_INVALID, otel_baggage_length(NULL, &count));
    /* The objects are as they were. */
    CALL(OTEL_STATUS_OK, otel_stack_current(&stack, &context));
    CALL(OTEL_STATUS_OK, otel_context_inject(&context, &headers));
    CALL(OTEL_STATUS_INVALID, otel_context_clone(&nothing, &context));
    otel_free(NULL);
    otel_free(&nothing);
    otel_free(&headers);
    otel_free(&context);
    otel_free(&stack);
}

static void texts(void) {
    int status;
    check(strcmp(otel_version(), OTEL_VERSION) == 0, "otel_version");
    check(strcmp(otel_status_text(OTEL_STATUS_NO_MEMORY), "out of memory") == 0, "a status's text");
    for (status = -1; status <= OTEL_STATUS_NO_RANDOM + 1; status++)
        check(strlen(otel_status_text((otel_status)status)) > 3, "a status's text");
    check(strcmp(otel_status_text((otel_status)99), "no status") == 0, "no status's text");
}

static void (*const runs[])(void) = {outputs, inputs, handles, texts};

int main(void) {
    return ends(runs, sizeof runs / sizeof *runs);
}
