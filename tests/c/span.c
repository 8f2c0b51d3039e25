/* Calls the functions of include/otel.h on the span of a context. */
#include "calls.h"

/* A header of W3C trace-context-2 ("Examples of HTTP traceparent Headers") and its bytes. */
#define PARENT "00-4bf92f3577b34da6a3ce929d0e0e4736-00f067aa0ba902b7-01"

static const otel_span_context example = {
    {0x4b, 0xf9, 0x2f, 0x35, 0x77, 0xb3, 0x4d, 0xa6,
     0xa3, 0xce, 0x92, 0x9d, 0x0e, 0x0e, 0x47, 0x36},
    {0x00, 0xf0, 0x67, 0xaa, 0x0b, 0xa9, 0x02, 0xb7},
    0x01,
    1,
};

static const otel_span_context none = OTEL_NO_SPAN;

/* Whether the context's span has these parts. */
static void shows(otel_handle *context, const otel_span_context *wanted) {
    otel_span_context span = {{0xff}, {0xff}, 0xff, 0};
    CALL(OTEL_STATUS_OK, otel_context_span(context, &span));
    check(memcmp(span.trace_id, wanted->trace_id, 16) == 0, "trace_id");
    check(memcmp(span.span_id, wanted->span_id, 8) == 0, "span_id");
    check(span.flags == wanted->flags, "flags");
    check(span.is_remote == wanted->is_remote, "is_remote");
}

static void reads(void) {
    otel_handle context = OTEL_NOTHING, headers = OTEL_NOTHING;
    otel_span_context span = example;
    CALL(OTEL_STATUS_INVALID, otel_context_span(&context, &span));
    LEAVES(OTEL_STATUS_INVALID, otel_context_trace_state, &context);
    LEAVES(OTEL_STATUS_INVALID, otel_context_traceparent, &context);
    CALL(OTEL_STATUS_OK, otel_context_new(&context));
    shows(&context, &none);
    WRITES("", otel_context_trace_state, &context);
    LEAVES(OTEL_STATUS_ABSENT, otel_context_traceparent, &context);
    CALL(OTEL_STATUS_OK, otel_headers_new(&headers));
    CALL(OTEL_STATUS_INVALID, otel_context_span(&headers, &span));
    check(memcmp(&span, &example, sizeof span) == 0, "the span of no context");
    CALL(OTEL_STATUS_OK, otel_headers_append(&headers, TEXT("traceparent"), TEXT(PARENT)));
    CALL(OTEL_STATUS_OK, otel_headers_append(&headers, TEXT("tracestate"),
                                             TEXT("rojo=1, congo=2")));
    CALL(OTEL_STATUS_OK, otel_context_extract(&headers, &context));
    shows(&context, &example);
    WRITES("rojo=1,congo=2", otel_context_trace_state, &context);
    WRITES(PARENT, otel_context_traceparent, &context);
    otel_free(&headers);
    otel_free(&context);
}

static void sets(void) {
    otel_handle context = OTEL_NOTHING;
    otel_span_context local = example;
    CALL(OTEL_STATUS_INVALID, otel_context_set_span(&context, &example, "", 0));
    extract(&context, "baggage", "k=v");
    CALL(OTEL_STATUS_OK, otel_context_set_span(&context, &example, TEXT("rojo=1 , congo=2")));
    shows(&context, &example);
    WRITES("rojo=1,congo=2", otel_context_trace_state, &context);
    injects(&context, "traceparent", PARENT);
    injects(&context, "tracestate", "rojo=1,congo=2");
    injects(&context, "baggage", "k=v");
    local.is_remote = 0;
    local.flags = 0xff;
    CALL(OTEL_STATUS_OK, otel_context_set_span(&context, &local, "", 0));
    shows(&context, &local);
    WRITES("00-4bf92f3577b34da6a3ce929d0e0e4736-00f067aa0ba902b7-ff", otel_context_traceparent,
           &context);
    WRITES("", otel_context_trace_state, &context);
    /* An invalid trace state changes nothing. */
    CALL(OTEL_STATUS_LIST, otel_context_set_span(&context, &example, TEXT("rojo")));
    CALL(OTEL_STATUS_KEY, otel_context_set_span(&context, &example, TEXT("Rojo=1")));
    CALL(OTEL_STATUS_VALUE, otel_context_set_span(&context, &example, TEXT("rojo=1=2")));
    CALL(OTEL_STATUS_NOT_TEXT, otel_context_set_span(&context, &example, TEXT("rojo=\xff")));
    shows(&context, &local);
    CALL(OTEL_STATUS_OK, otel_context_set_span(&context, &none, "", 0));
    shows(&context, &none);
    otel_free(&context);
}

/* Pairs of the trace state are set in front, and the rest of the span and the context is kept. */
static void pairs(void) {
    otel_handle context = OTEL_NOTHING, child = OTEL_NOTHING;
    char many[256] = "new=1", *end = many + 5;
    int at;
    CALL(OTEL_STATUS_INVALID, otel_context_set_trace_state_pair(&context, TEXT("a"), TEXT("1")));
    extract(&context, "baggage", "k=v");
    CALL(OTEL_STATUS_OK, otel_context_set_trace_state_pair(&context, TEXT("a"), TEXT("1")));
    shows(&context, &none);
    WRITES("a=1", otel_context_trace_state, &context);
    CALL(OTEL_STATUS_OK, otel_context_set_span(&context, &example, TEXT("rojo=1,congo=2")));
    CALL(OTEL_STATUS_OK, otel_context_set_trace_state_pair(&context, TEXT("congo"), TEXT("\t3")));
    shows(&context, &example);
    injects(&context, "traceparent", PARENT);
    injects(&context, "tracestate", "congo=\t3,rojo=1");
    injects(&context, "baggage", "k=v");
    CALL(OTEL_STATUS_OK, otel_context_start_child(&context, &child));
    CALL(OTEL_STATUS_OK, otel_context_set_trace_state_pair(&child, TEXT("a@b"), TEXT("4")));
    WRITES("a@b=4,congo=\t3,rojo=1", otel_context_trace_state, &child);
    WRITES("congo=\t3,rojo=1", otel_context_trace_state, &context);
    /* A pair that isn't valid, or that no header can carry, changes nothing. */
    CALL(OTEL_STATUS_KEY, otel_context_set_trace_state_pair(&context, TEXT("Congo"), TEXT("1")));
    CALL(OTEL_STATUS_KEY, otel_context_set_trace_state_pair(&context, TEXT(""), TEXT("1")));
    CALL(OTEL_STATUS_VALUE, otel_context_set_trace_state_pair(&context, TEXT("a"), TEXT("1,2")));
    CALL(OTEL_STATUS_NOT_TEXT,
         otel_context_set_trace_state_pair(&context, TEXT("\xff"), TEXT("1")));
    CALL(OTEL_STATUS_NOT_TEXT,
         otel_context_set_trace_state_pair(&context, TEXT("a"), TEXT("\xff")));
    CALL(OTEL_STATUS_UNSENDABLE,
         otel_context_set_trace_state_pair(&context, TEXT("a"), TEXT("\x01")));
    CALL(OTEL_STATUS_UNSENDABLE,
         otel_context_set_trace_state_pair(&context, TEXT("a"), TEXT("\xc3\xa9")));
    WRITES("congo=\t3,rojo=1", otel_context_trace_state, &context);
    /* Of 33 pairs, the last is left out. */
    for (at = 0; at < OTEL_MAX_PAIRS; at++)
        end += sprintf(end, ",k%02d=1", at);
    CALL(OTEL_STATUS_OK, otel_context_set_span(&context, &example, TEXT(many + 6)));
    CALL(OTEL_STATUS_OK, otel_context_set_trace_state_pair(&context, TEXT("new"), TEXT("1")));
    end[-6] = 0;
    WRITES(many, otel_context_trace_state, &context);
    otel_free(&context);
    otel_free(&child);
}

/* A child has the trace of its parent, or begins one. */
static void children(void) {
    otel_handle context = OTEL_NOTHING, child = OTEL_NOTHING;
    otel_span_context ids = {{7, 1}, {0, 0, 0, 0, 0, 0, 0, 9}, 0xfe, 1}, wanted = example, span;
    CALL(OTEL_STATUS_INVALID, otel_context_start_child_with(&context, &ids, &child));
    extract(&context, "baggage", "k=v");
    CALL(OTEL_STATUS_OK, otel_context_start_child_with(&context, &ids, &child));
    wanted = ids;
    wanted.is_remote = 0;
    shows(&child, &wanted);
    WRITES("", otel_context_trace_state, &child);
    injects(&child, "traceparent", "00-07010000000000000000000000000000-0000000000000009-fe");
    injects(&child, "baggage", "k=v");
    shows(&context, &none);
    CALL(OTEL_STATUS_OK, otel_context_set_span(&context, &example, TEXT("rojo=1,congo=2")));
    CALL(OTEL_STATUS_OK, otel_context_start_child_with(&context, &ids, &child));
    wanted = example;
    memcpy(wanted.span_id, ids.span_id, 8);
    wanted.is_remote = 0;
    shows(&child, &wanted);
    WRITES("rojo=1,congo=2", otel_context_trace_state, &child);
    injects(&child, "baggage", "k=v");
    shows(&context, &example);
    /* No id may be 0. The trace id counts only without a parent. */
    memset(ids.trace_id, 0, 16);
    CALL(OTEL_STATUS_OK, otel_context_start_child_with(&context, &ids, &child));
    shows(&child, &wanted);
    memset(ids.span_id, 0, 8);
    CALL(OTEL_STATUS_INVALID, otel_context_start_child_with(&context, &ids, &child));
    shows(&child, &wanted);
    ids.span_id[7] = 1;
    CALL(OTEL_STATUS_OK, otel_context_set_span(&context, &none, "", 0));
    CALL(OTEL_STATUS_INVALID, otel_context_start_child_with(&context, &ids, &child));
    /* A span of which one id is 0 is none. */
    ids.trace_id[15] = 1;
    wanted = example;
    memset(wanted.span_id, 0, 8);
    CALL(OTEL_STATUS_OK, otel_context_set_span(&context, &wanted, TEXT("a=1")));
    LEAVES(OTEL_STATUS_ABSENT, otel_context_traceparent, &context);
    CALL(OTEL_STATUS_OK, otel_context_start_child_with(&context, &ids, &child));
    ids.is_remote = 0;
    shows(&child, &ids);
    WRITES("", otel_context_trace_state, &child);
    /* Random ids. */
    CALL(OTEL_STATUS_OK, otel_context_set_span(&context, &example, TEXT("a=1")));
    CALL(OTEL_STATUS_OK, otel_context_start_child(&context, &child));
    CALL(OTEL_STATUS_OK, otel_context_span(&child, &span));
    check(memcmp(span.span_id, example.span_id, 8) != 0, "a new span id");
    check(memcmp(span.span_id, none.span_id, 8) != 0, "a span id that isn't 0");
    wanted = example;
    memcpy(wanted.span_id, span.span_id, 8);
    wanted.is_remote = 0;
    shows(&child, &wanted);
    WRITES("a=1", otel_context_trace_state, &child);
    CALL(OTEL_STATUS_OK, otel_context_new(&context));
    CALL(OTEL_STATUS_OK, otel_context_start_child(&context, &child));
    CALL(OTEL_STATUS_OK, otel_context_span(&child, &wanted));
    check(memcmp(wanted.trace_id, example.trace_id, 16) != 0, "a new trace id");
    check(memcmp(wanted.trace_id, none.trace_id, 16) != 0, "a trace id that isn't 0");
    check(memcmp(wanted.span_id, span.span_id, 8) != 0, "another span id");
    check(wanted.flags == OTEL_SAMPLED && wanted.is_remote == 0, "a sampled root");
    otel_free(&context);
    otel_free(&child);
}

/* The span of values of headers, and back, without a context. */
static void values(void) {
    otel_span_context span = none, other = example;
    WRITES("rojo=1,congo=2", otel_span_from_values, TEXT(PARENT), TEXT("rojo=1, congo=2"), &span);
    check(memcmp(&span, &example, sizeof span) == 0, "the span of values");
    WRITES(PARENT, otel_span_traceparent, &span);
    /* A value that no header can have, and a short buffer, leave the span. */
    LEAVES(OTEL_STATUS_NOT_TEXT, otel_span_from_values, TEXT("\xff"), "", 0, &span);
    LEAVES(OTEL_STATUS_UNSENDABLE, otel_span_from_values, TEXT("x"), TEXT("a=\x7f"), &span);
    LEAVES(OTEL_STATUS_UNSENDABLE, otel_span_from_values, TEXT("\n"), "", 0, &span);
    LEAVES(OTEL_STATUS_NO_ROOM, otel_span_from_values, TEXT("\t" PARENT " "),
           TEXT("rojo=1,congo=2"), &span);
    check(memcmp(&span, &example, sizeof span) == 0, "the span is unchanged");
    /* A trace state with a fault is none, and so is the one of no span. */
    WRITES("", otel_span_from_values, TEXT(PARENT), TEXT("Rojo=1"), &span);
    check(memcmp(&span, &example, sizeof span) == 0, "the span of a faulty trace state");
    WRITES("", otel_span_from_values, TEXT("x"), TEXT("rojo=1"), &span);
    check(memcmp(&span, &none, sizeof span) == 0, "no span");
    LEAVES(OTEL_STATUS_ABSENT, otel_span_traceparent, &span);
    other.flags = 0xfe;
    other.is_remote = 2;
    WRITES("00-4bf92f3577b34da6a3ce929d0e0e4736-00f067aa0ba902b7-fe", otel_span_traceparent,
           &other);
    memset(other.span_id, 0, 8);
    LEAVES(OTEL_STATUS_ABSENT, otel_span_traceparent, &other);
    memset(other.trace_id, 0, 16);
    other.span_id[0] = 1;
    LEAVES(OTEL_STATUS_ABSENT, otel_span_traceparent, &other);
}

/* Ids of W3C trace-context-2, to and from digits of either case. */
static void digits(void) {
    static const char *const wrong[] = {
        "", "00f067aa0ba902b", "00f067aa0ba902b70", "+0f067aa0ba902b7",
        "00f067aa0ba902bg", "0x00f067aa0ba902", " 0f067aa0ba902b7",
    };
    uint8_t trace_id[16] = {1}, span_id[8] = {1};
    size_t at;
    CALL(OTEL_STATUS_OK,
         otel_trace_id_from_hex(TEXT("4bf92F3577b34da6a3Ce929d0e0E4736"), trace_id));
    check(memcmp(trace_id, example.trace_id, 16) == 0, "a trace id from digits");
    CALL(OTEL_STATUS_OK, otel_span_id_from_hex(TEXT("00f067aa0ba902b7"), span_id));
    check(memcmp(span_id, example.span_id, 8) == 0, "a span id from digits");
    for (at = 0; at < sizeof wrong / sizeof *wrong; at++) {
        CALL(OTEL_STATUS_VALUE, otel_span_id_from_hex(TEXT(wrong[at]), span_id));
        CALL(OTEL_STATUS_VALUE, otel_trace_id_from_hex(TEXT(wrong[at]), trace_id));
    }
    check(memcmp(span_id, example.span_id, 8) == 0, "an id from no digits");
    check(memcmp(trace_id, example.trace_id, 16) == 0, "an id from no digits");
    WRITES("4bf92f3577b34da6a3ce929d0e0e4736", otel_trace_id_to_hex, trace_id);
    WRITES("00f067aa0ba902b7", otel_span_id_to_hex, span_id);
    CALL(OTEL_STATUS_OK,
         otel_trace_id_from_hex(TEXT("00000000000000000000000000000000"), trace_id));
    WRITES("00000000000000000000000000000000", otel_trace_id_to_hex, trace_id);
    CALL(OTEL_STATUS_INVALID, otel_trace_id_from_hex(NULL, 32, trace_id));
    CALL(OTEL_STATUS_INVALID, otel_span_id_from_hex("0", 1, NULL));
    CALL(OTEL_STATUS_INVALID, otel_trace_id_to_hex(NULL, NULL, 0, NULL));
    CALL(OTEL_STATUS_INVALID, otel_span_id_to_hex(span_id, NULL, 1, NULL));
}

static void (*const runs[])(void) = {reads, sets, pairs, children, values, digits};

int main(void) {
    return ends(runs, sizeof runs / sizeof *runs);
}
