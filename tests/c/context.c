/* Calls the functions of include/otel.h on headers and contexts. */
#include "calls.h"

/* Headers of W3C trace-context-2 (sections 2 and 3) and of W3C baggage ("Example"). */
#define PARENT "00-0af7651916cd43dd8448eb211c80319c-b7ad6b7169203331-01"
#define STATE "rojo=00f067aa0ba902b7,congo=t61rcWkgMzE"
#define BAGGAGE "userId=alice,serverNode=DF%2028,isProduction=false"

static void there_and_back(void) {
    otel_handle received = OTEL_NOTHING, context = OTEL_NOTHING, sent = OTEL_NOTHING;
    CALL(OTEL_STATUS_OK, otel_headers_new(&received));
    CALL(OTEL_STATUS_OK, otel_headers_append(&received, TEXT("TraceParent"), TEXT(PARENT)));
    CALL(OTEL_STATUS_OK, otel_headers_append(&received, TEXT("tracestate"),
         TEXT("rojo=00f067aa0ba902b7")));
    CALL(OTEL_STATUS_OK, otel_headers_append(&received, TEXT("tracestate"),
         TEXT("congo=t61rcWkgMzE")));
    CALL(OTEL_STATUS_OK, otel_headers_append(&received, TEXT("baggage"), TEXT(BAGGAGE)));
    CALL(OTEL_STATUS_OK, otel_headers_append(&received, TEXT("host"), TEXT("example.com")));
    CALL(OTEL_STATUS_OK, otel_context_new(&context));
    CALL(OTEL_STATUS_OK, otel_context_extract(&received, &context));
    CALL(OTEL_STATUS_OK, otel_headers_new(&sent));
    CALL(OTEL_STATUS_OK, otel_context_inject(&context, &sent));
    WRITES(PARENT, otel_headers_get, &sent, TEXT("traceparent"));
    WRITES(STATE, otel_headers_get, &sent, TEXT("tracestate"));
    WRITES(BAGGAGE, otel_headers_get, &sent, TEXT("baggage"));
    WRITES("example.com", otel_headers_get, &received, TEXT("host"));
    otel_free(&received);
    otel_free(&context);
    otel_free(&sent);
    check(context.object == NULL, "a freed handle");
    otel_free(&context);
}

/* Contexts are made of the values of headers, without headers. */
static void values(void) {
    static const char *const wrong[] = {"\x01", "a\nb", "\x7f", "\xc3\xa9"};
    otel_handle context = OTEL_NOTHING;
    size_t at;
    CALL(OTEL_STATUS_OK,
         otel_context_from_values(&context, TEXT(PARENT), TEXT(STATE), TEXT(BAGGAGE)));
    injects(&context, "traceparent", PARENT);
    injects(&context, "tracestate", STATE);
    injects(&context, "baggage", BAGGAGE);
    for (at = 0; at < sizeof wrong / sizeof *wrong; at++) {
        CALL(OTEL_STATUS_UNSENDABLE,
             otel_context_from_values(&context, TEXT(wrong[at]), TEXT(""), TEXT("")));
        CALL(OTEL_STATUS_UNSENDABLE,
             otel_context_from_values(&context, TEXT(PARENT), TEXT(wrong[at]), TEXT("")));
        CALL(OTEL_STATUS_UNSENDABLE,
             otel_context_from_values(&context, TEXT(PARENT), TEXT(""), TEXT(wrong[at])));
    }
    CALL(OTEL_STATUS_NOT_TEXT,
         otel_context_from_values(&context, TEXT("\xff"), TEXT(""), TEXT("")));
    CALL(OTEL_STATUS_NOT_TEXT,
         otel_context_from_values(&context, TEXT(""), TEXT("\xff"), TEXT("")));
    CALL(OTEL_STATUS_NOT_TEXT,
         otel_context_from_values(&context, TEXT(""), TEXT(""), TEXT("\xff")));
    injects(&context, "traceparent", PARENT);
    injects(&context, "baggage", BAGGAGE);
    /* The object that the handle held is freed, and nothing of it is kept. */
    CALL(OTEL_STATUS_OK,
         otel_context_from_values(&context, TEXT("\t" PARENT " "), NULL, 0, NULL, 0));
    injects(&context, "traceparent", PARENT);
    injects(&context, "tracestate", "");
    injects(&context, "baggage", "");
    CALL(OTEL_STATUS_OK,
         otel_context_from_values(&context, TEXT("x"), TEXT(STATE), TEXT("k,a=1,a=2")));
    WRITES("", otel_context_trace_state, &context);
    WRITES("a=2", otel_context_baggage, &context);
    CALL(OTEL_STATUS_OK, otel_headers_new(&context));
    CALL(OTEL_STATUS_OK, otel_context_from_values(&context, NULL, 0, NULL, 0, TEXT("b=1")));
    WRITES("b=1", otel_context_baggage, &context);
    CALL(OTEL_STATUS_INVALID, otel_context_from_values(NULL, "", 0, "", 0, "", 0));
    CALL(OTEL_STATUS_INVALID, otel_context_from_values(&context, NULL, 1, "", 0, "", 0));
    CALL(OTEL_STATUS_INVALID, otel_context_from_values(&context, "", 0, NULL, 1, "", 0));
    CALL(OTEL_STATUS_INVALID, otel_context_from_values(&context, "", 0, "", 0, NULL, 1));
    CALL(OTEL_STATUS_INVALID, otel_context_from_values(&context, "", 0, "", 0, "a=1", SIZE_MAX));
    otel_free(&context);
}

static void refusals(void) {
    otel_handle headers = OTEL_NOTHING, context = OTEL_NOTHING;
    char room[8] = "########";
    size_t written = 0;
    CALL(OTEL_STATUS_INVALID, otel_headers_append(&headers, TEXT("host"), TEXT("a")));
    CALL(OTEL_STATUS_OK, otel_headers_new(&headers));
    CALL(OTEL_STATUS_OK, otel_context_new(&context));
    CALL(OTEL_STATUS_KEY, otel_headers_append(&headers, TEXT("ho st"), TEXT("a")));
    CALL(OTEL_STATUS_KEY, otel_headers_append(&headers, TEXT(""), TEXT("a")));
    CALL(OTEL_STATUS_VALUE, otel_headers_append(&headers, TEXT("host"), TEXT("a\r\nb: c")));
    CALL(OTEL_STATUS_ABSENT, otel_headers_get(&headers, TEXT("host"), room, 8, &written));
    CALL(OTEL_STATUS_OK, otel_headers_append(&headers, TEXT("host"), TEXT("example.com")));
    CALL(OTEL_STATUS_NO_ROOM, otel_headers_get(&headers, TEXT("HOST"), room, 8, &written));
    check(written == 11 && memcmp(room, "########", 8) == 0, "a room that is too short");
    CALL(OTEL_STATUS_INVALID, otel_context_extract(&context, &headers));
    CALL(OTEL_STATUS_INVALID, otel_context_inject(&headers, &context));
    CALL(OTEL_STATUS_INVALID, otel_headers_get(&context, TEXT("host"), room, 8, &written));
    /* A header that can't be read counts as absent; the empty baggage is set. */
    CALL(OTEL_STATUS_OK, otel_headers_append(&headers, TEXT("traceparent"), TEXT("00-0-0-00")));
    CALL(OTEL_STATUS_OK, otel_context_extract(&headers, &context));
    otel_free(&headers);
    CALL(OTEL_STATUS_OK, otel_headers_new(&headers));
    CALL(OTEL_STATUS_OK, otel_context_inject(&context, &headers));
    CALL(OTEL_STATUS_ABSENT, otel_headers_get(&headers, TEXT("traceparent"), room, 8, &written));
    WRITES("", otel_headers_get, &headers, TEXT("baggage"));
    otel_free(&headers);
    otel_free(&context);
}

/* A clone doesn't change when the context changes. */
static void clones(void) {
    otel_handle context = OTEL_NOTHING, clone = OTEL_NOTHING;
    CALL(OTEL_STATUS_INVALID, otel_context_clone(&context, &clone));
    check(clone.object == NULL, "a clone of nothing");
    extract(&context, "traceparent", PARENT);
    CALL(OTEL_STATUS_OK, otel_context_clone(&context, &clone));
    extract(&context, "baggage", BAGGAGE);
    injects(&clone, "traceparent", PARENT);
    injects(&clone, "baggage", "");
    CALL(OTEL_STATUS_OK, otel_context_clone(&context, &clone));
    otel_free(&context);
    injects(&clone, "traceparent", PARENT);
    injects(&clone, "baggage", BAGGAGE);
    CALL(OTEL_STATUS_OK, otel_headers_new(&context));
    CALL(OTEL_STATUS_INVALID, otel_context_clone(&context, &clone));
    injects(&clone, "baggage", BAGGAGE);
    otel_free(&context);
    otel_free(&clone);
}

/* Headers that are used again keep nothing of a removed name. */
static void removals(void) {
    otel_handle headers = OTEL_NOTHING, context = OTEL_NOTHING;
    CALL(OTEL_STATUS_INVALID, otel_headers_remove(&headers, TEXT("traceparent")));
    CALL(OTEL_STATUS_OK, otel_headers_new(&headers));
    CALL(OTEL_STATUS_OK, otel_context_new(&context));
    CALL(OTEL_STATUS_INVALID, otel_headers_remove(&context, TEXT("traceparent")));
    CALL(OTEL_STATUS_OK, otel_headers_append(&headers, TEXT("traceparent"), TEXT(PARENT)));
    CALL(OTEL_STATUS_OK, otel_headers_append(&headers, TEXT("host"), TEXT("a")));
    CALL(OTEL_STATUS_OK, otel_headers_append(&headers, TEXT("traceparent"), TEXT(PARENT)));
    CALL(OTEL_STATUS_OK, otel_headers_append(&headers, TEXT("accept"), TEXT("b")));
    CALL(OTEL_STATUS_OK, otel_headers_remove(&headers, TEXT("TraceParent")));
    CALL(OTEL_STATUS_OK, otel_headers_remove(&headers, TEXT("traceparent")));
    CALL(OTEL_STATUS_OK, otel_headers_remove(&headers, TEXT("no name")));
    LEAVES(OTEL_STATUS_ABSENT, otel_headers_get, &headers, TEXT("traceparent"));
    WRITES("a", otel_headers_get, &headers, TEXT("host"));
    WRITES("b", otel_headers_get, &headers, TEXT("accept"));
    otel_free(&headers);
    otel_free(&context);
}

/* A copy that shares nothing has the same span and baggage. */
static void copies(void) {
    static const char *const states[] = {"", "a=1 b", STATE ",a= x"};
    otel_handle context = OTEL_NOTHING, copy = OTEL_NOTHING;
    otel_span_context span, same;
    size_t at;
    extract(&context, "traceparent", PARENT);
    CALL(OTEL_STATUS_OK, otel_context_span(&context, &span));
    CALL(OTEL_STATUS_OK, otel_context_new(&context));
    CALL(OTEL_STATUS_OK, otel_context_detach_copy(&context, &copy));
    injects(&copy, "baggage", "");
    extract(&context, "baggage", "k=v;m=1,l=%20w");
    for (at = 0; at < 3; at++) {
        span.is_remote = at != 0;
        span.flags = (uint8_t)(0xf0 + at);
        CALL(OTEL_STATUS_OK, otel_context_set_span(&context, &span, TEXT(states[at])));
        CALL(OTEL_STATUS_OK, otel_context_detach_copy(&context, &copy));
        CALL(OTEL_STATUS_OK, otel_context_span(&copy, &same));
        check(memcmp(&same, &span, sizeof span) == 0, "the span of a copy");
        WRITES(states[at], otel_context_trace_state, &copy);
        injects(&copy, "baggage", "k=v;m=1,l=%20w");
    }
    otel_free(&context);
    WRITES(states[2], otel_context_trace_state, &copy);
    injects(&copy, "baggage", "k=v;m=1,l=%20w");
    otel_free(&copy);
}

/* Headers that are used again keep nothing of the context before, but what else they have. */
static void used_again(void) {
    otel_handle headers = OTEL_NOTHING, context = OTEL_NOTHING, empty = OTEL_NOTHING;
    CALL(OTEL_STATUS_OK, otel_headers_new(&headers));
    CALL(OTEL_STATUS_OK, otel_headers_append(&headers, TEXT("host"), TEXT("a")));
    CALL(OTEL_STATUS_OK, otel_headers_append(&headers, TEXT("Baggage"), TEXT("k=v")));
    CALL(OTEL_STATUS_OK, otel_headers_append(&headers, TEXT("baggage"), TEXT("l=w")));
    CALL(OTEL_STATUS_OK, otel_headers_append(&headers, TEXT("tracestate"), TEXT("a=1")));
    CALL(OTEL_STATUS_OK, otel_headers_append(&headers, TEXT("host"), TEXT("b")));
    CALL(OTEL_STATUS_OK, otel_context_new(&empty));
    extract(&context, "traceparent", PARENT);
    extract(&context, "baggage", BAGGAGE);
    CALL(OTEL_STATUS_OK, otel_context_inject(&context, &headers));
    WRITES(PARENT, otel_headers_get, &headers, TEXT("traceparent"));
    WRITES("", otel_headers_get, &headers, TEXT("tracestate"));
    WRITES(BAGGAGE, otel_headers_get, &headers, TEXT("baggage"));
    CALL(OTEL_STATUS_INVALID, otel_context_inject(&headers, &context));
    CALL(OTEL_STATUS_INVALID, otel_context_inject(&empty, &context));
    CALL(OTEL_STATUS_OK, otel_context_inject(&empty, &headers));
    LEAVES(OTEL_STATUS_ABSENT, otel_headers_get, &headers, TEXT("traceparent"));
    LEAVES(OTEL_STATUS_ABSENT, otel_headers_get, &headers, TEXT("tracestate"));
    WRITES("", otel_headers_get, &headers, TEXT("baggage"));
    WRITES("a", otel_headers_get, &headers, TEXT("host"));
    otel_free(&headers);
    otel_free(&context);
    otel_free(&empty);
}

static void (*const runs[])(void) = {there_and_back, values, refusals, clones, copies, removals,
                                     used_again};

int main(void) {
    return ends(runs, sizeof runs / sizeof *runs);
}
