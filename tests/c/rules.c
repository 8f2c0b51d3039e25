/* Reads and sends headers by each rule that include/otel.h gives at otel_context_extract and
 * otel_context_inject. */
#include "calls.h"

#define IDS "0af7651916cd43dd8448eb211c80319c-b7ad6b7169203331"
#define PARENT "00-" IDS "-01"

/* A header that is received, and the one that is sent on, or null if none is. */
typedef struct rule {
    const char *name, *value, *sent;
} rule;

static const rule rules[] = {
    {"traceparent", PARENT, PARENT},
    {"traceparent", " \t" PARENT " ", PARENT},
    {"traceparent", "00-" IDS "-ff", "00-" IDS "-ff"},
    {"traceparent", "01-" IDS "-01", NULL},
    {"traceparent", "01-" IDS "-01-more", NULL},
    {"traceparent", "00-" IDS "-01-more", NULL},
    {"traceparent", "00-" IDS "-0A", NULL},
    {"traceparent", "00-00000000000000000000000000000000-b7ad6b7169203331-01", NULL},
    {"traceparent", "00-0af7651916cd43dd8448eb211c80319c-0000000000000000-01", NULL},
    {"traceparent", PARENT "\xc3\xa9", NULL},
    /* A tracestate without a traceparent isn't read. */
    {"tracestate", "a=1", NULL},
    {"baggage", "a=1", "a=1"},
    {"baggage", "x", ""},
    {"baggage", "", ""},
    {"baggage", " a = b%20c ;m , x , =y , a b=1 , d=%ff , e=%", "a=b%20c;m,e=%25"},
    {"baggage", "a=1;p=x,b=2", "a=1;p=x,b=2"},
    {"baggage", "a=1,b=2,a=3", "a=3,b=2"},
    {"baggage", "a=\xc3\xa9", NULL},
    {"baggage", "a=%C3%A9", "a=%C3%A9"},
};

static void sends(otel_handle *context, const char *name, const char *sent) {
    otel_handle headers = OTEL_NOTHING;
    CALL(OTEL_STATUS_OK, otel_headers_new(&headers));
    CALL(OTEL_STATUS_OK, otel_context_inject(context, &headers));
    if (sent == NULL)
        LEAVES(OTEL_STATUS_ABSENT, otel_headers_get, &headers, TEXT(name));
    else
        WRITES(sent, otel_headers_get, &headers, TEXT(name));
    otel_free(&headers);
}

/* Each rule in a context of its own. An unreadable baggage is an absent one, and empty. */
static void alone(void) {
    size_t at;
    for (at = 0; at < sizeof rules / sizeof *rules; at++) {
        otel_handle context = OTEL_NOTHING;
        int is_baggage = strcmp(rules[at].name, "baggage") == 0;
        extract(&context, rules[at].name, rules[at].value);
        sends(&context, rules[at].name, rules[at].sent == NULL && is_baggage ? "" : rules[at].sent);
        otel_free(&context);
    }
}

/* What a header doesn't carry, the context keeps. */
static void kept(void) {
    otel_handle context = OTEL_NOTHING;
    extract(&context, "baggage", "a=1");
    extract(&context, "traceparent", PARENT);
    extract(&context, "traceparent", "01-" IDS "-01");
    extract(&context, "traceparent", "\xff");
    extract(&context, "baggage", "b=\xff");
    sends(&context, "traceparent", PARENT);
    sends(&context, "tracestate", "");
    sends(&context, "baggage", "a=1");
    extract(&context, "baggage", "x");
    sends(&context, "baggage", "");
    otel_free(&context);
}

/* Several headers of one name: one traceparent, and lists that are joined. */
static void repeated(void) {
    otel_handle headers = OTEL_NOTHING, context = OTEL_NOTHING;
    CALL(OTEL_STATUS_OK, otel_headers_new(&headers));
    CALL(OTEL_STATUS_OK, otel_context_new(&context));
    CALL(OTEL_STATUS_OK, otel_headers_append(&headers, TEXT("traceparent"), TEXT(PARENT)));
    CALL(OTEL_STATUS_OK, otel_headers_append(&headers, TEXT("tracestate"), TEXT("a=1")));
    CALL(OTEL_STATUS_OK, otel_headers_append(&headers, TEXT("tracestate"), TEXT("\xff")));
    CALL(OTEL_STATUS_OK, otel_headers_append(&headers, TEXT("tracestate"), TEXT("b=2")));
    CALL(OTEL_STATUS_OK, otel_headers_append(&headers, TEXT("baggage"), TEXT("a=1")));
    CALL(OTEL_STATUS_OK, otel_headers_append(&headers, TEXT("baggage"), TEXT("b=2")));
    CALL(OTEL_STATUS_OK, otel_context_extract(&headers, &context));
    sends(&context, "tracestate", "a=1,b=2");
    sends(&context, "baggage", "a=1,b=2");
    CALL(OTEL_STATUS_OK, otel_headers_append(&headers, TEXT("tracestate"), TEXT("c")));
    CALL(OTEL_STATUS_OK, otel_context_extract(&headers, &context));
    sends(&context, "traceparent", PARENT);
    sends(&context, "tracestate", "");
    CALL(OTEL_STATUS_OK, otel_headers_append(&headers, TEXT("traceparent"), TEXT(PARENT)));
    CALL(OTEL_STATUS_OK, otel_context_new(&context));
    CALL(OTEL_STATUS_OK, otel_context_extract(&headers, &context));
    sends(&context, "traceparent", NULL);
    otel_free(&headers);
    otel_free(&context);
}

/* A cleared baggage is empty, and its span stays. */
static void cleared(void) {
    otel_handle context = OTEL_NOTHING, changed = OTEL_NOTHING;
    extract(&context, "traceparent", PARENT);
    extract(&context, "baggage", "a=1,b=2");
    CALL(OTEL_STATUS_OK, otel_baggage_clear(&context, &changed));
    sends(&changed, "traceparent", PARENT);
    sends(&changed, "baggage", "");
    sends(&context, "baggage", "a=1,b=2");
    CALL(OTEL_STATUS_OK, otel_context_new(&context));
    CALL(OTEL_STATUS_OK, otel_baggage_clear(&context, &changed));
    sends(&changed, "traceparent", NULL);
    otel_free(&context);
    otel_free(&changed);
}

/* Texts with a byte that no header can carry, and 32 members that are empty. */
static const char *const unsendable[] = {"\x01", "a\x1f", "\x7f", "\xc3\xa9", "a\nb", "a\rb"};
#define COMMAS ",,,,,,,,,,,,,,,,,,,,,,,,,,,,,,,,"

/* What no header can carry is refused where it is set, and headers that are used again keep no old
 * one. */
static void unsendable_or_old(void) {
    otel_handle headers = OTEL_NOTHING, context = OTEL_NOTHING, changed = OTEL_NOTHING;
    otel_span_context span = OTEL_NO_SPAN;
    size_t at;
    CALL(OTEL_STATUS_OK, otel_headers_new(&headers));
    extract(&context, "traceparent", PARENT);
    CALL(OTEL_STATUS_OK, otel_context_inject(&context, &headers));
    CALL(OTEL_STATUS_OK, otel_context_span(&context, &span));
    CALL(OTEL_STATUS_OK, otel_context_new(&context));
    CALL(OTEL_STATUS_OK, otel_context_inject(&context, &headers));
    LEAVES(OTEL_STATUS_ABSENT, otel_headers_get, &headers, TEXT("traceparent"));
    CALL(OTEL_STATUS_OK, otel_headers_new(&headers));
    CALL(OTEL_STATUS_OK, otel_context_set_span(&context, &span, TEXT("a=1 \t~")));
    for (at = 0; at < sizeof unsendable / sizeof *unsendable; at++) {
        char state[8] = "b=";
        strcat(state, unsendable[at]);
        CALL(OTEL_STATUS_UNSENDABLE, otel_context_set_span(&context, &span, TEXT(state)));
        CALL(OTEL_STATUS_UNSENDABLE,
             otel_baggage_set(&context, TEXT("k"), "", 0, TEXT(unsendable[at]), &changed));
    }
    check(changed.object == NULL, "a member that can't be sent");
    CALL(OTEL_STATUS_OK, otel_context_inject(&context, &headers));
    WRITES(PARENT, otel_headers_get, &headers, TEXT("traceparent"));
    WRITES("a=1 \t~", otel_headers_get, &headers, TEXT("tracestate"));
    /* A 33rd member isn't read, and white space around metadata is no part of it. */
    CALL(OTEL_STATUS_OK, otel_context_set_span(&context, &span, TEXT(COMMAS "c=\x01")));
    CALL(OTEL_STATUS_OK, otel_baggage_set(&context, TEXT("k"), "", 0, TEXT("\n m \n"), &changed));
    sends(&changed, "baggage", "k=;m");
    CALL(OTEL_STATUS_OK,
         otel_baggage_set(&context, TEXT("k"), TEXT("\x01\xc3\xa9"), "", 0, &changed));
    sends(&changed, "baggage", "k=%01%C3%A9");
    /* A comma in metadata is sent, and begins another member. */
    CALL(OTEL_STATUS_OK, otel_baggage_set(&context, TEXT("k"), "", 0, TEXT("m,l=1"), &changed));
    sends(&changed, "baggage", "k=;m,l=1");
    otel_free(&headers);
    otel_free(&context);
    otel_free(&changed);
}

static void (*const runs[])(void) = {alone, kept, repeated, cleared, unsendable_or_old};

int main(void) {
    return ends(runs, sizeof runs / sizeof *runs);
}
