/* Headers of any bytes, through extraction and injection, beside a plain model in C: libFuzzer with
 * AddressSanitizer, by tests/c/fuzzed.
 *
 * An input is a list of headers: a byte that names the header, a value, and a byte 0 that ends it.
 * The model reads traceparent and the limits of a baggage as otel.h says. Each text that is written
 * fits exactly, what is injected is extracted again as it was, with headers and without them, and
 * copies, children and contexts with another pair have what they should. */
#include <assert.h>
#include <stdio.h>
#include <stdlib.h>
#include <string.h>

#include "otel.h"

#define MOST 65536

static const char *const names[] = {"traceparent", "tracestate", "baggage", "Baggage", "host"};

/* A text that the library wrote. The byte after it stays as it was. */
typedef struct text {
    char *bytes;
    size_t length;
} text;

#define MUST(call)                                                                                 \
    do {                                                                                           \
        if ((call) != OTEL_STATUS_OK) {                                                            \
            fprintf(stderr, "%s\n", #call);                                                        \
            abort();                                                                               \
        }                                                                                          \
    } while (0)

/* Asks for the text's length, and then for the text. Its bytes are null if there is none. */
#define ASK(to, function, ...)                                                                     \
    do {                                                                                           \
        otel_status status = function(__VA_ARGS__, (to)->bytes = malloc(1), 0, &(to)->length);     \
        free((to)->bytes);                                                                         \
        (to)->bytes = NULL;                                                                        \
        if (status == OTEL_STATUS_ABSENT)                                                          \
            break;                                                                                 \
        assert(status == OTEL_STATUS_NO_ROOM || (status == OTEL_STATUS_OK && (to)->length == 0));  \
        (to)->bytes = malloc((to)->length + 1);                                                    \
        (to)->bytes[(to)->length] = '#';                                                           \
        MUST(function(__VA_ARGS__, (to)->bytes, (to)->length, &(to)->length));                     \
        assert((to)->bytes[(to)->length] == '#');                                                  \
    } while (0)

/* ---- the model */

static int is_readable(const char *bytes, size_t length) {
    size_t at;
    for (at = 0; at < length; at++)
        if (bytes[at] != '\t' && (bytes[at] < ' ' || bytes[at] > '~'))
            return 0;
    return 1;
}

static int is_blank(char byte) { return byte == ' ' || byte == '\t'; }

static int digit(char byte) {
    const char *digits = "0123456789abcdef", *found = byte ? strchr(digits, byte) : NULL;
    return found ? (int)(found - digits) : -1;
}

/* Reads so many digits of an id, and says whether it isn't 0. */
static int reads_id(const char *digits, size_t count, uint8_t *id) {
    size_t at;
    int any = 0;
    for (at = 0; at < count; at++) {
        int high = digit(digits[2 * at]), low = digit(digits[2 * at + 1]);
        if (high < 0 || low < 0)
            return 0;
        id[at] = (uint8_t)(16 * high + low);
        any |= id[at];
    }
    return any != 0;
}

/* The span of a traceparent, or OTEL_NO_SPAN. */
static otel_span_context span_of(const char *bytes, size_t length) {
    otel_span_context none = OTEL_NO_SPAN, span = OTEL_NO_SPAN;
    while (length != 0 && is_blank(*bytes))
        bytes++, length--;
    while (length != 0 && is_blank(bytes[length - 1]))
        length--;
    if (length != 55 || memcmp(bytes, "00-", 3) != 0 || bytes[35] != '-' || bytes[52] != '-'
        || !reads_id(bytes + 3, 16, span.trace_id) || !reads_id(bytes + 36, 8, span.span_id)
        || digit(bytes[53]) < 0 || digit(bytes[54]) < 0)
        return none;
    span.flags = (uint8_t)(16 * digit(bytes[53]) + digit(bytes[54]));
    span.is_remote = 1;
    return span;
}

/* The most members that the text can have: the pieces between commas that have a `=`. */
static size_t most_members(const char *bytes, size_t length) {
    size_t at, found = 0, has = 0;
    for (at = 0; at <= length; at++) {
        if (at == length || bytes[at] == ',') {
            found += has;
            has = 0;
        } else if (bytes[at] == '=') {
            has = 1;
        }
    }
    return found < OTEL_MAX_MEMBERS ? found : OTEL_MAX_MEMBERS;
}

/* ---- a run */

/* What the model knows of the headers. */
typedef struct received {
    size_t parents, baggages, members;
    otel_span_context span;
} received;

static void add(otel_handle *headers, unsigned which, const char *value, size_t length,
                received *all) {
    const char *name = names[which % (sizeof names / sizeof *names)];
    otel_status status = otel_headers_append(headers, name, strlen(name), value, length);
    size_t at;
    int good = 1;
    for (at = 0; at < length; at++)
        good &= value[at] == '\t' || ((unsigned char)value[at] >= ' ' && value[at] != 127);
    assert(status == (good ? OTEL_STATUS_OK : OTEL_STATUS_VALUE));
    if (!good)
        return;
    if (which % 5 == 0 && ++all->parents == 1 && is_readable(value, length))
        all->span = span_of(value, length);
    if ((which % 5 == 2 || which % 5 == 3) && is_readable(value, length)) {
        all->baggages++;
        all->members += most_members(value, length);
    }
}

static void read_all(otel_handle *headers, const uint8_t *data, size_t size, received *all) {
    while (size != 0) {
        const uint8_t *end = memchr(data + 1, 0, size - 1);
        size_t length = (end ? (size_t)(end - data) : size) - 1;
        char *value = malloc(length + 1);
        memcpy(value, data + 1, length);
        add(headers, data[0], value, length, all);
        free(value);
        size -= end ? length + 2 : size;
        data += length + 2;
    }
}

/* Whether two contexts have the same members. */
static void same_baggage(otel_handle *a, otel_handle *b, size_t most) {
    size_t count, other, at, bytes = 0;
    MUST(otel_baggage_length(a, &count));
    MUST(otel_baggage_length(b, &other));
    assert(count == other && count <= most);
    for (at = 0; at < count; at++) {
        text key, value, metadata, again;
        ASK(&key, otel_baggage_key, a, at);
        ASK(&again, otel_baggage_key, b, at);
        assert(key.length == again.length && memcmp(key.bytes, again.bytes, key.length) == 0);
        free(again.bytes);
        ASK(&value, otel_baggage_get, a, key.bytes, key.length);
        ASK(&again, otel_baggage_get, b, key.bytes, key.length);
        assert(value.length == again.length && memcmp(value.bytes, again.bytes, value.length) == 0);
        free(again.bytes);
        ASK(&metadata, otel_baggage_metadata, a, key.bytes, key.length);
        ASK(&again, otel_baggage_metadata, b, key.bytes, key.length);
        assert(metadata.length == again.length
               && memcmp(metadata.bytes, again.bytes, metadata.length) == 0);
        free(again.bytes);
        bytes += key.length + value.length + metadata.length;
        free(key.bytes), free(value.bytes), free(metadata.bytes);
    }
    assert(bytes <= OTEL_MAX_BAGGAGE_BYTES);
}

static void same_span(otel_handle *context, const otel_span_context *wanted) {
    otel_span_context span;
    MUST(otel_context_span(context, &span));
    assert(memcmp(&span, wanted, sizeof span) == 0);
}

/* Whether the header is as long as it may be. Removes, sets and reads a pair of its trace state. */
static void check_state(const char *state, size_t length) {
    text without, with, value;
    ASK(&without, otel_trace_state_delete, state, length, "fuzz", 4);
    ASK(&with, otel_trace_state_insert, without.bytes, without.length, "fuzz", 4, "1", 1);
    ASK(&value, otel_trace_state_get, with.bytes, with.length, "fuzz", 4);
    assert(length <= OTEL_MAX_TRACESTATE && with.length <= OTEL_MAX_TRACESTATE);
    assert(memcmp(with.bytes, "fuzz=1", 6) == 0 && value.length == 1 && value.bytes[0] == '1');
    free(without.bytes), free(with.bytes), free(value.bytes);
}

/* Whether a pair is set in the context's trace state as in its header, and the rest is kept. */
static void check_pair(otel_handle *context, const otel_span_context *span) {
    otel_handle set = OTEL_NOTHING;
    text state, with, has;
    ASK(&state, otel_context_trace_state, context);
    ASK(&with, otel_trace_state_insert, state.bytes, state.length, "fuzz", 4, "1", 1);
    MUST(otel_context_clone(context, &set));
    MUST(otel_context_set_trace_state_pair(&set, "fuzz", 4, "1", 1));
    ASK(&has, otel_context_trace_state, &set);
    assert(has.length == with.length && memcmp(has.bytes, with.bytes, has.length) == 0);
    same_span(&set, span);
    same_baggage(context, &set, OTEL_MAX_MEMBERS);
    free(state.bytes), free(with.bytes), free(has.bytes);
    otel_free(&set);
}

/* Whether a copy that shares nothing has the same span, trace state and members. */
static void check_copy(otel_handle *context, const otel_span_context *span) {
    otel_handle copy = OTEL_NOTHING;
    text state, same;
    MUST(otel_context_detach_copy(context, &copy));
    same_span(&copy, span);
    same_baggage(context, &copy, OTEL_MAX_MEMBERS);
    ASK(&state, otel_context_trace_state, context);
    ASK(&same, otel_context_trace_state, &copy);
    assert(state.length == same.length && memcmp(state.bytes, same.bytes, same.length) == 0);
    free(state.bytes), free(same.bytes);
    otel_free(&copy);
}

/* Whether a child has the trace of its parent, or begins one, and can be sent into headers that are
 * used again. */
static void check_child(otel_handle *context, const otel_span_context *span, otel_handle *used) {
    static const otel_span_context ids = {{7}, {9}, 2, 1};
    otel_span_context wanted = span->is_remote ? *span : ids;
    otel_handle child = OTEL_NOTHING;
    text parent;
    memcpy(wanted.span_id, ids.span_id, sizeof ids.span_id);
    wanted.is_remote = 0;
    MUST(otel_context_start_child_with(context, &ids, &child));
    same_span(&child, &wanted);
    same_baggage(context, &child, OTEL_MAX_MEMBERS);
    MUST(otel_context_inject(&child, used));
    ASK(&parent, otel_headers_get, used, "traceparent", 11);
    assert(parent.length == OTEL_MAX_TRACEPARENT);
    assert(memcmp(parent.bytes + 36, "0900000000000000", 16) == 0);
    free(parent.bytes);
    otel_free(&child);
}

/* Whether the span is read from the values of headers without a context, and sent on. */
static void check_span(text parent, text state, const otel_span_context *span, text wanted) {
    otel_span_context read;
    text same;
    ASK(&same, otel_span_from_values, parent.bytes, parent.bytes ? parent.length : 0,
        state.bytes, state.bytes ? state.length : 0, &read);
    assert(memcmp(&read, span, sizeof read) == 0);
    assert(same.length == wanted.length && memcmp(same.bytes, wanted.bytes, same.length) == 0);
    free(same.bytes);
    ASK(&same, otel_span_traceparent, &read);
    assert((same.bytes == NULL) == (parent.bytes == NULL));
    assert(!same.bytes || memcmp(same.bytes, parent.bytes, OTEL_MAX_TRACEPARENT) == 0);
    free(same.bytes);
}

/* Whether the context that is made of the values of headers is the one that is extracted. */
static void check_values(otel_handle *headers, otel_handle *context,
                         const otel_span_context *span) {
    otel_handle made = OTEL_NOTHING;
    text parent, state, baggage, held, same;
    ASK(&parent, otel_headers_get, headers, "traceparent", 11);
    ASK(&state, otel_headers_get, headers, "tracestate", 10);
    ASK(&baggage, otel_headers_get, headers, "baggage", 7);
    MUST(otel_context_from_values(&made, parent.bytes, parent.bytes ? parent.length : 0,
                                  state.bytes, state.bytes ? state.length : 0,
                                  baggage.bytes, baggage.length));
    same_span(&made, span);
    same_baggage(context, &made, OTEL_MAX_MEMBERS);
    ASK(&held, otel_context_trace_state, context);
    ASK(&same, otel_context_trace_state, &made);
    assert(held.length == same.length && memcmp(held.bytes, same.bytes, same.length) == 0);
    check_span(parent, state, span, held);
    free(parent.bytes), free(state.bytes), free(baggage.bytes), free(held.bytes), free(same.bytes);
    otel_free(&made);
}

int LLVMFuzzerTestOneInput(const uint8_t *data, size_t size) {
    otel_handle in = OTEL_NOTHING, out = OTEL_NOTHING, context = OTEL_NOTHING, again = OTEL_NOTHING;
    received all = {0, 0, 0, OTEL_NO_SPAN};
    otel_span_context none = OTEL_NO_SPAN;
    size_t at;
    if (size > MOST)
        return 0;
    MUST(otel_headers_new(&in));
    read_all(&in, data, size, &all);
    if (all.parents != 1)
        all.span = none;
    MUST(otel_context_new(&context));
    MUST(otel_context_extract(&in, &context));
    same_span(&context, &all.span);
    MUST(otel_headers_new(&out));
    /* Only bytes that can be read come from headers, so that none is refused. */
    MUST(otel_context_inject(&context, &out));
    for (at = 0; at < 3; at++) {
        text sent;
        ASK(&sent, otel_headers_get, &out, names[at], strlen(names[at]));
        assert((sent.bytes != NULL) == (at == 2 || all.span.is_remote));
        assert(!sent.bytes || is_readable(sent.bytes, sent.length));
        assert(!sent.bytes || sent.length <= OTEL_MAX_HEADER);
        if (sent.bytes && at == 1)
            check_state(sent.bytes, sent.length);
        if (sent.bytes) {
            text shown;
            if (at == 0)
                ASK(&shown, otel_context_traceparent, &context);
            else if (at == 1)
                ASK(&shown, otel_context_trace_state, &context);
            else
                ASK(&shown, otel_context_baggage, &context);
            assert(shown.length == sent.length
                   && memcmp(shown.bytes, sent.bytes, sent.length) == 0);
            free(shown.bytes);
        }
        free(sent.bytes);
    }
    MUST(otel_context_new(&again));
    MUST(otel_context_extract(&out, &again));
    same_span(&again, &all.span);
    same_baggage(&context, &again, all.baggages ? all.members : 0);
    check_values(&out, &again, &all.span);
    check_pair(&context, &all.span);
    check_copy(&context, &all.span);
    check_child(&context, &all.span, &in);
    otel_free(&in), otel_free(&out), otel_free(&context), otel_free(&again);
    return 0;
}
