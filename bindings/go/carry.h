/* What headers carry, and headers that carry it, each by one call from Go. No call keeps memory, so
 * any number may run at the same time. A text of length 0 is a missing header. After
 * OTEL_STATUS_NO_ROOM the buffer has no text of use, and the lengths add up to the capacity that is
 * needed. */
#include <string.h>

#include "otel.h"

typedef struct otelc_text {
    const char *bytes;
    size_t length;
} otelc_text;

/* The lengths of two texts, which are one after another in the buffer. The second is the header of
 * a baggage. It isn't there if the library would write the one that it is given: `is_same` is 1. */
typedef struct otelc_texts {
    size_t lengths[2];
    int is_same;
} otelc_texts;

/* The span, and the texts of tracestate and baggage. `has_baggage` is 0 if the baggage is missing
 * or can't be read. */
typedef struct otelc_read {
    otel_status status;
    otel_span_context span;
    otelc_texts texts;
    int has_baggage;
} otelc_read;

/* The texts of traceparent and baggage. */
typedef struct otelc_sent {
    otel_status status;
    otelc_texts texts;
} otelc_sent;

/* ---- baggages that the library would write as they are: to ask it takes longer than to look */

static int otelc_is_unreserved(char c) {
    return (c >= 'a' && c <= 'z') || (c >= 'A' && c <= 'Z') || (c >= '0' && c <= '9') || c == '-'
        || c == '.' || c == '_' || c == '~';
}

static int otelc_is_token(char c) {
    return otelc_is_unreserved(c) || (c > ' ' && c <= '~' && !strchr("(),/:;<=>?@[\\]{}\"", c));
}

/* The value of a digit as the library writes it, or -1. */
static int otelc_digit(char c) {
    return c >= '0' && c <= '9' ? c - '0' : c >= 'A' && c <= 'F' ? c - 'A' + 10 : -1;
}

/* The end of a value that is escaped as the library escapes ASCII, or null. */
static const char *otelc_value(const char *at, const char *end) {
    while (at < end && *at != ',' && *at != ';') {
        if (otelc_is_unreserved(*at)) {
            at++;
        } else {
            if (*at != '%' || end - at < 3 || otelc_digit(at[1]) < 0 || otelc_digit(at[1]) > 7
                || otelc_digit(at[2]) < 0
                || otelc_is_unreserved((char)(otelc_digit(at[1]) * 16 + otelc_digit(at[2]))))
                return NULL;
            at += 3;
        }
    }
    return at;
}

/* The end of properties, which have no space at their ends and aren't empty, or null. */
static const char *otelc_properties(const char *at, const char *end) {
    const char *begin = at;
    for (; at < end && *at != ','; at++)
        if (*at != '\t' && (*at < ' ' || *at > '~'))
            return NULL;
    return at > begin && *begin > ' ' && at[-1] > ' ' ? at : NULL;
}

/* The end of the member after its key, or null. */
static const char *otelc_rest(const char *at, const char *end) {
    if (at == end || *at != '=')
        return NULL;
    at = otelc_value(at + 1, end);
    return at != NULL && at < end && *at == ';' ? otelc_properties(at + 1, end) : at;
}

/* Whether one of the keys is this one. */
static int otelc_has(const otelc_text *keys, size_t count, otelc_text key) {
    size_t at;
    for (at = 0; at < count; at++)
        if (keys[at].length == key.length && memcmp(keys[at].bytes, key.bytes, key.length) == 0)
            return 1;
    return 0;
}

/* Whether the library reads each member of the baggage, and writes the same text again. It may do
 * so too if this is 0, as for more than 16 members. */
static int otelc_is_same(otelc_text baggage) {
    otelc_text keys[16];
    size_t count = 0;
    const char *at = baggage.bytes, *end = at + baggage.length;
    if (baggage.length == 0)
        return 1;
    if (baggage.length > OTEL_MAX_BAGGAGE_BYTES)
        return 0;
    for (; count < sizeof keys / sizeof *keys; at++) {
        keys[count].bytes = at;
        while (at < end && otelc_is_token(*at))
            at++;
        keys[count].length = (size_t)(at - keys[count].bytes);
        if (keys[count].length == 0 || otelc_has(keys, count, keys[count])
            || (at = otelc_rest(at, end)) == NULL)
            return 0;
        count++;
        if (at == end)
            return 1;
    }
    return 0;
}

/* ---- extraction and injection */

/* The value of a header, or the empty text if no header can have it. */
static otelc_text otelc_readable(otelc_text value) {
    const otelc_text none = {"", 0};
    size_t at;
    for (at = 0; at < value.length; at++)
        if (value.bytes[at] != '\t' && (value.bytes[at] < ' ' || value.bytes[at] > '~'))
            return none;
    return value;
}

/* Writes the baggage as the library reads it. */
static otel_status otelc_rewrite(otelc_text baggage, char *buffer, size_t capacity,
                                 size_t *length) {
    otel_handle context = OTEL_NOTHING;
    otel_status status
        = otel_context_from_values(&context, NULL, 0, NULL, 0, baggage.bytes, baggage.length);
    if (status == OTEL_STATUS_OK)
        status = otel_context_baggage(&context, buffer, capacity, length);
    otel_free(&context);
    return status;
}

/* Writes the baggage behind the text before it, whose status this is. */
static otel_status otelc_add(otel_status before, otelc_text baggage, char *buffer, size_t capacity,
                             otelc_texts *texts) {
    size_t used = before == OTEL_STATUS_OK ? texts->lengths[0] : capacity;
    otel_status status;
    if (before != OTEL_STATUS_OK && before != OTEL_STATUS_NO_ROOM)
        return before;
    texts->is_same = otelc_is_same(baggage);
    if (texts->is_same)
        return before;
    status = otelc_rewrite(baggage, buffer + used, capacity - used, &texts->lengths[1]);
    return status == OTEL_STATUS_OK ? before : status;
}

static int otelc_is_unreadable(otel_status status) {
    return status == OTEL_STATUS_NOT_TEXT || status == OTEL_STATUS_UNSENDABLE;
}

static otel_status otelc_span(otelc_text parent, otelc_text state, char *buffer, size_t capacity,
                              otelc_read *done) {
    return otel_span_from_values(parent.bytes, parent.length, state.bytes, state.length,
                                 &done->span, buffer, capacity, &done->texts.lengths[0]);
}

static otelc_read otelc_extract(otelc_text parent, otelc_text state, otelc_text baggage,
                                char *buffer, size_t capacity) {
    otelc_read done = {OTEL_STATUS_OK, OTEL_NO_SPAN, {{0, 0}, 0}, 0};
    otel_status span = OTEL_STATUS_OK;
    if (parent.length != 0)
        span = otelc_span(parent, state, buffer, capacity, &done);
    if (otelc_is_unreadable(span))
        span = otelc_span(otelc_readable(parent), otelc_readable(state), buffer, capacity, &done);
    done.has_baggage = baggage.length != 0;
    done.status = otelc_add(span, baggage, buffer, capacity, &done.texts);
    if (otelc_is_unreadable(done.status)) {
        done.has_baggage = 0;
        done.status = span;
    }
    return done;
}

static otelc_sent otelc_inject(const otel_span_context *span, otelc_text baggage, char *buffer,
                               size_t capacity) {
    otelc_sent done = {OTEL_STATUS_OK, {{0, 0}, 0}};
    done.status = otel_span_traceparent(span, buffer, capacity, &done.texts.lengths[0]);
    if (done.status == OTEL_STATUS_ABSENT) {
        done.status = OTEL_STATUS_OK;
        done.texts.lengths[0] = 0;
    }
    done.status = otelc_add(done.status, baggage, buffer, capacity, &done.texts);
    return done;
}

/* A child of the span, whose trace state it has, or the first span of a trace. */
typedef struct otelc_child {
    otel_status status;
    otel_span_context span;
} otelc_child;

static otelc_child otelc_start_child(const otel_span_context *span) {
    otel_handle context = OTEL_NOTHING, child = OTEL_NOTHING;
    otelc_child done = {OTEL_STATUS_OK, OTEL_NO_SPAN};
    if ((done.status = otel_context_new(&context)) == OTEL_STATUS_OK
        && (done.status = otel_context_set_span(&context, span, NULL, 0)) == OTEL_STATUS_OK
        && (done.status = otel_context_start_child(&context, &child)) == OTEL_STATUS_OK)
        done.status = otel_context_span(&child, &done.span);
    otel_free(&context);
    otel_free(&child);
    return done;
}
