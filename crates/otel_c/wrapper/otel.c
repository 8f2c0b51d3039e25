/* Checks arguments as programmers of C expect it, before the proved functions are called, which the
 * installed library has as proved_otel_..: what they promise needs pointers that aren't null,
 * lengths of at most PTRDIFF_MAX, and distinct handles. Also draws random ids. */
#include <stdlib.h>
#include <unistd.h>

#include "otel.h"

#define PROVED(name) extern __typeof__(name) proved_##name;
PROVED(otel_free)
PROVED(otel_headers_new)
PROVED(otel_headers_append)
PROVED(otel_headers_get)
PROVED(otel_headers_remove)
PROVED(otel_context_new)
PROVED(otel_context_from_values)
PROVED(otel_context_extract)
PROVED(otel_context_inject)
PROVED(otel_context_clone)
PROVED(otel_context_detach_copy)
PROVED(otel_context_span)
PROVED(otel_context_traceparent)
PROVED(otel_span_from_values)
PROVED(otel_span_traceparent)
PROVED(otel_context_trace_state)
PROVED(otel_context_set_span)
PROVED(otel_context_set_trace_state_pair)
PROVED(otel_context_start_child_with)
PROVED(otel_trace_id_from_hex)
PROVED(otel_span_id_from_hex)
PROVED(otel_trace_id_to_hex)
PROVED(otel_span_id_to_hex)
PROVED(otel_context_baggage)
PROVED(otel_baggage_length)
PROVED(otel_baggage_key)
PROVED(otel_baggage_get)
PROVED(otel_baggage_metadata)
PROVED(otel_baggage_set)
PROVED(otel_baggage_set_all)
PROVED(otel_baggage_remove)
PROVED(otel_baggage_clear)
PROVED(otel_stack_new)
PROVED(otel_stack_attach)
PROVED(otel_stack_detach)
PROVED(otel_stack_current)
PROVED(otel_trace_state_key)
PROVED(otel_trace_state_get)
PROVED(otel_trace_state_insert)
PROVED(otel_trace_state_delete)

/* Whether there are so many bytes: none at null. */
static int is_memory(const void *bytes, size_t length) {
    return bytes != NULL ? length <= PTRDIFF_MAX : length == 0;
}

/* Whether neither is null, and they aren't the same handle or copies of one. */
static int are_two(const otel_handle *a, const otel_handle *b) {
    return a != NULL && b != NULL && a != b && (a->object == NULL || a->object != b->object);
}

/* Returns OTEL_STATUS_INVALID unless this is so. */
#define NEEDS(condition)                                                                           \
    do {                                                                                           \
        if (!(condition))                                                                          \
            return OTEL_STATUS_INVALID;                                                            \
    } while (0)

/* The arguments of a text, and of an output, which aren't null. */
#define TEXT(bytes, length) (bytes) != NULL ? (bytes) : "", (length)
#define OUTPUT (buffer != NULL ? buffer : &none), capacity, (length != NULL ? length : &unused)
#define NEEDS_OUTPUT                                                                               \
    char none;                                                                                     \
    size_t unused;                                                                                 \
    NEEDS(is_memory(buffer, capacity))

const char *otel_version(void) {
    return OTEL_VERSION;
}

const char *otel_status_text(otel_status status) {
    switch (status) {
    case OTEL_STATUS_OK:
        return "done";
    case OTEL_STATUS_NO_MEMORY:
        return "out of memory";
    case OTEL_STATUS_NOT_TEXT:
        return "a text isn't UTF-8";
    case OTEL_STATUS_NO_ROOM:
        return "the capacity is too small";
    case OTEL_STATUS_ABSENT:
        return "there is no such entry";
    case OTEL_STATUS_KEY:
        return "a key or a name isn't valid";
    case OTEL_STATUS_VALUE:
        return "a value isn't valid";
    case OTEL_STATUS_LIST:
        return "a member of a trace state has no `=`";
    case OTEL_STATUS_INVALID:
        return "an argument isn't valid";
    case OTEL_STATUS_REFUSED:
        return "headers, a baggage or a stack can't take it";
    case OTEL_STATUS_UNSENDABLE:
        return "no header can carry it";
    case OTEL_STATUS_NO_RANDOM:
        return "the system gives no random bytes";
    }
    return "no status";
}

void otel_free(otel_handle *handle) {
    if (handle != NULL)
        proved_otel_free(handle);
}

otel_status otel_headers_new(otel_handle *headers) {
    NEEDS(headers != NULL);
    return proved_otel_headers_new(headers);
}

otel_status otel_headers_append(otel_handle *headers, const char *name, size_t name_length,
                                const char *value, size_t value_length) {
    NEEDS(headers != NULL && is_memory(name, name_length) && is_memory(value, value_length));
    return proved_otel_headers_append(headers, TEXT(name, name_length), TEXT(value, value_length));
}

otel_status otel_headers_get(otel_handle *headers, const char *name, size_t name_length,
                             char *buffer, size_t capacity, size_t *length) {
    NEEDS_OUTPUT;
    NEEDS(headers != NULL && is_memory(name, name_length));
    return proved_otel_headers_get(headers, TEXT(name, name_length), OUTPUT);
}

otel_status otel_headers_remove(otel_handle *headers, const char *name, size_t name_length) {
    NEEDS(headers != NULL && is_memory(name, name_length));
    return proved_otel_headers_remove(headers, TEXT(name, name_length));
}

otel_status otel_context_new(otel_handle *context) {
    NEEDS(context != NULL);
    return proved_otel_context_new(context);
}

otel_status otel_context_from_values(otel_handle *context,
                                     const char *traceparent, size_t traceparent_length,
                                     const char *tracestate, size_t tracestate_length,
                                     const char *baggage, size_t baggage_length) {
    NEEDS(context != NULL && is_memory(traceparent, traceparent_length));
    NEEDS(is_memory(tracestate, tracestate_length) && is_memory(baggage, baggage_length));
    return proved_otel_context_from_values(context, TEXT(traceparent, traceparent_length),
                                           TEXT(tracestate, tracestate_length),
                                           TEXT(baggage, baggage_length));
}

otel_status otel_context_extract(otel_handle *headers, otel_handle *context) {
    NEEDS(are_two(headers, context));
    return proved_otel_context_extract(headers, context);
}

otel_status otel_context_inject(otel_handle *context, otel_handle *headers) {
    NEEDS(are_two(context, headers));
    return proved_otel_context_inject(context, headers);
}

otel_status otel_context_clone(otel_handle *context, otel_handle *clone) {
    NEEDS(are_two(context, clone));
    return proved_otel_context_clone(context, clone);
}

otel_status otel_context_detach_copy(otel_handle *context, otel_handle *copy) {
    NEEDS(are_two(context, copy));
    return proved_otel_context_detach_copy(context, copy);
}

otel_status otel_context_span(otel_handle *context, otel_span_context *span) {
    NEEDS(context != NULL && span != NULL);
    return proved_otel_context_span(context, span);
}

otel_status otel_context_traceparent(otel_handle *context,
                                     char *buffer, size_t capacity, size_t *length) {
    NEEDS_OUTPUT;
    NEEDS(context != NULL);
    return proved_otel_context_traceparent(context, OUTPUT);
}

otel_status otel_span_from_values(const char *traceparent, size_t traceparent_length,
                                  const char *tracestate, size_t tracestate_length,
                                  otel_span_context *span,
                                  char *buffer, size_t capacity, size_t *length) {
    NEEDS_OUTPUT;
    NEEDS(is_memory(traceparent, traceparent_length) && is_memory(tracestate, tracestate_length));
    NEEDS(span != NULL);
    return proved_otel_span_from_values(TEXT(traceparent, traceparent_length),
                                        TEXT(tracestate, tracestate_length), span, OUTPUT);
}

otel_status otel_span_traceparent(const otel_span_context *span,
                                  char *buffer, size_t capacity, size_t *length) {
    otel_span_context given;
    NEEDS_OUTPUT;
    NEEDS(span != NULL);
    given = *span;
    given.is_remote = 0;
    return proved_otel_span_traceparent(&given, OUTPUT);
}

otel_status otel_context_trace_state(otel_handle *context,
                                     char *buffer, size_t capacity, size_t *length) {
    NEEDS_OUTPUT;
    NEEDS(context != NULL);
    return proved_otel_context_trace_state(context, OUTPUT);
}

otel_status otel_context_set_span(otel_handle *context, const otel_span_context *span,
                                  const char *trace_state, size_t trace_state_length) {
    otel_span_context given;
    NEEDS(context != NULL && span != NULL && is_memory(trace_state, trace_state_length));
    given = *span;
    given.is_remote = span->is_remote != 0;
    return proved_otel_context_set_span(context, &given, TEXT(trace_state, trace_state_length));
}

otel_status otel_context_set_trace_state_pair(otel_handle *context,
                                              const char *key, size_t key_length,
                                              const char *value, size_t value_length) {
    NEEDS(context != NULL && is_memory(key, key_length) && is_memory(value, value_length));
    return proved_otel_context_set_trace_state_pair(context, TEXT(key, key_length),
                                                    TEXT(value, value_length));
}

otel_status otel_context_start_child_with(otel_handle *context, const otel_span_context *ids,
                                          otel_handle *child) {
    otel_span_context given;
    NEEDS(are_two(context, child) && ids != NULL);
    given = *ids;
    given.is_remote = 0;
    return proved_otel_context_start_child_with(context, &given, child);
}

/* Sets an id to random bytes that aren't all 0. */
static int draws(uint8_t *id, size_t length) {
    size_t at;
    if (getentropy(id, length) != 0)
        return 0;
    for (at = 0; at < length; at++)
        if (id[at] != 0)
            return 1;
    return draws(id, length);
}

otel_status otel_context_start_child(otel_handle *context, otel_handle *child) {
    otel_span_context ids = OTEL_NO_SPAN;
    NEEDS(are_two(context, child));
    if (!draws(ids.trace_id, sizeof ids.trace_id) || !draws(ids.span_id, sizeof ids.span_id))
        return OTEL_STATUS_NO_RANDOM;
    ids.flags = OTEL_SAMPLED;
    return proved_otel_context_start_child_with(context, &ids, child);
}

otel_status otel_trace_id_from_hex(const char *digits, size_t digits_length, uint8_t trace_id[16]) {
    NEEDS(is_memory(digits, digits_length) && trace_id != NULL);
    return proved_otel_trace_id_from_hex(TEXT(digits, digits_length), trace_id);
}

otel_status otel_span_id_from_hex(const char *digits, size_t digits_length, uint8_t span_id[8]) {
    NEEDS(is_memory(digits, digits_length) && span_id != NULL);
    return proved_otel_span_id_from_hex(TEXT(digits, digits_length), span_id);
}

otel_status otel_trace_id_to_hex(const uint8_t trace_id[16],
                                 char *buffer, size_t capacity, size_t *length) {
    NEEDS_OUTPUT;
    NEEDS(trace_id != NULL);
    return proved_otel_trace_id_to_hex(trace_id, OUTPUT);
}

otel_status otel_span_id_to_hex(const uint8_t span_id[8],
                                char *buffer, size_t capacity, size_t *length) {
    NEEDS_OUTPUT;
    NEEDS(span_id != NULL);
    return proved_otel_span_id_to_hex(span_id, OUTPUT);
}

otel_status otel_context_baggage(otel_handle *context,
                                 char *buffer, size_t capacity, size_t *length) {
    NEEDS_OUTPUT;
    NEEDS(context != NULL);
    return proved_otel_context_baggage(context, OUTPUT);
}

otel_status otel_baggage_length(otel_handle *context, size_t *count) {
    NEEDS(context != NULL && count != NULL);
    return proved_otel_baggage_length(context, count);
}

otel_status otel_baggage_key(otel_handle *context, size_t position,
                             char *buffer, size_t capacity, size_t *length) {
    NEEDS_OUTPUT;
    NEEDS(context != NULL);
    return proved_otel_baggage_key(context, position, OUTPUT);
}

otel_status otel_baggage_get(otel_handle *context, const char *key, size_t key_length,
                             char *buffer, size_t capacity, size_t *length) {
    NEEDS_OUTPUT;
    NEEDS(context != NULL && is_memory(key, key_length));
    return proved_otel_baggage_get(context, TEXT(key, key_length), OUTPUT);
}

otel_status otel_baggage_metadata(otel_handle *context, const char *key, size_t key_length,
                                  char *buffer, size_t capacity, size_t *length) {
    NEEDS_OUTPUT;
    NEEDS(context != NULL && is_memory(key, key_length));
    return proved_otel_baggage_metadata(context, TEXT(key, key_length), OUTPUT);
}

otel_status otel_baggage_set(otel_handle *context, const char *key, size_t key_length,
                             const char *value, size_t value_length,
                             const char *metadata, size_t metadata_length, otel_handle *changed) {
    NEEDS(are_two(context, changed) && is_memory(key, key_length));
    NEEDS(is_memory(value, value_length) && is_memory(metadata, metadata_length));
    return proved_otel_baggage_set(context, TEXT(key, key_length), TEXT(value, value_length),
                                   TEXT(metadata, metadata_length), changed);
}

/* Whether each text of the member is memory. */
static int is_member(const otel_member *member) {
    return is_memory(member->key, member->key_length)
        && is_memory(member->value, member->value_length)
        && is_memory(member->metadata, member->metadata_length);
}

/* The member with texts that aren't null. */
static otel_member without_null(otel_member member) {
    if (member.key == NULL)
        member.key = "";
    if (member.value == NULL)
        member.value = "";
    if (member.metadata == NULL)
        member.metadata = "";
    return member;
}

otel_status otel_baggage_set_all(otel_handle *context, const otel_member *members, size_t count,
                                 otel_handle *changed, size_t *failed) {
    otel_member *given;
    otel_status status;
    size_t at, unused;
    NEEDS(are_two(context, changed) && (members != NULL || count == 0));
    NEEDS(count <= PTRDIFF_MAX / sizeof *members);
    for (at = 0; at < count; at++)
        NEEDS(is_member(&members[at]));
    /* One more, so that it is never of no bytes. */
    given = malloc((count + 1) * sizeof *given);
    if (given == NULL)
        return OTEL_STATUS_NO_MEMORY;
    for (at = 0; at < count; at++)
        given[at] = without_null(members[at]);
    status = proved_otel_baggage_set_all(context, given, count, changed,
                                         failed != NULL ? failed : &unused);
    free(given);
    return status;
}

otel_status otel_baggage_remove(otel_handle *context, const char *key, size_t key_length,
                                otel_handle *changed) {
    NEEDS(are_two(context, changed) && is_memory(key, key_length));
    return proved_otel_baggage_remove(context, TEXT(key, key_length), changed);
}

otel_status otel_baggage_clear(otel_handle *context, otel_handle *changed) {
    NEEDS(are_two(context, changed));
    return proved_otel_baggage_clear(context, changed);
}

otel_status otel_stack_new(otel_handle *stack) {
    NEEDS(stack != NULL);
    return proved_otel_stack_new(stack);
}

otel_status otel_stack_attach(otel_handle *stack, otel_handle *context, uint16_t *position) {
    NEEDS(are_two(stack, context) && position != NULL);
    return proved_otel_stack_attach(stack, context, position);
}

otel_status otel_stack_detach(otel_handle *stack, uint16_t position) {
    NEEDS(stack != NULL);
    return proved_otel_stack_detach(stack, position);
}

otel_status otel_stack_current(otel_handle *stack, otel_handle *context) {
    NEEDS(are_two(stack, context));
    return proved_otel_stack_current(stack, context);
}

otel_status otel_trace_state_key(const char *header, size_t header_length, size_t position,
                                 char *buffer, size_t capacity, size_t *length) {
    NEEDS_OUTPUT;
    NEEDS(is_memory(header, header_length));
    return proved_otel_trace_state_key(TEXT(header, header_length), position, OUTPUT);
}

otel_status otel_trace_state_get(const char *header, size_t header_length,
                                 const char *key, size_t key_length,
                                 char *buffer, size_t capacity, size_t *length) {
    NEEDS_OUTPUT;
    NEEDS(is_memory(header, header_length) && is_memory(key, key_length));
    return proved_otel_trace_state_get(TEXT(header, header_length), TEXT(key, key_length), OUTPUT);
}

otel_status otel_trace_state_insert(const char *header, size_t header_length,
                                    const char *key, size_t key_length,
                                    const char *value, size_t value_length,
                                    char *buffer, size_t capacity, size_t *length) {
    NEEDS_OUTPUT;
    NEEDS(is_memory(header, header_length) && is_memory(key, key_length));
    NEEDS(is_memory(value, value_length));
    return proved_otel_trace_state_insert(TEXT(header, header_length), TEXT(key, key_length),
                                          TEXT(value, value_length), OUTPUT);
}

otel_status otel_trace_state_delete(const char *header, size_t header_length,
                                    const char *key, size_t key_length,
                                    char *buffer, size_t capacity, size_t *length) {
    NEEDS_OUTPUT;
    NEEDS(is_memory(header, header_length) && is_memory(key, key_length));
    return proved_otel_trace_state_delete(TEXT(header, header_length), TEXT(key, key_length),
                                          OUTPUT);
}
