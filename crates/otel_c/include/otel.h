/* Contexts of traces and the headers that carry them: traceparent and tracestate (W3C
 * trace-context-2) and baggage (W3C baggage). Link with `pkg-config --cflags --libs otel_c`. The
 * functions are proved to do with valid arguments what is said here, and tested to refuse others.
 *
 * Receives a traceparent, starts a span below its span, and sends that on:
 *
 *     static char buffer[OTEL_MAX_TRACEPARENT];
 *     size_t length;
 *     otel_handle context = OTEL_NOTHING, child = OTEL_NOTHING;
 *     if (otel_context_from_values(&context, value, strlen(value), NULL, 0, NULL, 0)
 *         || otel_context_start_child(&context, &child)
 *         || otel_context_traceparent(&child, buffer, sizeof buffer, &length))
 *         puts("refused, or out of memory");
 *     else
 *         printf("traceparent: %.*s\n", (int)length, buffer);
 *     otel_free(&context), otel_free(&child);
 *
 * Handles. Headers, contexts and stacks are held by handles. A handle begins as OTEL_NOTHING, calls
 * put objects into it, and otel_free frees what it holds, after which it is OTEL_NOTHING again.
 * Don't copy a handle's bytes: two copies would free one object twice. To hand a handle on, move it
 * and set the old one to OTEL_NOTHING. Each call writes to the handles it is given, even one that
 * only reads their objects, so none is const.
 *
 * Texts. A text is a pointer and a length in bytes, with no NUL at its end. A call reads it, and
 * keeps no pointer to it. It may be null if its length is 0.
 *
 * Output. A call that writes a text takes a buffer, its capacity, and `length`. After
 * OTEL_STATUS_OK the text is in front, with no NUL, the rest of the buffer is unchanged, and
 * *length is the text's length. After OTEL_STATUS_NO_ROOM the buffer is unchanged and *length is
 * the capacity that is needed: ask with a capacity of 0, or give a buffer of OTEL_MAX_.. bytes.
 * After another status *length means nothing. `length` may be null, and so may a buffer if its
 * capacity is 0. No call reads a buffer, *length, *span, *count, *failed or *position to which it
 * writes, so they may be uninitialised: this is tested and not proved.
 *
 * Statuses. After another status than OTEL_STATUS_OK each handle holds what it held, and nothing
 * else is changed except *length, unless the call says more. Any call that returns a status may
 * return OTEL_STATUS_NO_MEMORY, also if too many contexts share one object.
 *
 * Threads. Contexts and stacks share memory, counted by numbers that aren't atomic: a clone, what
 * otel_context_start_child and the otel_baggage_.. calls make, what a stack has attached and gives
 * back, and the context that each was made from, also after it was changed. On a handle and all
 * that shares with it, one call at a time, from any thread: use a lock, or hand them on together,
 * by anything that orders the threads' accesses. Handles that share nothing may be used at the same
 * time. Headers share nothing. Give a thread a context of its own by otel_context_detach_copy.
 *
 * Misuse. OTEL_STATUS_INVALID, and nothing is changed, if a pointer that may not be null is null, a
 * length or a capacity is over PTRDIFF_MAX, a handle holds nothing or the wrong kind of object for
 * what the call does with it, or one handle, or its copy, is given twice.
 *
 * The caller promises, and nothing checks, that
 *   - each text points to as many readable bytes as its length says;
 *   - each handle is OTEL_NOTHING or as a call left it;
 *   - a buffer has as many bytes as its capacity says;
 *   - any other pointer points to one such thing;
 *   - what a call writes to overlaps nothing else that is passed, and isn't used meanwhile;
 *   - the call isn't in a signal handler, nor in the forked child of a process with threads;
 *   - malloc, realloc and free are of one allocator, and align as C says.
 */
#ifndef OTEL_H
#define OTEL_H

#include <stddef.h>
#include <stdint.h>

#ifdef __cplusplus
extern "C" {
#endif

/* The version of this header. Versions with the same major number, or for 0 the same minor number,
 * have the same ABI. */
#define OTEL_VERSION_MAJOR 0
#define OTEL_VERSION_MINOR 1
#define OTEL_VERSION_PATCH 0
#define OTEL_VERSION "0.1.0"

/* Capacities that are always enough, in bytes. */
#define OTEL_MAX_TRACEPARENT 55   /* traceparent */
#define OTEL_MAX_TRACESTATE 16447 /* the header of a trace state */
#define OTEL_MAX_BAGGAGE 24575    /* the header of a baggage */
#define OTEL_MAX_HEADER 24575     /* any header that otel_context_inject sets */
#define OTEL_MAX_MEMBER 8192      /* a key, a value or the metadata of a baggage's member */
#define OTEL_MAX_PAIR 256         /* a key or a value of a trace state */

/* Other limits. */
#define OTEL_MAX_MEMBERS 64         /* members of a baggage */
#define OTEL_MAX_BAGGAGE_BYTES 8192 /* bytes of all keys, values (decoded) and metadata of one */
#define OTEL_MAX_PAIRS 32           /* pairs of a trace state */
#define OTEL_MAX_POSITION 65534     /* the last position of a stack */

/* What a call returns. */
typedef enum otel_status {
    OTEL_STATUS_OK = 0,
    OTEL_STATUS_NO_MEMORY = 1,   /* out of memory */
    OTEL_STATUS_NOT_TEXT = 2,    /* a text isn't UTF-8 */
    OTEL_STATUS_NO_ROOM = 3,     /* the capacity is too small; *length is what is needed */
    OTEL_STATUS_ABSENT = 4,      /* there is no such entry */
    OTEL_STATUS_KEY = 5,         /* a key, or the name of a header, isn't valid */
    OTEL_STATUS_VALUE = 6,       /* a value isn't valid */
    OTEL_STATUS_LIST = 7,        /* a member of a trace state has no `=` */
    OTEL_STATUS_INVALID = 8,     /* misuse, such as a handle with another kind of object: above */
    OTEL_STATUS_REFUSED = 9,     /* headers, a baggage or a stack can't take it: see the call */
    OTEL_STATUS_UNSENDABLE = 10, /* no header can carry it: see the call */
    OTEL_STATUS_NO_RANDOM = 11   /* the system gives no random bytes */
} otel_status;

/* The version of the library, as OTEL_VERSION was when it was built. */
const char *otel_version(void);

/* What the status means, in English, without a line's end. It is never null, also of other numbers,
 * and stays as it is until the process ends. */
const char *otel_status_text(otel_status status);

/* What holds headers, a context, a stack, or nothing. `object` is null if it is nothing, and
 * otherwise the library's. */
typedef struct otel_handle {
    void *object;
} otel_handle;

#define OTEL_NOTHING {0}

/* Frees what the handle holds, if anything. The handle, which may be null, is OTEL_NOTHING then. */
void otel_free(otel_handle *handle);

/* ---- headers */

/* Makes empty headers, and frees what the handle held. */
otel_status otel_headers_new(otel_handle *headers);

/* Adds a header, after those of the same name. A name is read in any case, and held in lower case.
 *
 * OTEL_STATUS_KEY if the name is no token (RFC 9110, section 5.6.2) or has more than 65535 bytes.
 * OTEL_STATUS_VALUE if the value has a control character other than a tab: CR, LF and NUL never
 * get into headers. OTEL_STATUS_REFUSED if there are too many headers: 24576 always fit. */
otel_status otel_headers_append(otel_handle *headers, const char *name, size_t name_length,
                                const char *value, size_t value_length);

/* Writes the first value of the name, which is read in any case. The value may have bytes that
 * aren't UTF-8. OTEL_STATUS_ABSENT if there is none. */
otel_status otel_headers_get(otel_handle *headers, const char *name, size_t name_length,
                             char *buffer, size_t capacity, size_t *length);

/* Removes all values of the name, if there are any. The name is read in any case. */
otel_status otel_headers_remove(otel_handle *headers, const char *name, size_t name_length);

/* ---- contexts */

/* Makes the empty context, which has no span and no baggage, and frees what the handle held. */
otel_status otel_context_new(otel_handle *context);

/* Reads the headers into the context. Nothing in a header makes the call fail:
 *
 *   - A value counts only if its bytes are tabs and the ASCII characters from space to `~`: one
 *     other byte makes it unreadable, as if it weren't there.
 *   - traceparent, if it is there once and is version 00 with two ids that aren't 0, replaces the
 *     context's span, which is then remote. All eight bits of the flags are kept. Otherwise, as of
 *     another version, the context keeps its span, and tracestate isn't read.
 *   - tracestate, whose values are joined by commas, becomes the trace state of that span. If it is
 *     missing or has a fault, the trace state is empty.
 *   - baggage, whose values are joined by commas, replaces the context's baggage, even if it has no
 *     member that can be read: after `baggage: x` the baggage is empty. A member counts if it has
 *     a `=`, its decoded value is UTF-8, and otel_baggage_set would take it. A comma always begins
 *     another member, also in metadata. Without a baggage header the context keeps its baggage.
 *
 * The headers are unchanged. */
otel_status otel_context_extract(otel_handle *headers, otel_handle *context);

/* Makes the context that otel_context_extract reads from one header of each of these names, without
 * headers, and frees what the handle held. A text of length 0 is for a header that is missing.
 *
 * OTEL_STATUS_NOT_TEXT if a text isn't UTF-8, _UNSENDABLE if one has a byte other than tabs and the
 * ASCII characters from space to `~`, and the handle holds what it held. */
otel_status otel_context_from_values(otel_handle *context,
                                     const char *traceparent, size_t traceparent_length,
                                     const char *tracestate, size_t tracestate_length,
                                     const char *baggage, size_t baggage_length);

/* Removes all values of traceparent, tracestate and baggage, so that headers that are used again
 * keep nothing of another context, and then sets those that carry the context:
 *
 *   - traceparent and tracestate, if neither id of the context's span is 0; tracestate even if it
 *     is empty.
 *   - baggage, even if it is empty.
 *
 * traceparent is of version 00, with all eight bits of the flags. A value of a baggage is escaped;
 * metadata isn't, so that after a comma in it others will read another member.
 *
 * OTEL_STATUS_REFUSED if there are too many headers: 24573 others always leave room. They are set
 * in the order above, up to the one that is refused: after a status other than OTEL_STATUS_INVALID
 * the old ones are removed, and some may be set. That nothing else in a context is refused is
 * tested and not proved. */
otel_status otel_context_inject(otel_handle *context, otel_handle *headers);

/* Puts a copy of the context into the other handle, and frees what that held. They share memory,
 * but a change of one isn't seen in the other. */
otel_status otel_context_clone(otel_handle *context, otel_handle *clone);

/* Puts a copy of the context that shares no memory with it into the other handle, and frees what
 * that held. Another thread may use the copy at the same time as this one the context: this is
 * tested and not proved. It takes about as long as injecting and extracting the context. */
otel_status otel_context_detach_copy(otel_handle *context, otel_handle *copy);

/* ---- the span of a context */

/* What identifies a span (W3C trace-context-2, "traceparent Header"). */
typedef struct otel_span_context {
    uint8_t trace_id[16]; /* the most significant byte first */
    uint8_t span_id[8];
    uint8_t flags;        /* bit 0 is the flag sampled; all bits are kept */
    uint8_t is_remote;    /* 1 if the span is of another process, 0 if not */
} otel_span_context;

#define OTEL_NO_SPAN {{0}, {0}, 0, 0}

/* The flag sampled. */
#define OTEL_SAMPLED 1

/* Writes what identifies the context's span: OTEL_NO_SPAN if it has none. */
otel_status otel_context_span(otel_handle *context, otel_span_context *span);

/* Writes the value of traceparent for the context's span. OTEL_STATUS_ABSENT if an id of the span is
 * 0, as without one: then send no tracestate either. OTEL_MAX_TRACEPARENT bytes are enough. */
otel_status otel_context_traceparent(otel_handle *context,
                                     char *buffer, size_t capacity, size_t *length);

/* Writes the header of the trace state of the context's span, which is empty if it has none.
 * OTEL_MAX_TRACESTATE bytes are enough. */
otel_status otel_context_trace_state(otel_handle *context,
                                     char *buffer, size_t capacity, size_t *length);

/* Sets the context's span, with the trace state of the header, which is "" for none. Any ids, flags
 * and is_remote, which counts as 1 if it isn't 0, are taken, but a span with an id that is 0 isn't
 * injected.
 *
 * OTEL_STATUS_NOT_TEXT, _LIST, _KEY or _VALUE if the trace state can't be read. _UNSENDABLE if a
 * value has a byte other than tabs and the ASCII characters from space to `~`. */
otel_status otel_context_set_span(otel_handle *context, const otel_span_context *span,
                                  const char *trace_state, size_t trace_state_length);

/* Sets the pair in front of the trace state of the context's span, followed by at most
 * OTEL_MAX_PAIRS less one of the other pairs; an old pair with the key is left out. Without a span
 * it isn't sent.
 *
 * OTEL_STATUS_NOT_TEXT if a text isn't UTF-8, _KEY or _VALUE if the pair isn't valid, as for
 * otel_trace_state_insert, and _UNSENDABLE if the value has a byte other than tabs and the ASCII
 * characters from space to `~`. */
otel_status otel_context_set_trace_state_pair(otel_handle *context,
                                              const char *key, size_t key_length,
                                              const char *value, size_t value_length);

/* Puts the context with a child of its span into the other handle, and frees what that held. The
 * context is unchanged. A service does so for each request, and sends the child on.
 *
 * The child has the trace id, the flags and the trace state of the context's span, and a new span
 * id. If an id of that span is 0, as without a span, the child begins a trace: with a new trace id,
 * the flags OTEL_SAMPLED and an empty trace state. New ids are random, from getentropy, and not 0;
 * is_remote is 0. OTEL_STATUS_NO_RANDOM if the system gives no random bytes. The draw is tested and
 * not proved. */
otel_status otel_context_start_child(otel_handle *context, otel_handle *child);

/* The same with the span id of `ids` and, for a child that begins a trace, with its trace id and
 * its flags. Its is_remote doesn't count. OTEL_STATUS_INVALID if an id of the child would be 0. */
otel_status otel_context_start_child_with(otel_handle *context, const otel_span_context *ids,
                                          otel_handle *child);

/* ---- the span of headers, without a handle; no call keeps memory */

/* Writes what identifies the span that otel_context_from_values reads from these values, or
 * OTEL_NO_SPAN if it reads none, and the header of its trace state, which is empty if it has none.
 * A text of length 0 is for a header that is missing. OTEL_MAX_TRACESTATE bytes are enough.
 *
 * OTEL_STATUS_NOT_TEXT and _UNSENDABLE as for otel_context_from_values. After a status other than
 * OTEL_STATUS_OK the span is unchanged too. */
otel_status otel_span_from_values(const char *traceparent, size_t traceparent_length,
                                  const char *tracestate, size_t tracestate_length,
                                  otel_span_context *span,
                                  char *buffer, size_t capacity, size_t *length);

/* Writes the value of traceparent for the span, as otel_context_traceparent does for the one of a
 * context. OTEL_STATUS_ABSENT if an id is 0. OTEL_MAX_TRACEPARENT bytes are enough. */
otel_status otel_span_traceparent(const otel_span_context *span,
                                  char *buffer, size_t capacity, size_t *length);

/* ---- ids as hexadecimal digits, two for each byte */

/* Sets the id from its digits, of either case: 32 of a trace id, 16 of a span id. OTEL_STATUS_VALUE
 * if the text isn't so many digits, and the id is unchanged. */
otel_status otel_trace_id_from_hex(const char *digits, size_t digits_length, uint8_t trace_id[16]);
otel_status otel_span_id_from_hex(const char *digits, size_t digits_length, uint8_t span_id[8]);

/* Writes the digits of the id, in lower case: 32 of a trace id, 16 of a span id. */
otel_status otel_trace_id_to_hex(const uint8_t trace_id[16],
                                 char *buffer, size_t capacity, size_t *length);
otel_status otel_span_id_to_hex(const uint8_t span_id[8],
                                char *buffer, size_t capacity, size_t *length);

/* ---- the baggage of a context: at most OTEL_MAX_MEMBERS members of distinct keys, with at most
 * OTEL_MAX_BAGGAGE_BYTES bytes */

/* Writes the header of the context's baggage, which is empty if it has no member.
 * OTEL_MAX_BAGGAGE bytes are enough. */
otel_status otel_context_baggage(otel_handle *context,
                                 char *buffer, size_t capacity, size_t *length);

/* Writes the number of members. */
otel_status otel_baggage_length(otel_handle *context, size_t *count);

/* Writes the key of the member at the position, which counts from 0. OTEL_STATUS_ABSENT if there
 * are no more. OTEL_MAX_MEMBER bytes are enough for each text of a member. */
otel_status otel_baggage_key(otel_handle *context, size_t position,
                             char *buffer, size_t capacity, size_t *length);

/* Writes the value of the key, decoded: not escaped as in a header. OTEL_STATUS_ABSENT if no member
 * has the key, whose case counts, and OTEL_STATUS_NOT_TEXT if the key isn't UTF-8. */
otel_status otel_baggage_get(otel_handle *context, const char *key, size_t key_length,
                             char *buffer, size_t capacity, size_t *length);

/* Writes the metadata of the key: its properties, as in "ttl=30;private", or "". Fails as
 * otel_baggage_get does. */
otel_status otel_baggage_metadata(otel_handle *context, const char *key, size_t key_length,
                                  char *buffer, size_t capacity, size_t *length);

/* Puts the context with the member in its baggage into the other handle, and frees what that held.
 * The context is unchanged. The member takes the place of the one with its key, or else comes last.
 * The metadata is "" for none, and loses the white space at its ends.
 *
 * OTEL_STATUS_NOT_TEXT if one of the texts isn't UTF-8. OTEL_STATUS_KEY if the key is no token (RFC
 * 7230, section 3.2.6), or has more than OTEL_MAX_MEMBER bytes. OTEL_STATUS_REFUSED if the baggage
 * would be larger than it may be. OTEL_STATUS_UNSENDABLE if the metadata has a byte other than tabs
 * and the ASCII characters from space to `~`; a value may have any characters. */
otel_status otel_baggage_set(otel_handle *context, const char *key, size_t key_length,
                             const char *value, size_t value_length,
                             const char *metadata, size_t metadata_length, otel_handle *changed);

/* The texts of a member. Each may be null if its length is 0. */
typedef struct otel_member {
    const char *key;
    size_t key_length;
    const char *value;
    size_t value_length;
    const char *metadata;
    size_t metadata_length;
} otel_member;

/* The same with all of these members, in turn, in linear time; otel_baggage_set copies the baggage
 * for each. If one is refused none is set, and the status is the one of otel_baggage_set for the
 * first that is refused, whose index is written to *failed. `failed` may be null. *failed means
 * nothing after OTEL_STATUS_OK, _NO_MEMORY and _INVALID. */
otel_status otel_baggage_set_all(otel_handle *context, const otel_member *members, size_t count,
                                 otel_handle *changed, size_t *failed);

/* Puts the context without the member of the key, if there is one, into the other handle, and frees
 * what that held. The context is unchanged. OTEL_STATUS_NOT_TEXT if the key isn't UTF-8. */
otel_status otel_baggage_remove(otel_handle *context, const char *key, size_t key_length,
                                otel_handle *changed);

/* Puts the context without its baggage into the other handle, and frees what that held. The context
 * is unchanged. */
otel_status otel_baggage_clear(otel_handle *context, otel_handle *changed);

/* ---- stacks of attached contexts, such as one for each thread */

/* Makes an empty stack, and frees what the handle held. */
otel_status otel_stack_new(otel_handle *stack);

/* Attaches a copy of the context, and writes its position, the one above the newest that is
 * attached: from 1 to OTEL_MAX_POSITION. So the position of one that was detached may be given out
 * again: detach each position once. OTEL_STATUS_REFUSED if OTEL_MAX_POSITION is taken. */
otel_status otel_stack_attach(otel_handle *stack, otel_handle *context, uint16_t *position);

/* Detaches what is attached at the position, whatever was attached since; the others keep theirs.
 * OTEL_STATUS_ABSENT if nothing is, and always for 0. */
otel_status otel_stack_detach(otel_handle *stack, uint16_t position);

/* Puts a copy of the current context, the newest that is attached or else the empty one, into the
 * other handle, and frees what that held. */
otel_status otel_stack_current(otel_handle *stack, otel_handle *context);

/* ---- trace states, as texts of a header; no call keeps memory
 *
 * The first OTEL_MAX_PAIRS members between commas are read, of which empty ones are left out. Each
 * is a key, `=` and a value; blanks around it and at the end of the value are left out. Of a key
 * that is there twice, the first counts. Faults: OTEL_STATUS_NOT_TEXT if a text isn't UTF-8, and
 * for a member that isn't valid OTEL_STATUS_LIST, OTEL_STATUS_KEY or OTEL_STATUS_VALUE. */

/* Writes the key of the pair at the position, which counts from 0. OTEL_STATUS_ABSENT if there are
 * no more. OTEL_MAX_PAIR bytes are enough. */
otel_status otel_trace_state_key(const char *header, size_t header_length, size_t position,
                                 char *buffer, size_t capacity, size_t *length);

/* Writes the value that the trace state of the header has at the key. OTEL_STATUS_ABSENT if it has
 * none. OTEL_MAX_PAIR bytes are enough. */
otel_status otel_trace_state_get(const char *header, size_t header_length,
                                 const char *key, size_t key_length,
                                 char *buffer, size_t capacity, size_t *length);

/* Writes the header of the trace state with the pair in front, followed by at most OTEL_MAX_PAIRS
 * less one of the other pairs; an old pair with the key is left out. OTEL_STATUS_KEY or
 * OTEL_STATUS_VALUE if the pair isn't valid. OTEL_MAX_TRACESTATE bytes are enough. */
otel_status otel_trace_state_insert(const char *header, size_t header_length,
                                    const char *key, size_t key_length,
                                    const char *value, size_t value_length,
                                    char *buffer, size_t capacity, size_t *length);

/* Writes the header of the trace state without the pair that has the key, if one has it.
 * OTEL_STATUS_KEY if the key isn't valid. OTEL_MAX_TRACESTATE bytes are enough. */
otel_status otel_trace_state_delete(const char *header, size_t header_length,
                                    const char *key, size_t key_length,
                                    char *buffer, size_t capacity, size_t *length);

#ifdef __cplusplus
}
#endif

#endif
