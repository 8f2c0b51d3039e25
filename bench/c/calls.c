/* Reads contexts from headers, and writes them to headers.
 *
 * Standard input is one line, `NAME TIMES`: `extract` or `inject`, and how many times it is done. The output is the headers to
 * which the last context is written. */
#include <stdio.h>
#include <string.h>

#include "otel.h"

static const char *const headers[][2] = {
    {"traceparent", "00-0af7651916cd43dd8448eb211c80319c-b7ad6b7169203331-01"},
    {"tracestate", "congo=t61rcWkgMzE,rojo=00f067aa0ba902b7"},
    {"baggage", "userId=alice,serverNode=DF%2028,isProduction=false"},
};

/* Reads the headers into an empty context. */
static uint32_t extract(otel_handle *received, otel_handle *context) {
    uint32_t status = otel_context_new(context);
    return status == OTEL_STATUS_OK ? otel_context_extract(received, context) : status;
}

/* Writes the context to empty headers. */
static uint32_t inject(otel_handle *context, otel_handle *sent) {
    uint32_t status = otel_headers_new(sent);
    return status == OTEL_STATUS_OK ? otel_context_inject(context, sent) : status;
}

/* Does the operation once. */
static uint32_t once(const char *name, otel_handle *received, otel_handle *context) {
    if (strcmp(name, "extract") == 0)
        return extract(received, context);
    otel_handle sent = OTEL_NOTHING;
    uint32_t status = inject(context, &sent);
    otel_free(&sent);
    return status;
}

/* Does the operation that the line requests. */
static uint32_t play(otel_handle *received, otel_handle *context) {
    char name[16] = "";
    unsigned long times = 0;
    uint32_t status = scanf("%15s %lu", name, &times) == 2 ? extract(received, context) : OTEL_STATUS_INVALID;
    for (unsigned long at = 0; at < times && status == OTEL_STATUS_OK; at++)
        status = once(name, received, context);
    return status;
}

int main(void) {
    otel_handle received = OTEL_NOTHING, context = OTEL_NOTHING, sent = OTEL_NOTHING;
    uint32_t status = otel_headers_new(&received);
    for (size_t at = 0; at < 3 && status == OTEL_STATUS_OK; at++)
        status = otel_headers_append(&received, headers[at][0], strlen(headers[at][0]), headers[at][1], strlen(headers[at][1]));
    if (status == OTEL_STATUS_OK && (status = play(&received, &context)) == OTEL_STATUS_OK)
        status = inject(&context, &sent);
    static char room[1024];
    size_t length;
    for (size_t at = 0; at < 3 && status == OTEL_STATUS_OK; at++)
        if (otel_headers_get(&sent, headers[at][0], strlen(headers[at][0]), room, sizeof room, &length) == OTEL_STATUS_OK)
            printf("%s: %.*s\n", headers[at][0], (int)length, room);
    otel_free(&received);
    otel_free(&context);
    otel_free(&sent);
    return status != OTEL_STATUS_OK;
}
