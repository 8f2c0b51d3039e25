/* Starts a span below the one of the headers that are received, one `name: value` a line on standard
 * input, and prints the headers to send on.
 *
 *     make example-c
 *     cc forward.c $(pkg-config --cflags --libs otel_c)
 */
#include <stdio.h>
#include <string.h>

#include "otel.h"

/* Adds the header of a line. One that isn't valid is left out. */
static otel_status add(otel_handle *headers, const char *line) {
    size_t name = strcspn(line, ":"), end = strcspn(line, "\r\n");
    size_t value = name < end ? name + 1 + strspn(line + name + 1, " \t") : end;
    otel_status status = otel_headers_append(headers, line, name, line + value, end - value);
    return status == OTEL_STATUS_NO_MEMORY ? status : OTEL_STATUS_OK;
}

int main(void) {
    static const char *const names[] = {"traceparent", "tracestate", "baggage"};
    static char buffer[32768];
    size_t length;
    otel_handle received = OTEL_NOTHING, context = OTEL_NOTHING, sent = OTEL_NOTHING;
    otel_handle child = OTEL_NOTHING;
    otel_status status = otel_headers_new(&received);
    while (status == OTEL_STATUS_OK && fgets(buffer, sizeof buffer, stdin) != NULL)
        status = add(&received, buffer);
    if (status == OTEL_STATUS_OK && (status = otel_context_new(&context)) == OTEL_STATUS_OK
        && (status = otel_context_extract(&received, &context)) == OTEL_STATUS_OK
        && (status = otel_context_start_child(&context, &child)) == OTEL_STATUS_OK
        && (status = otel_headers_new(&sent)) == OTEL_STATUS_OK)
        status = otel_context_inject(&child, &sent);
    for (size_t at = 0; at < 3 && status == OTEL_STATUS_OK; at++)
        if (otel_headers_get(&sent, names[at], strlen(names[at]), buffer, sizeof buffer, &length)
            == OTEL_STATUS_OK)
            printf("%s: %.*s\n", names[at], (int)length, buffer);
    otel_free(&received);
    otel_free(&context);
    otel_free(&child);
    otel_free(&sent);
    if (status != OTEL_STATUS_OK)
        fprintf(stderr, "forward: %s\n", otel_status_text(status));
    return status != OTEL_STATUS_OK;
}
