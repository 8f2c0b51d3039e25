/* Calls the functions of include/otel.h on stacks of attached contexts. */
#include "calls.h"

/* Makes a context with an identifying baggage. */
static void name(otel_handle *context, const char *baggage) {
    extract(context, "baggage", baggage);
}

/* Whether this context is current. */
static void is_current(otel_handle *stack, const char *baggage) {
    otel_handle context = OTEL_NOTHING;
    CALL(OTEL_STATUS_OK, otel_stack_current(stack, &context));
    injects(&context, "baggage", baggage);
    otel_free(&context);
}

/* The position at which the context is attached, or 0. */
static unsigned attached(otel_handle *stack, otel_handle *context) {
    uint16_t position = 0;
    uint32_t status = otel_stack_attach(stack, context, &position);
    if (status == OTEL_STATUS_NO_MEMORY && refused != 0) {
        starved++;
        status = position == 0 ? otel_stack_attach(stack, context, &position) : status;
    }
    return status == OTEL_STATUS_OK ? position : 0;
}

static void attaches(otel_handle *stack, otel_handle *context, unsigned wanted) {
    check(attached(stack, context) == wanted, "otel_stack_attach");
}

static void in_any_order(void) {
    otel_handle stack = OTEL_NOTHING, a = OTEL_NOTHING, b = OTEL_NOTHING, c = OTEL_NOTHING;
    CALL(OTEL_STATUS_OK, otel_stack_new(&stack));
    is_current(&stack, "");
    name(&a, "k=a");
    name(&b, "k=b");
    name(&c, "k=c");
    attaches(&stack, &a, 1);
    attaches(&stack, &b, 2);
    attaches(&stack, &c, 3);
    injects(&c, "baggage", "k=c");
    otel_free(&a);
    otel_free(&b);
    is_current(&stack, "k=c");
    CALL(OTEL_STATUS_OK, otel_stack_detach(&stack, 2));
    CALL(OTEL_STATUS_ABSENT, otel_stack_detach(&stack, 2));
    is_current(&stack, "k=c");
    CALL(OTEL_STATUS_OK, otel_stack_detach(&stack, 3));
    is_current(&stack, "k=a");
    attaches(&stack, &c, 2);
    CALL(OTEL_STATUS_ABSENT, otel_stack_detach(&stack, 0));
    CALL(OTEL_STATUS_ABSENT, otel_stack_detach(&stack, 3));
    CALL(OTEL_STATUS_ABSENT, otel_stack_detach(&stack, 65535));
    CALL(OTEL_STATUS_OK, otel_stack_detach(&stack, 1));
    is_current(&stack, "k=c");
    CALL(OTEL_STATUS_OK, otel_stack_new(&stack));
    is_current(&stack, "");
    otel_free(&stack);
    otel_free(&c);
}

static void refusals(void) {
    otel_handle stack = OTEL_NOTHING, context = OTEL_NOTHING;
    uint16_t position = 7;
    CALL(OTEL_STATUS_OK, otel_context_new(&context));
    CALL(OTEL_STATUS_INVALID, otel_stack_attach(&stack, &context, &position));
    CALL(OTEL_STATUS_INVALID, otel_stack_detach(&stack, 1));
    CALL(OTEL_STATUS_INVALID, otel_stack_current(&stack, &context));
    CALL(OTEL_STATUS_OK, otel_stack_new(&stack));
    CALL(OTEL_STATUS_INVALID, otel_stack_attach(&context, &stack, &position));
    CALL(OTEL_STATUS_INVALID, otel_stack_detach(&context, 1));
    otel_free(&context);
    CALL(OTEL_STATUS_INVALID, otel_stack_attach(&stack, &context, &position));
    check(position == 7, "the position of nothing");
    is_current(&stack, "");
    otel_free(&stack);
}

/* A stack grows beyond its initial room, up to the greatest position. */
static void limit(void) {
    otel_handle stack = OTEL_NOTHING, context = OTEL_NOTHING;
    uint16_t position = 0;
    unsigned most = refused == 0 ? 65534 : 40;
    CALL(OTEL_STATUS_OK, otel_stack_new(&stack));
    name(&context, "k=a");
    unsigned last = 0;
    while (last < most && attached(&stack, &context) == last + 1)
        last++;
    check(last == most, "as many attaches");
    if (most == 65534)
        CALL(OTEL_STATUS_REFUSED, otel_stack_attach(&stack, &context, &position));
    check(position == 0, "the position past the last");
    CALL(OTEL_STATUS_OK, otel_stack_detach(&stack, 1));
    if (most == 65534)
        CALL(OTEL_STATUS_REFUSED, otel_stack_attach(&stack, &context, &position));
    CALL(OTEL_STATUS_OK, otel_stack_detach(&stack, most));
    attaches(&stack, &context, most);
    otel_free(&stack);
    injects(&context, "baggage", "k=a");
    otel_free(&context);
}

static void (*const runs[])(void) = {in_any_order, refusals, limit};

int main(void) {
    return ends(runs, sizeof runs / sizeof *runs);
}
