/* Calls the functions of include/otel.h on the baggage of a context. */
#include "calls.h"

/* A header of W3C trace-context-2 ("Examples of HTTP traceparent Headers"). */
#define PARENT "00-4bf92f3577b34da6a3ce929d0e0e4736-00f067aa0ba902b7-01"

static void reads(void) {
    otel_handle context = OTEL_NOTHING;
    size_t length = 7;
    CALL(OTEL_STATUS_INVALID, otel_baggage_length(&context, &length));
    check(length == 7, "the length of nothing");
    LEAVES(OTEL_STATUS_INVALID, otel_context_baggage, &context);
    LEAVES(OTEL_STATUS_INVALID, otel_baggage_key, &context, 0);
    LEAVES(OTEL_STATUS_INVALID, otel_baggage_get, &context, TEXT("k"));
    LEAVES(OTEL_STATUS_INVALID, otel_baggage_metadata, &context, TEXT("k"));
    CALL(OTEL_STATUS_OK, otel_context_new(&context));
    CALL(OTEL_STATUS_OK, otel_baggage_length(&context, &length));
    check(length == 0, "the length of no baggage");
    WRITES("", otel_context_baggage, &context);
    LEAVES(OTEL_STATUS_ABSENT, otel_baggage_key, &context, 0);
    LEAVES(OTEL_STATUS_ABSENT, otel_baggage_get, &context, TEXT("k"));
    LEAVES(OTEL_STATUS_ABSENT, otel_baggage_metadata, &context, TEXT("k"));
    /* A header of W3C baggage, "baggage", with an escaped value. */
    extract(&context, "baggage",
            "key1=value1;property1;property2, serverNode=DF%2028, key3=value3; p=v");
    CALL(OTEL_STATUS_OK, otel_baggage_length(&context, &length));
    check(length == 3, "the length of three members");
    WRITES("key1=value1;property1;property2,serverNode=DF%2028,key3=value3;p=v",
           otel_context_baggage, &context);
    WRITES("key1", otel_baggage_key, &context, 0);
    WRITES("serverNode", otel_baggage_key, &context, 1);
    WRITES("key3", otel_baggage_key, &context, 2);
    LEAVES(OTEL_STATUS_ABSENT, otel_baggage_key, &context, 3);
    LEAVES(OTEL_STATUS_ABSENT, otel_baggage_key, &context, SIZE_MAX);
    WRITES("value1", otel_baggage_get, &context, TEXT("key1"));
    WRITES("DF 28", otel_baggage_get, &context, TEXT("serverNode"));
    WRITES("property1;property2", otel_baggage_metadata, &context, TEXT("key1"));
    WRITES("", otel_baggage_metadata, &context, TEXT("serverNode"));
    WRITES("p=v", otel_baggage_metadata, &context, TEXT("key3"));
    LEAVES(OTEL_STATUS_ABSENT, otel_baggage_get, &context, TEXT("Key1"));
    LEAVES(OTEL_STATUS_ABSENT, otel_baggage_metadata, &context, TEXT("key2"));
    LEAVES(OTEL_STATUS_NOT_TEXT, otel_baggage_get, &context, TEXT("key\xff"));
    LEAVES(OTEL_STATUS_NOT_TEXT, otel_baggage_metadata, &context, TEXT("\xff"));
    otel_free(&context);
}

static void sets(void) {
    otel_handle context = OTEL_NOTHING, changed = OTEL_NOTHING;
    extract(&context, "traceparent", PARENT);
    CALL(OTEL_STATUS_OK,
         otel_baggage_set(&context, TEXT("k1"), TEXT("a, b"), TEXT(" p=1 ;q\t"), &changed));
    injects(&changed, "baggage", "k1=a%2C%20b;p=1 ;q");
    injects(&changed, "traceparent", PARENT);
    WRITES("p=1 ;q", otel_baggage_metadata, &changed, TEXT("k1"));
    injects(&context, "baggage", "");
    /* The other handle's object is freed. A new key goes last. */
    CALL(OTEL_STATUS_OK, otel_baggage_set(&changed, TEXT("k2"), TEXT("\xc3\xa9"), TEXT(""),
         &context));
    injects(&context, "baggage", "k1=a%2C%20b;p=1 ;q,k2=%C3%A9");
    /* A present key keeps its place, but not its metadata. */
    CALL(OTEL_STATUS_OK, otel_baggage_set(&context, TEXT("k1"), TEXT("c"), TEXT(""), &changed));
    injects(&changed, "baggage", "k1=c,k2=%C3%A9");
    injects(&context, "baggage", "k1=a%2C%20b;p=1 ;q,k2=%C3%A9");
    otel_free(&changed);
    otel_free(&context);
}

static void removes(void) {
    otel_handle context = OTEL_NOTHING, changed = OTEL_NOTHING;
    extract(&context, "traceparent", PARENT);
    CALL(OTEL_STATUS_OK, otel_baggage_remove(&context, TEXT("k1"), &changed));
    injects(&changed, "baggage", "");
    extract(&context, "baggage", "k1=a;p,k2=b,k3=c;q");
    CALL(OTEL_STATUS_OK, otel_baggage_remove(&context, TEXT("k2"), &changed));
    injects(&changed, "baggage", "k1=a;p,k3=c;q");
    injects(&changed, "traceparent", PARENT);
    CALL(OTEL_STATUS_OK, otel_baggage_remove(&context, TEXT("K2"), &changed));
    injects(&changed, "baggage", "k1=a;p,k2=b,k3=c;q");
    injects(&context, "baggage", "k1=a;p,k2=b,k3=c;q");
    otel_free(&changed);
    otel_free(&context);
}

/* A refused member leaves both handles unchanged. */
static void refuses(void) {
    otel_handle nothing = OTEL_NOTHING, headers = OTEL_NOTHING;
    otel_handle context = OTEL_NOTHING, changed = OTEL_NOTHING;
    extract(&context, "baggage", "k=v");
    extract(&changed, "baggage", "other=1");
    CALL(OTEL_STATUS_OK, otel_headers_new(&headers));
    CALL(OTEL_STATUS_INVALID, otel_baggage_set(&nothing, TEXT("k"), TEXT("v"), TEXT(""), &changed));
    CALL(OTEL_STATUS_INVALID, otel_baggage_set(&headers, TEXT("k"), TEXT("v"), TEXT(""), &changed));
    CALL(OTEL_STATUS_NOT_TEXT, otel_baggage_set(&context, TEXT("\xff"), TEXT("v"), TEXT(""),
         &changed));
    CALL(OTEL_STATUS_NOT_TEXT, otel_baggage_set(&context, TEXT("k"), TEXT("\xff"), TEXT(""),
         &changed));
    CALL(OTEL_STATUS_NOT_TEXT, otel_baggage_set(&context, TEXT("k"), TEXT("v"), TEXT("\xff"),
         &changed));
    CALL(OTEL_STATUS_KEY, otel_baggage_set(&context, TEXT(""), TEXT("v"), TEXT(""), &changed));
    CALL(OTEL_STATUS_KEY, otel_baggage_set(&context, TEXT("a b"), TEXT("v"), TEXT(""), &changed));
    CALL(OTEL_STATUS_KEY, otel_baggage_set(&context, TEXT("a=b"), TEXT("v"), TEXT(""), &changed));
    CALL(OTEL_STATUS_INVALID, otel_baggage_remove(&nothing, TEXT("k"), &changed));
    CALL(OTEL_STATUS_INVALID, otel_baggage_remove(&headers, TEXT("k"), &changed));
    CALL(OTEL_STATUS_NOT_TEXT, otel_baggage_remove(&context, TEXT("\xff"), &changed));
    injects(&context, "baggage", "k=v");
    injects(&changed, "baggage", "other=1");
    otel_free(&headers);
    otel_free(&changed);
    otel_free(&context);
}

/* The limits: 8192 bytes, and 64 members. */
static void limits(void) {
    static char text[8193];
    char key[] = "k00", header[64 * 7] = "";
    otel_handle context = OTEL_NOTHING, changed = OTEL_NOTHING;
    memset(text, 'v', sizeof text);
    CALL(OTEL_STATUS_OK, otel_context_new(&context));
    CALL(OTEL_STATUS_OK, otel_baggage_set(&context, TEXT("k"), text, 8189, TEXT(" mm "), &changed));
    CALL(OTEL_STATUS_REFUSED, otel_baggage_set(&context, TEXT("k"), text, 8190, TEXT("mm"),
         &changed));
    CALL(OTEL_STATUS_REFUSED, otel_baggage_set(&changed, TEXT("j"), TEXT(""), TEXT(""), &context));
    CALL(OTEL_STATUS_OK, otel_baggage_set(&changed, TEXT("k"), text, 8191, TEXT(""), &context));
    CALL(OTEL_STATUS_OK, otel_baggage_remove(&context, TEXT("k"), &changed));
    CALL(OTEL_STATUS_OK, otel_baggage_set(&changed, text, 8192, TEXT(""), TEXT(""), &context));
    CALL(OTEL_STATUS_KEY, otel_baggage_set(&changed, text, 8193, TEXT(""), TEXT(""), &context));
    for (int at = 0; at < 64; at++)
        sprintf(header + strlen(header), "%sk%02d=%d", at == 0 ? "" : ",", at, at % 10);
    extract(&context, "baggage", header);
    CALL(OTEL_STATUS_REFUSED, otel_baggage_set(&context, TEXT("new"), TEXT(""), TEXT(""),
         &changed));
    CALL(OTEL_STATUS_KEY, otel_baggage_set(&context, TEXT("n,"), TEXT(""), TEXT(""), &changed));
    CALL(OTEL_STATUS_OK, otel_baggage_set(&context, TEXT(key), TEXT("9"), TEXT(""), &changed));
    WRITES("9", otel_baggage_get, &changed, TEXT(key));
    otel_free(&changed);
    otel_free(&context);
}

#define LITERAL(text) text, sizeof text - 1
#define MEMBER(key, value, metadata) {LITERAL(key), LITERAL(value), LITERAL(metadata)}

/* All members are set in turn, or none. */
static void sets_all(void) {
    static const otel_member many[] = {
        MEMBER("k1", "a, b", " p=1 "),
        {"k2", 2, NULL, 0, NULL, 0},
        MEMBER("k1", "c", "q"),
        MEMBER("k3", "\xc3\xa9", ""),
    };
    otel_handle nothing = OTEL_NOTHING, context = OTEL_NOTHING, changed = OTEL_NOTHING;
    size_t failed;
    CALL(OTEL_STATUS_INVALID, otel_baggage_set_all(&nothing, many, 4, &changed, &failed));
    check(changed.object == NULL, "members of nothing");
    extract(&context, "traceparent", PARENT);
    extract(&context, "baggage", "k3=x,k0=y");
    CALL(OTEL_STATUS_OK, otel_baggage_set_all(&context, many, 4, &changed, &failed));
    injects(&changed, "baggage", "k3=%C3%A9,k0=y,k1=c;q,k2=");
    injects(&changed, "traceparent", PARENT);
    injects(&context, "baggage", "k3=x,k0=y");
    CALL(OTEL_STATUS_OK, otel_baggage_set_all(&context, NULL, 0, &changed, NULL));
    injects(&changed, "baggage", "k3=x,k0=y");
    otel_free(&context);
    otel_free(&changed);
}

/* A member that is refused, with its status. */
typedef struct wrong {
    otel_status status;
    otel_member member;
} wrong;

/* One refused member leaves both handles unchanged. */
static void refuses_all(void) {
    static const wrong all[] = {
        {OTEL_STATUS_KEY, MEMBER("a b", "", "")},
        {OTEL_STATUS_KEY, {NULL, 0, NULL, 0, NULL, 0}},
        {OTEL_STATUS_NOT_TEXT, MEMBER("k\xff", "", "")},
        {OTEL_STATUS_NOT_TEXT, MEMBER("k", "\xff", "")},
        {OTEL_STATUS_NOT_TEXT, MEMBER("k", "", "\xff")},
        {OTEL_STATUS_UNSENDABLE, MEMBER("k", "", "a\x01")},
        {OTEL_STATUS_UNSENDABLE, MEMBER("a b", "", "\xc3\xa9")},
    };
    otel_member members[3] = {MEMBER("k", "v", ""), MEMBER("l", "w", ""), MEMBER("m", "x", "")};
    otel_handle context = OTEL_NOTHING, changed = OTEL_NOTHING;
    size_t at, failed;
    extract(&context, "baggage", "j=u");
    extract(&changed, "baggage", "other=1");
    for (at = 0; at < sizeof all / sizeof *all; at++) {
        otel_member given[4];
        memcpy(given, members, sizeof members);
        given[3] = given[at % 4];
        given[at % 4] = all[at].member;
        failed = 9;
        CALL(all[at].status, otel_baggage_set_all(&context, given, 4, &changed, &failed));
        check(failed == at % 4, "the index of the refused member");
        CALL(all[at].status, otel_baggage_set_all(&context, given, 4, &changed, NULL));
    }
    members[1].value = NULL;
    CALL(OTEL_STATUS_INVALID, otel_baggage_set_all(&context, members, 3, &changed, NULL));
    CALL(OTEL_STATUS_INVALID, otel_baggage_set_all(&context, NULL, 1, &changed, NULL));
    CALL(OTEL_STATUS_INVALID, otel_baggage_set_all(&context, members, SIZE_MAX, &changed, NULL));
    CALL(OTEL_STATUS_INVALID, otel_baggage_set_all(&context, members, 0, &context, NULL));
    injects(&context, "baggage", "j=u");
    injects(&changed, "baggage", "other=1");
    otel_free(&context);
    otel_free(&changed);
}

/* 64 members fit, and the 65th doesn't. */
static void fills(void) {
    static char keys[65][4];
    static otel_member members[65];
    otel_handle context = OTEL_NOTHING, changed = OTEL_NOTHING;
    size_t at, count = 0, failed = 0;
    for (at = 0; at < 65; at++) {
        otel_member one = MEMBER("", "v", "");
        sprintf(keys[at], "k%02d", (int)at);
        one.key = keys[at];
        one.key_length = 3;
        members[at] = one;
    }
    CALL(OTEL_STATUS_OK, otel_context_new(&context));
    CALL(OTEL_STATUS_REFUSED, otel_baggage_set_all(&context, members, 65, &changed, &failed));
    check(failed == 64 && changed.object == NULL, "the 65th member");
    CALL(OTEL_STATUS_OK, otel_baggage_set_all(&context, members, 64, &changed, &failed));
    CALL(OTEL_STATUS_OK, otel_baggage_length(&changed, &count));
    check(count == 64, "64 members");
    /* Keys that are there need no place. */
    CALL(OTEL_STATUS_OK, otel_baggage_set_all(&changed, members, 64, &context, &failed));
    CALL(OTEL_STATUS_REFUSED, otel_baggage_set_all(&changed, members + 63, 2, &context, &failed));
    check(failed == 1, "the member after one that is there");
    otel_free(&context);
    otel_free(&changed);
}

/* The bytes of all members count, and those of a member that another takes the place of don't. */
static void fills_bytes(void) {
    static char text[8191];
    otel_member members[] = {MEMBER("k", "", ""), MEMBER("j", "", ""), MEMBER("k", "", "")};
    otel_handle context = OTEL_NOTHING, changed = OTEL_NOTHING;
    size_t failed = 9;
    memset(text, 'v', sizeof text);
    members[0].value = text;
    members[0].value_length = sizeof text;
    CALL(OTEL_STATUS_OK, otel_context_new(&context));
    CALL(OTEL_STATUS_REFUSED, otel_baggage_set_all(&context, members, 3, &changed, &failed));
    check(failed == 1 && changed.object == NULL, "the member that is too much");
    members[1] = members[2];
    CALL(OTEL_STATUS_OK, otel_baggage_set_all(&context, members, 2, &changed, NULL));
    members[1] = members[0];
    CALL(OTEL_STATUS_OK, otel_baggage_set_all(&changed, members, 3, &context, NULL));
    injects(&context, "baggage", "k=");
    otel_free(&context);
    otel_free(&changed);
}

/* Gives what otel_baggage_set gives for one member after another. */
static void sets_in_turn(void) {
    static const otel_member many[] = {
        MEMBER("a", "1", "p"), MEMBER("b", "2 ", ""), MEMBER("a", "3", ""), MEMBER("c", "", " q=r "),
        MEMBER("b", "\xe2\x82\xac", "s"), MEMBER("old", "4", ""),
    };
    static char one[256], all[256];
    otel_handle context = OTEL_NOTHING, changed = OTEL_NOTHING, moved;
    size_t at, one_length = 0, all_length = 0;
    extract(&context, "baggage", "old=0;m,older=0");
    CALL(OTEL_STATUS_OK, otel_baggage_set_all(&context, many, 6, &changed, NULL));
    CALL(OTEL_STATUS_OK, otel_context_baggage(&changed, all, sizeof all, &all_length));
    for (at = 0; at < sizeof many / sizeof *many; at++) {
        CALL(OTEL_STATUS_OK, otel_baggage_set(&context, many[at].key, many[at].key_length,
             many[at].value, many[at].value_length, many[at].metadata, many[at].metadata_length,
             &changed));
        moved = context, context = changed, changed = moved;
    }
    CALL(OTEL_STATUS_OK, otel_context_baggage(&context, one, sizeof one, &one_length));
    check(one_length == all_length && memcmp(one, all, one_length) == 0, "members set in turn");
    otel_free(&context);
    otel_free(&changed);
}

static void (*const runs[])(void) = {reads, sets, removes, refuses, limits,
                                     sets_all, refuses_all, fills, fills_bytes, sets_in_turn};

int main(void) {
    return ends(runs, sizeof runs / sizeof *runs);
}
