//! The answers of a collector, and the effect of each on an exporter.
use crate::http_exporter::told::Reply;

/// What an exporter has counted: the rejected records, those given up, and the responses that
/// couldn't be read; and the last message.
pub type Counts = (u64, u64, u64, Option<&'static str>);

/// An answer to a batch of five spans, what is counted, and, if the batch stays, the error.
pub type Row = (Reply, Counts, Option<&'static str>);

const NONE: Counts = (0, 0, 0, None);

pub const ANSWERS: [Row; 35] = [
    (Reply::Response(200, None, "{}"), NONE, None),
    (Reply::Response(202, None, ""), NONE, None),
    (Reply::Response(204, None, ""), NONE, None),
    (Reply::Response(299, None, "{\"x\":1}"), NONE, None),
    (
        Reply::Response(
            200,
            None,
            "{\"partialSuccess\":{\"rejectedSpans\":\"2\",\"errorMessage\":\"m\"}}",
        ),
        (2, 0, 0, Some("m")),
        None,
    ),
    (
        Reply::Response(
            200,
            None,
            "{\"partialSuccess\":{\"rejectedSpans\":2,\"errorMessage\":\"m\"}}",
        ),
        (2, 0, 0, Some("m")),
        None,
    ),
    (
        Reply::Response(
            200,
            None,
            "{\"partialSuccess\":{\"rejectedSpans\":0,\"errorMessage\":\"slow down\"}}",
        ),
        (0, 0, 0, Some("slow down")),
        None,
    ),
    (
        Reply::Response(200, None, "{\"partialSuccess\":{\"errorMessage\":\"m\"}}"),
        (0, 0, 0, Some("m")),
        None,
    ),
    (
        Reply::Response(200, None, "{\"partialSuccess\":{}}"),
        NONE,
        None,
    ),
    (
        Reply::Response(200, None, "{\"partialSuccess\":{\"rejectedLogRecords\":2}}"),
        NONE,
        None,
    ),
    (
        Reply::Response(
            200,
            None,
            "{\"partialSuccess\":{\"rejectedSpans\":null,\"errorMessage\":null}}",
        ),
        NONE,
        None,
    ),
    (
        Reply::Response(200, None, "{\"partialSuccess\":null}"),
        NONE,
        None,
    ),
    (Reply::Response(200, None, "taken"), (0, 0, 1, None), None),
    (Reply::Response(200, None, "[]"), (0, 0, 1, None), None),
    (
        Reply::Response(200, None, "{\"partialSuccess\":{\"rejectedSpans\":\"x\"}}"),
        (0, 0, 1, None),
        None,
    ),
    (
        Reply::Response(503, Some("7"), ""),
        NONE,
        Some("the collector answered 503; to be sent again in 7 s"),
    ),
    (
        Reply::Response(503, None, ""),
        NONE,
        Some("the collector answered 503; to be sent again in 1 s"),
    ),
    (
        Reply::Response(503, Some("x"), ""),
        NONE,
        Some("the collector answered 503; to be sent again in 1 s"),
    ),
    (
        Reply::Response(503, Some("0"), ""),
        NONE,
        Some("the collector answered 503; to be sent again in 1 s"),
    ),
    (
        Reply::Response(503, Some("Sun, 06 Nov 1994 08:49:37 GMT"), ""),
        NONE,
        Some("the collector answered 503; to be sent again in 7 s"),
    ),
    (
        Reply::Response(503, Some("Sun, 06 Nov 1994 08:49:00 GMT"), ""),
        NONE,
        Some("the collector answered 503; to be sent again in 1 s"),
    ),
    (
        Reply::Response(429, Some("120"), ""),
        NONE,
        Some("the collector answered 429; to be sent again in 120 s"),
    ),
    (
        Reply::Response(502, None, ""),
        NONE,
        Some("the collector answered 502; to be sent again in 1 s"),
    ),
    (
        Reply::Response(504, None, "{\"message\":\"no\"}"),
        NONE,
        Some("the collector answered 504; to be sent again in 1 s"),
    ),
    (
        Reply::Nothing,
        NONE,
        Some("no response came; to be sent again in 1 s"),
    ),
    (
        Reply::Malformed,
        NONE,
        Some("the response isn't HTTP; to be sent again in 1 s"),
    ),
    (
        Reply::Refused(111),
        NONE,
        Some("no response came: Connection refused (os error 111); to be sent again in 1 s"),
    ),
    (
        Reply::Response(400, None, "{\"code\":3,\"message\":\"bad\"}"),
        (0, 5, 0, Some("bad")),
        None,
    ),
    (Reply::Response(400, Some("7"), "no"), (0, 5, 0, None), None),
    (Reply::Response(401, None, "{}"), (0, 5, 0, None), None),
    (Reply::Response(404, None, ""), (0, 5, 0, None), None),
    (Reply::Response(413, None, ""), (0, 5, 0, None), None),
    (Reply::Response(500, None, ""), (0, 5, 0, None), None),
    (Reply::Response(301, None, ""), (0, 5, 0, None), None),
    (Reply::Response(304, None, ""), (0, 5, 0, None), None),
];
