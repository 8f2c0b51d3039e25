//! An exporter over a client that answers from a table: which parts leave, which stay, for how
//! long, and what is counted.
mod answers;
mod factors;
mod moments;
mod told;

use crate::batches::{root, scope};
use crate::http_exporter::answers::ANSWERS;
use crate::http_exporter::told::{Middle, Reply, Shown, Told, told};
use crate::records::{cart_service, observed};
use otel_otlp::{
    ConfigError, OtlpHttpConfig, OtlpHttpExporter, OtlpHttpLogExporter, OtlpHttpSpanExporter,
};
use otel_sdk::trace::{BatchConfigBuilder, BatchSpanProcessor, SpanData, SpanProcessor};
use otel_sdk_base::error::{OTelSdkError, OTelSdkResult};
use otel_sdk_base::{Exporter, Losses, SystemClock};
use serde_json::Value;
use std::alloc::Global;
use std::cell::Cell;
use std::default::Default;
use std::rc::Rc;
use std::test::Fail;

/// Sunday, 6 November 1994, 08:49:30, in nanoseconds since 1970.
const NOW: u64 = 784_111_770_000_000_000;

const SECOND: u64 = 1_000_000_000;

type Spans<'a> = OtlpHttpSpanExporter<Told, Middle, Shown<'a>>;

// An exporter of spans over a client with these answers, in requests to this collector.
fn exporter<'a>(
    alloc: Global,
    replies: &[Reply],
    moment: &'a Cell<u64>,
    max_body: usize,
) -> Result<Spans<'a>, Fail> {
    let config = OtlpHttpConfig::new(alloc)?.with_max_body(max_body);
    Ok(OtlpHttpExporter::new(
        alloc,
        told(alloc, replies)?,
        config,
        Middle,
        Shown { moment },
    )?)
}

// The spans with these numbers.
fn spans(alloc: Global, first: u64, end: u64) -> Result<Vec<SpanData>, Fail> {
    let mut batch = Vec::new(alloc);
    for number in first..end {
        batch.push(root(alloc, number, scope(alloc, "s")?)?)?;
    }
    Ok(batch)
}

// The client of an exporter with this configuration, which has sent one span.
fn sent_by(alloc: Global, config: OtlpHttpConfig) -> Result<Told, Fail> {
    let moment = Cell::new(NOW);
    let clock = Shown { moment: &moment };
    let mut exporter: Spans = OtlpHttpExporter::new(
        alloc,
        told(alloc, &[])?,
        config,
        Middle,
        clock,
    )?;
    exporter.export(&spans(alloc, 1, 2)?)?;
    Ok(exporter.into_client())
}

/// The target of a request of this configuration.
pub fn target_sent(alloc: Global, config: OtlpHttpConfig) -> Result<String, Fail> {
    Ok(sent_by(alloc, config)?.targets.remove(0))
}

/// The headers of a request of this configuration.
pub fn headers_sent(alloc: Global, config: OtlpHttpConfig) -> Result<String, Fail> {
    Ok(sent_by(alloc, config)?.headers.remove(0))
}

// The length of the body of one span.
fn length_of_one(alloc: Global) -> Result<usize, Fail> {
    let moment = Cell::new(NOW);
    let mut exporter = exporter(alloc, &[], &moment, 4_194_304)?;
    exporter.export(&spans(alloc, 1, 2)?)?;
    Ok(exporter.client().bodies[0].len())
}

// The text of the error, empty if there is none.
fn error_of(outcome: &OTelSdkResult) -> &str {
    match outcome {
        Err(OTelSdkError::InternalFailure(text)) => text.as_str(),
        Err(OTelSdkError::AlreadyShutdown) => "shut down",
        Err(_) => "another error",
        Ok(()) => "",
    }
}

// The last digits of the ids in the bodies, and a comma after each body.
fn digits(alloc: Global, bodies: &[Vec<u8>]) -> Result<String, Fail> {
    let mut digits = String::new(alloc);
    for body in bodies {
        let value = Value::from_slice(alloc, body.as_slice())?;
        let list = value
            .pointer("/resourceSpans/0/scopeSpans/0/spans")
            .and_then(Value::as_array)
            .ok_or("no spans")?;
        for span in list.iter() {
            let id = span
                .pointer("/spanId")
                .and_then(Value::as_str)
                .ok_or("no id")?;
            digits.push_str(&id[15..])?;
        }
        digits.push(',')?;
    }
    Ok(digits)
}

// What any exporter tells of the spans that its receiver doesn't have.
fn lost(exporter: &impl Exporter<SpanData>) -> (Losses, Option<&str>) {
    (exporter.losses(), exporter.last_message())
}

#[test]
fn a_batch_leaves_or_stays(rt: HostRuntime) -> Result<(), Fail> {
    let alloc = rt.alloc();
    for (place, (reply, counts, stays)) in ANSWERS.iter().enumerate() {
        let moment = Cell::new(NOW);
        let mut exporter = exporter(alloc, &[*reply], &moment, 4_194_304)?;
        assert!(rt; exporter.export(&spans(alloc, 1, 6)?).is_ok(), "{place}");
        assert_eq!(rt; exporter.waiting(), usize::from(stays.is_some()), "{place}");
        assert_eq!(rt; exporter.rejected(), counts.0, "{place}");
        assert_eq!(rt; exporter.given_up(), counts.1, "{place}");
        assert_eq!(rt; exporter.unread_responses(), counts.2, "{place}");
        assert_eq!(rt; exporter.last_message(), counts.3, "{place}");
        let losses = Losses {
            rejected: counts.0,
            given_up: counts.1,
            dropped: 0,
            held: if stays.is_some() { 5 } else { 0 },
        };
        assert!(rt; lost(&exporter) == (losses, counts.3), "{place}");
        let flushed = exporter.force_flush();
        assert_eq!(rt; error_of(&flushed), stays.unwrap_or(""), "{place}");
        let bodies = exporter.client().bodies.as_slice();
        assert_eq!(rt; digits(alloc, bodies)?.as_str(), "12345,", "{place}");
    }
    Ok(())
}

#[test]
fn a_batch_that_stays_is_sent_again_at_its_moment(rt: HostRuntime) -> Result<(), Fail> {
    let alloc = rt.alloc();
    let moment = Cell::new(NOW);
    let replies = [Reply::Nothing, Reply::Response(503, Some("7"), "")];
    let mut exporter = exporter(alloc, &replies, &moment, 4_194_304)?;
    exporter.export(&spans(alloc, 1, 3)?)?;
    for (after, sent, error) in [
        (
            SECOND - 1,
            "12,",
            "no response came; to be sent again in 1 s",
        ),
        (
            SECOND,
            "12,12,",
            "the collector answered 503; to be sent again in 7 s",
        ),
        (
            2 * SECOND,
            "12,12,",
            "the collector answered 503; to be sent again in 6 s",
        ),
        (
            8 * SECOND - 1,
            "12,12,",
            "the collector answered 503; to be sent again in 1 s",
        ),
        (8 * SECOND, "12,12,12,", ""),
        (9 * SECOND, "12,12,12,", ""),
    ] {
        moment.set(NOW + after);
        let flushed = exporter.force_flush();
        assert_eq!(rt; error_of(&flushed), error, "{after}");
        let bodies = exporter.client().bodies.as_slice();
        assert_eq!(rt; digits(alloc, bodies)?.as_str(), sent, "{after}");
    }
    assert_eq!(rt; exporter.not_before(), 0);
    assert_eq!(rt; exporter.waiting(), 0);
    Ok(())
}

#[test]
fn refusals_in_a_row_wait_longer(rt: HostRuntime) -> Result<(), Fail> {
    let alloc = rt.alloc();
    let moment = Cell::new(NOW);
    let replies = [
        Reply::Response(503, None, ""),
        Reply::Nothing,
        Reply::Response(429, None, ""),
        Reply::Malformed,
        Reply::Response(502, None, ""),
        Reply::Response(504, None, ""),
        Reply::Nothing,
        Reply::Response(200, None, "{}"),
        Reply::Nothing,
        Reply::Response(400, None, ""),
        Reply::Nothing,
    ];
    let mut exporter = exporter(alloc, &replies, &moment, 4_194_304)?;
    exporter.export(&spans(alloc, 1, 2)?)?;
    for wait in [1, 2, 4, 8, 16, 30, 30] {
        assert_eq!(rt;
            exporter.not_before(),
            moment.get() + wait * SECOND,
            "{wait}"
        );
        moment.set(exporter.not_before());
        let _ = exporter.force_flush();
    }
    assert_eq!(rt; exporter.waiting(), 0);
    for _ in 0..2 {
        exporter.export(&spans(alloc, 1, 2)?)?;
        assert_eq!(rt; exporter.not_before(), moment.get() + SECOND);
        moment.set(exporter.not_before());
        assert!(rt; exporter.force_flush().is_ok());
    }
    assert_eq!(rt; exporter.given_up(), 1);
    Ok(())
}

#[test]
fn a_refused_batch_waits_for_the_earlier_one(rt: HostRuntime) -> Result<(), Fail> {
    let alloc = rt.alloc();
    let moment = Cell::new(NOW);
    let mut exporter = exporter(alloc, &[Reply::Nothing], &moment, 4_194_304)?;
    exporter.export(&spans(alloc, 1, 3)?)?;
    let refused = exporter.export(&spans(alloc, 3, 5)?);
    assert_eq!(rt;
        error_of(&refused),
        "no response came; to be sent again in 1 s"
    );
    moment.set(NOW + SECOND);
    exporter.export(&spans(alloc, 3, 5)?)?;
    exporter.export(&[])?;
    let bodies = exporter.client().bodies.as_slice();
    assert_eq!(rt; digits(alloc, bodies)?.as_str(), "12,12,34,");
    Ok(())
}

#[test]
fn a_batch_over_the_limit_is_halved(rt: HostRuntime) -> Result<(), Fail> {
    let alloc = rt.alloc();
    let mut lengths = Vec::new(alloc);
    for end in 2..7 {
        let moment = Cell::new(NOW);
        let mut exporter = exporter(alloc, &[], &moment, 4_194_304)?;
        exporter.export(&spans(alloc, 1, end)?)?;
        lengths.push(exporter.client().bodies[0].len())?;
    }
    let rows = [
        (lengths[4], "12345,", 0),
        (lengths[4] - 1, "12,345,", 0),
        (lengths[2], "12,345,", 0),
        (lengths[2] - 1, "12,3,45,", 0),
        (lengths[1] - 1, "1,2,3,4,5,", 0),
        (lengths[0], "1,2,3,4,5,", 0),
        (lengths[0] - 1, "", 5),
        (0, "", 5),
    ];
    for (max_body, sent, given_up) in rows {
        let moment = Cell::new(NOW);
        let mut exporter = exporter(alloc, &[], &moment, max_body)?;
        exporter.export(&spans(alloc, 1, 6)?)?;
        let bodies = exporter.client().bodies.as_slice();
        assert_eq!(rt; digits(alloc, bodies)?.as_str(), sent, "{max_body}");
        assert_eq!(rt; exporter.given_up(), given_up, "{max_body}");
        assert_eq!(rt; exporter.waiting(), 0, "{max_body}");
    }
    Ok(())
}

#[test]
fn a_part_that_was_taken_is_not_sent_again(rt: HostRuntime) -> Result<(), Fail> {
    let alloc = rt.alloc();
    let moment = Cell::new(NOW);
    let replies = [
        Reply::Response(200, None, "{}"),
        Reply::Response(503, None, ""),
        Reply::Response(400, None, ""),
    ];
    let mut exporter = exporter(alloc, &replies, &moment, length_of_one(alloc)?)?;
    exporter.export(&spans(alloc, 1, 5)?)?;
    assert_eq!(rt; exporter.waiting(), 3);
    moment.set(NOW + SECOND);
    exporter.force_flush()?;
    let bodies = exporter.client().bodies.as_slice();
    assert_eq!(rt; digits(alloc, bodies)?.as_str(), "1,2,2,3,4,");
    assert_eq!(rt; exporter.given_up(), 1);
    Ok(())
}

/// Of the spans 1 to 4, each of which is a part, the collector takes the first, rejects the second,
/// refuses the third for good, and the fourth for now. The exporter tells of the last three, also
/// after its shutdown.
#[test]
fn each_span_that_is_lost_is_told_once(rt: HostRuntime) -> Result<(), Fail> {
    let alloc = rt.alloc();
    let moment = Cell::new(NOW);
    let rejects = "{\"partialSuccess\":{\"rejectedSpans\":\"1\",\"errorMessage\":\"m\"}}";
    let replies = [
        Reply::Response(200, None, "{}"),
        Reply::Response(200, None, rejects),
        Reply::Response(400, None, "{\"message\":\"bad\"}"),
        Reply::Response(503, None, ""),
        Reply::Response(503, None, ""),
    ];
    let mut exporter = exporter(alloc, &replies, &moment, length_of_one(alloc)?)?;
    let none = (Losses::default(), None);
    assert!(rt; lost(&exporter) == none);
    exporter.export(&spans(alloc, 1, 5)?)?;
    let losses = Losses {
        rejected: 1,
        given_up: 1,
        dropped: 0,
        held: 1,
    };
    assert!(rt; lost(&exporter) == (losses, Some("bad")));
    moment.set(NOW + SECOND);
    assert!(rt; exporter.shutdown().is_err());
    assert!(rt; lost(&exporter) == (losses, Some("bad")));
    Ok(())
}

/// A collector may say that it rejected more spans than it was sent.
#[test]
fn not_more_spans_are_rejected_than_were_sent(rt: HostRuntime) -> Result<(), Fail> {
    let alloc = rt.alloc();
    for (said, rejected) in [
        ("{\"partialSuccess\":{\"rejectedSpans\":4}}", 4),
        ("{\"partialSuccess\":{\"rejectedSpans\":5}}", 5),
        ("{\"partialSuccess\":{\"rejectedSpans\":6}}", 5),
        (
            "{\"partialSuccess\":{\"rejectedSpans\":\"9223372036854775807\"}}",
            5,
        ),
    ] {
        let moment = Cell::new(NOW);
        let replies = [Reply::Response(200, None, said)];
        let mut exporter = exporter(alloc, &replies, &moment, 4_194_304)?;
        exporter.export(&spans(alloc, 1, 6)?)?;
        assert_eq!(rt; lost(&exporter).0.total(), rejected, "{said}");
        assert_eq!(rt; exporter.rejected(), rejected, "{said}");
    }
    Ok(())
}

#[test]
fn the_endpoint_gives_the_target(rt: HostRuntime) -> Result<(), Fail> {
    let alloc = rt.alloc();
    // The endpoint, whether it is for spans, and the target.
    let rows = [
        ("http://h:4318", false, "/v1/traces"),
        ("http://h:4318/", false, "/v1/traces"),
        ("http://h/base", false, "/base/v1/traces"),
        ("https://h", false, "/v1/traces"),
        ("http://h/a", true, "/a"),
        ("http://h", true, "/"),
    ];
    for (endpoint, is_of_signal, target) in rows {
        let text = String::from_str(alloc, endpoint)?;
        let config = OtlpHttpConfig::new(alloc)?;
        let config = if is_of_signal {
            config.with_signal_endpoint(text)
        } else {
            config.with_endpoint(text)
        };
        assert_eq!(rt; target_sent(alloc, config)?.as_str(), target, "{endpoint}");
    }
    Ok(())
}

#[test]
fn an_endpoint_without_a_host_is_refused(rt: HostRuntime) -> Result<(), Fail> {
    let alloc = rt.alloc();
    for endpoint in [
        "",
        "h",
        "/v1/traces",
        "h:4318",
        "http://",
        "http:///",
        "http://h?a=b",
        "http://h/v1/traces?a=b",
        "http://h/v1/traces#a",
    ] {
        let moment = Cell::new(NOW);
        let config = OtlpHttpConfig::new(alloc)?.with_endpoint(String::from_str(alloc, endpoint)?);
        let clock = Shown { moment: &moment };
        let made: Result<Spans, ConfigError> = OtlpHttpExporter::new(
            alloc,
            told(alloc, &[])?,
            config,
            Middle,
            clock,
        );
        let named = match made {
            Err(ConfigError::Endpoint(named)) => named.as_str() == endpoint,
            _ => false,
        };
        assert!(rt; named, "{endpoint}");
    }
    Ok(())
}

#[test]
fn a_resource_is_sent_with_later_batches(rt: HostRuntime) -> Result<(), Fail> {
    let alloc = rt.alloc();
    let moment = Cell::new(NOW);
    let mut exporter = exporter(alloc, &[], &moment, 4_194_304)?;
    exporter.export(&spans(alloc, 1, 2)?)?;
    exporter.set_resource(Rc::new(alloc, cart_service(alloc)?)?);
    exporter.export(&spans(alloc, 2, 3)?)?;
    for (body, attributes) in [(0, 0), (1, 1)] {
        let value = Value::from_slice(alloc, exporter.client().bodies[body].as_slice())?;
        let list = value
            .pointer("/resourceSpans/0/resource/attributes")
            .and_then(Value::as_array);
        assert_eq!(rt; list.map_or(0, |list| list.len()), attributes, "{body}");
    }
    Ok(())
}

#[test]
fn log_records_have_their_own_target_and_count(rt: HostRuntime) -> Result<(), Fail> {
    let alloc = rt.alloc();
    let moment = Cell::new(NOW);
    let replies = [Reply::Response(
        200,
        None,
        "{\"partialSuccess\":{\"rejectedLogRecords\":\"1\"}}",
    )];
    let mut exporter: OtlpHttpLogExporter<Told, Middle, Shown> = OtlpHttpExporter::new(
        alloc,
        told(alloc, &replies)?,
        OtlpHttpConfig::new(alloc)?,
        Middle,
        Shown { moment: &moment },
    )?;
    let mut batch = Vec::new(alloc);
    batch.push(observed(alloc, 1, scope(alloc, "s")?))?;
    exporter.export(&batch)?;
    assert_eq!(rt; exporter.rejected(), 1);
    assert_eq!(rt; exporter.client().targets[0].as_str(), "/v1/logs");
    let value = Value::from_slice(alloc, exporter.client().bodies[0].as_slice())?;
    let record = value.pointer("/resourceLogs/0/scopeLogs/0/logRecords/0");
    assert!(rt; record.is_some());
    Ok(())
}

#[test]
fn a_shut_down_exporter_sends_nothing(rt: HostRuntime) -> Result<(), Fail> {
    let alloc = rt.alloc();
    let moment = Cell::new(NOW);
    let replies = [Reply::Nothing, Reply::Nothing];
    let mut exporter = exporter(alloc, &replies, &moment, 4_194_304)?;
    exporter.export(&spans(alloc, 1, 2)?)?;
    moment.set(NOW + SECOND);
    let shut = exporter.shutdown();
    assert_eq!(rt;
        error_of(&shut),
        "no response came; to be sent again in 2 s"
    );
    moment.set(NOW + 9 * SECOND);
    assert_eq!(rt; error_of(&exporter.force_flush()), "shut down");
    assert_eq!(rt;
        error_of(&exporter.export(&spans(alloc, 2, 3)?)),
        "shut down"
    );
    assert_eq!(rt; error_of(&exporter.shutdown()), "shut down");
    let bodies = exporter.client().bodies.as_slice();
    assert_eq!(rt; digits(alloc, bodies)?.as_str(), "1,1,");
    assert_eq!(rt; exporter.waiting(), 1);
    Ok(())
}

#[test]
fn each_span_of_a_processor_is_taken_once(rt: HostRuntime) -> Result<(), Fail> {
    let alloc = rt.alloc();
    // The answers to batches of two, halved, and the bodies that are sent.
    let rows: [(&[Reply], &str); 4] = [
        (&[], "1,2,3,4,5,"),
        (
            &[Reply::Response(503, None, ""), Reply::Nothing],
            "1,1,1,2,3,4,5,",
        ),
        (
            &[
                Reply::Response(200, None, "{}"),
                Reply::Malformed,
                Reply::Response(200, None, "{}"),
                Reply::Response(429, None, ""),
            ],
            "1,2,2,3,3,4,5,",
        ),
        (
            &[
                Reply::Response(400, None, "{}"),
                Reply::Response(200, None, "x"),
                Reply::Response(200, None, "{}"),
                Reply::Response(200, None, "{}"),
                Reply::Response(504, Some("1"), ""),
            ],
            "1,2,3,4,5,5,",
        ),
    ];
    for (place, (replies, sent)) in rows.iter().enumerate() {
        let moment = Cell::new(NOW);
        let config = BatchConfigBuilder::default()
            .with_max_queue_size(8)
            .with_max_export_batch_size(2)
            .build();
        let exporter = exporter(alloc, replies, &moment, length_of_one(alloc)?)?;
        let mut processor = BatchSpanProcessor::new(alloc, exporter, config);
        for span in spans(alloc, 1, 6)? {
            processor.on_end(span);
        }
        let mut flushes = 0;
        while flushes < 9 && processor.force_flush().is_err() {
            moment.set(moment.get() + 60 * SECOND);
            flushes += 1;
        }
        assert_eq!(rt; processor.queued_spans(), 0, "{place}");
        assert_eq!(rt; processor.exporter().waiting(), 0, "{place}");
        let bodies = processor.exporter().client().bodies.as_slice();
        assert_eq!(rt; digits(alloc, bodies)?.as_str(), *sent, "{place}");
    }
    Ok(())
}

// Exports the batch by the system's clock. Returns the client.
fn exported(rt: HostRuntime, client: Told, batch: &[SpanData]) -> Result<Told, Fail> {
    let alloc = rt.alloc();

    let config = OtlpHttpConfig::new(alloc)?;
    let mut exporter = OtlpHttpSpanExporter::new(alloc, client, config, rt, SystemClock::new(rt))?;
    exporter.export(batch)?;

    Ok(exporter.into_client())
}

#[test]
fn a_batch_is_exported_by_the_systems_clock(rt: HostRuntime) -> Result<(), Fail> {
    let alloc = rt.alloc();
    let client = exported(rt, told(alloc, &[])?, &spans(alloc, 1, 3)?)?;
    assert_eq!(rt; digits(alloc, client.bodies.as_slice())?.as_str(), "12,");
    Ok(())
}
