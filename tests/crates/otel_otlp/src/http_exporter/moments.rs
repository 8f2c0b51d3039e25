//! Waits that begin and end within a second.
use crate::http_exporter::told::Reply;
use crate::http_exporter::{NOW, SECOND, digits, error_of, exporter, spans};
use otel_sdk_base::Exporter;
use std::cell::Cell;
use std::test::Fail;

/// The last nanosecond of a second.
const LAST: u64 = NOW + SECOND - 1;

#[test]
fn a_wait_begins_at_the_nanosecond_of_the_answer(rt: HostRuntime) -> Result<(), Fail> {
    let alloc = rt.alloc();
    let moment = Cell::new(LAST);
    let mut exporter = exporter(alloc, &[Reply::Nothing], &moment, 4_194_304)?;
    exporter.export(&spans(alloc, 1, 3)?)?;
    assert_eq!(rt; exporter.not_before(), LAST + SECOND);
    Ok(())
}

#[test]
fn a_wait_ends_at_its_nanosecond(rt: HostRuntime) -> Result<(), Fail> {
    let alloc = rt.alloc();
    let moment = Cell::new(LAST);
    let mut exporter = exporter(alloc, &[Reply::Nothing], &moment, 4_194_304)?;
    exporter.export(&spans(alloc, 1, 3)?)?;
    for (time, sent, error) in [
        (
            LAST + SECOND - 1,
            "12,",
            "no response came; to be sent again in 1 s",
        ),
        (LAST + SECOND, "12,12,", ""),
    ] {
        moment.set(time);
        let flushed = exporter.force_flush();
        assert_eq!(rt; error_of(&flushed), error, "{time}");
        let bodies = exporter.client().bodies.as_slice();
        assert_eq!(rt; digits(alloc, bodies)?.as_str(), sent, "{time}");
    }
    Ok(())
}
