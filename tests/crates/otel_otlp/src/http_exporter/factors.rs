//! The factors of the waits, which are drawn.
use crate::http_exporter::told::{Reply, Shown, Told, told};
use crate::http_exporter::{NOW, spans};
use otel_otlp::{OtlpHttpConfig, OtlpHttpExporter, OtlpHttpSpanExporter};
use otel_sdk_base::Exporter;
use std::cell::Cell;
use std::io::{self, ErrorKind};
use std::random::RandomSource;
use std::test::Fail;

/// A source that gives a number, its lower byte first, or that fails.
#[derive(Drop)]
struct Numbered {
    number: Option<u16>,
}

impl RandomSource for Numbered {
    fn fill_bytes(&self, buf: &mut [u8]) -> io::Result<()> {
        let Some(number) = self.number else {
            return Err(ErrorKind::Other.into());
        };
        let mut rest = number;
        for byte in buf {
            *byte = (rest % 256) as u8;
            rest /= 256;
        }
        Ok(())
    }
}

#[test]
fn a_wait_is_multiplied_by_the_drawn_factor(rt: HostRuntime) -> Result<(), Fail> {
    let alloc = rt.alloc();
    for (number, millis) in [
        (Some(0), 800),
        (Some(200), 1000),
        (Some(400), 1200),
        (Some(401), 800),
        (Some(u16::MAX), 972),
        (None, 1000),
    ] {
        let moment = Cell::new(NOW);
        let mut exporter: OtlpHttpSpanExporter<Told, Numbered, Shown<'_>> = OtlpHttpExporter::new(
            alloc,
            told(alloc, &[Reply::Nothing])?,
            OtlpHttpConfig::new(alloc)?,
            Numbered { number },
            Shown { moment: &moment },
        )?;
        exporter.export(&spans(alloc, 1, 2)?)?;
        assert_eq!(rt; exporter.not_before(), NOW + millis * 1_000_000, "{millis}");
    }
    Ok(())
}
