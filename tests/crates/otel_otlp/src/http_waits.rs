//! The waits before a refused request is sent again, and the headers of requests.
use otel_otlp::{Backoff, ConfigError, OtlpHttpConfig};
use std::test::Fail;

#[test]
fn refusals_in_a_row_double_the_wait(rt: HostRuntime) -> Result<(), Fail> {
    let mut backoff = Backoff::new();
    for wait in [1000, 2000, 4000, 8000, 16_000, 30_000, 30_000] {
        assert_eq!(rt; backoff.refused(1000, None), wait);
    }
    backoff.accepted();
    assert_eq!(rt; backoff.refused(1000, None), 1000);
    Ok(())
}

#[test]
fn a_longer_wait_of_the_collector_wins(rt: HostRuntime) -> Result<(), Fail> {
    // The factor in thousandths, the seconds that are asked for, and the wait in milliseconds.
    let rows = [
        (1000, None, 1000),
        (800, None, 800),
        (1200, None, 1200),
        (1200, Some(0), 1200),
        (1200, Some(1), 1200),
        (800, Some(1), 1000),
        (1000, Some(7), 7000),
        (1000, Some(u64::MAX), u64::MAX),
        (u16::MAX, None, 2000),
    ];
    for (factor, asked, wait) in rows {
        let mut backoff = Backoff::new();
        assert_eq!(rt; backoff.refused(factor, asked), wait);
    }
    Ok(())
}

#[test]
fn an_own_header_is_refused_by_name(rt: HostRuntime) -> Result<(), Fail> {
    let alloc = rt.alloc();
    let rows = [
        ("content-type", "x"),
        ("Content-Type", "x"),
        ("CONTENT-LENGTH", "1"),
        ("Host", "h"),
        ("", "x"),
        ("a b", "x"),
        ("a\r\nb", "x"),
        ("a", "x\r\nb: c"),
        ("a", "x\ny"),
        ("a", "x\ry"),
        ("a", "x\0y"),
    ];
    for (name, value) in rows {
        let names = match OtlpHttpConfig::new(alloc)?.with_header(alloc, name, value) {
            Err(ConfigError::Header(refused)) => refused.as_str() == name,
            _ => false,
        };
        assert!(rt; names, "{name}: {value}");
    }
    Ok(())
}

#[test]
fn other_headers_are_set(rt: HostRuntime) -> Result<(), Fail> {
    let alloc = rt.alloc();
    for (name, value) in [
        ("authorization", "Bearer x"),
        ("User-Agent", "mine"),
        ("a", ""),
    ] {
        assert!(rt;
            OtlpHttpConfig::new(alloc)?
                .with_header(alloc, name, value)
                .is_ok()
        );
    }
    Ok(())
}

#[test]
fn a_longer_wait_counts_as_a_refusal(rt: HostRuntime) -> Result<(), Fail> {
    let mut backoff = Backoff::new();
    assert_eq!(rt; backoff.refused(1000, None), 1000);
    assert_eq!(rt; backoff.refused(1000, Some(7)), 7000);
    backoff.accepted();
    assert_eq!(rt; backoff.refused(1000, None), 1000);
    Ok(())
}

#[test]
fn a_configuration_is_built_in_steps(rt: HostRuntime) -> Result<(), Fail> {
    let alloc = rt.alloc();
    let config = OtlpHttpConfig::new(alloc)?
        .with_endpoint(String::from_str(alloc, "https://collector.example:4318")?)
        .with_header(alloc, "authorization", "Bearer x")?;
    let config = config.with_max_body(1_000_000);
    assert!(rt; config.with_header(alloc, "host", "h").is_err());
    Ok(())
}
