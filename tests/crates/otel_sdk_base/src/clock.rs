//! The times that clocks show: the system's, from sources whose answers are known, and one that is set.
use otel_sdk_base::{Clock, ManualClock, SystemClock};
use std::io::{self, ErrorKind};
use std::test::Fail;
use std::time::Duration;

/// A source that shows this time after 1970, or can't be read.
#[derive(Drop)]
struct Source {
    since_1970: Option<Duration>,
}

impl std::time::Clock for Source {
    fn monotonic(&self) -> io::Result<Duration> {
        Err(io::Error::from(ErrorKind::Unsupported))
    }

    fn since_1970(&self) -> io::Result<Duration> {
        match self.since_1970 {
            Some(time) => Ok(time),
            None => Err(io::Error::from(ErrorKind::Unsupported)),
        }
    }
}

/// Returns the time that a clock shows if this is its source's.
fn shown(since_1970: Option<Duration>) -> u64 {
    SystemClock::new(Source { since_1970 }).now()
}

#[test]
fn a_clock_shows_its_source_s_time(rt: HostRuntime) -> Result<(), Fail> {
    assert_eq!(rt;
        shown(Some(Duration::new(1_760_000_000, 7))),
        1_760_000_000_000_000_007
    );
    assert_eq!(rt; shown(Some(Duration::new(0, 0))), 0);
    // 2 ^ 64 - 1 nanoseconds, in the year 2554, and one more.
    assert_eq!(rt;
        shown(Some(Duration::new(18_446_744_073, 709_551_615))),
        u64::MAX
    );
    assert_eq!(rt;
        shown(Some(Duration::new(18_446_744_073, 709_551_616))),
        u64::MAX
    );
    assert_eq!(rt; shown(None), 0);
    Ok(())
}

/// Times below a second, at one and above, up to the last.
const TIMES: &[u64] = &[
    0,
    1,
    255,
    256,
    999_999_999,
    1_000_000_000,
    1_000_000_001,
    1_760_000_000_999_999_999,
    u64::MAX,
];

#[test]
fn a_manual_clock_shows_each_nanosecond(rt: HostRuntime) -> Result<(), Fail> {
    let set = ManualClock::new(0);
    for time in TIMES {
        assert_eq!(rt; ManualClock::new(*time).now(), *time);
        set.set(*time);
        assert_eq!(rt; set.now(), *time);
        // Reading it again doesn't change it.
        assert_eq!(rt; set.now(), *time);
    }
    Ok(())
}
