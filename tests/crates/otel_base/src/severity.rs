//! Severities.
use otel_base::Severity;

static SEVERITIES: [(Severity, &str, u8); 24] = [
    (Severity::Trace, "TRACE", 1),
    (Severity::Trace2, "TRACE2", 2),
    (Severity::Trace3, "TRACE3", 3),
    (Severity::Trace4, "TRACE4", 4),
    (Severity::Debug, "DEBUG", 5),
    (Severity::Debug2, "DEBUG2", 6),
    (Severity::Debug3, "DEBUG3", 7),
    (Severity::Debug4, "DEBUG4", 8),
    (Severity::Info, "INFO", 9),
    (Severity::Info2, "INFO2", 10),
    (Severity::Info3, "INFO3", 11),
    (Severity::Info4, "INFO4", 12),
    (Severity::Warn, "WARN", 13),
    (Severity::Warn2, "WARN2", 14),
    (Severity::Warn3, "WARN3", 15),
    (Severity::Warn4, "WARN4", 16),
    (Severity::Error, "ERROR", 17),
    (Severity::Error2, "ERROR2", 18),
    (Severity::Error3, "ERROR3", 19),
    (Severity::Error4, "ERROR4", 20),
    (Severity::Fatal, "FATAL", 21),
    (Severity::Fatal2, "FATAL2", 22),
    (Severity::Fatal3, "FATAL3", 23),
    (Severity::Fatal4, "FATAL4", 24),
];

#[test]
fn severities_have_the_names_and_numbers_of_the_data_model(rt: HostRuntime) {
    for (severity, name, number) in &SEVERITIES {
        assert_eq!(rt; severity.name(), *name);
        assert_eq!(rt; severity.number(), *number);
        assert!(rt; *severity <= Severity::Fatal4);
    }
    assert!(rt; Severity::Fatal4 > Severity::Error);
    assert!(rt; Severity::Trace < Severity::Trace2);
    assert!(rt; Severity::Warn == Severity::Warn);
}
