//! A logger of the environment that writes lines.
use opentelemetry::logs::{Logger, Severity};
use otel_otlp::OtlpJsonLogExporter;
use otel_sdk::EnvConfig;
use otel_sdk::logs::SimpleLogProcessor;
use std::test::Fail;

#[test]
fn a_logger_of_the_environment_can_be_disabled(rt: HostRuntime) -> Result<(), Fail> {
    let alloc = rt.alloc();
    for (disabled, is_enabled) in [("false", true), ("true", false)] {
        let name = String::from_str(alloc, "OTEL_SDK_DISABLED")?;
        let config = EnvConfig::from_vars(alloc, &[(name, String::from_str(alloc, disabled)?)])?;
        let lines = SimpleLogProcessor::new(alloc, OtlpJsonLogExporter::new(alloc, rt.stderr())?)?;
        let logger = config.logger(alloc, rt, lines, "shop")?;
        assert_eq!(rt;
            logger.event_enabled(Severity::Error, "shop", None),
            is_enabled
        );
    }
    Ok(())
}
