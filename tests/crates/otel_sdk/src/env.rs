//! The configuration by environment variables: each variable, and the effect of its faults.
use opentelemetry::trace::Tracing;
use opentelemetry::{StringValue, Value};
use otel_sdk::EnvConfig;
use otel_sdk::env::{EnvEndpoint, EnvExporter, EnvPropagator, EnvSampler};
use otel_sdk::trace::{
    Build, Exports, FinishedSpans, InMemorySpanExporter, Sampler, TracingBuilder, WithExporter,
};
use std::alloc::Global;
use std::test::Fail;

/// The variables as `std::env::vars` gives them.
pub fn owned(alloc: Global, vars: &[(&str, &str)]) -> Result<Vec<(String, String)>, Fail> {
    let mut owned = Vec::new(alloc);
    for (name, text) in vars {
        owned.push((
            String::from_str(alloc, name)?,
            String::from_str(alloc, text)?,
        ))?;
    }
    Ok(owned)
}

/// The configuration of these variables.
pub fn config(alloc: Global, vars: &[(&str, &str)]) -> Result<EnvConfig, Fail> {
    let vars = owned(alloc, vars)?;
    Ok(EnvConfig::from_vars(alloc, vars.as_slice())?)
}

/// The warnings, a line each.
fn warnings(alloc: Global, config: &EnvConfig) -> Result<String, Fail> {
    let mut text = String::new(alloc);
    for warning in &config.warnings {
        let line = format!(in alloc; "{warning}\n")?;
        text.push_str(line.as_str())?;
    }
    Ok(text)
}

/// Whether these are the warnings.
pub fn warns(alloc: Global, config: &EnvConfig, lines: &str) -> Result<bool, Fail> {
    Ok(warnings(alloc, config)?.as_str() == lines)
}

#[test]
fn defaults_count_without_variables(rt: HostRuntime) -> Result<(), Fail> {
    let alloc = rt.alloc();
    let config = config(alloc, &[])?;
    assert!(rt; config.warnings.is_empty());
    assert!(rt; !config.is_disabled);
    assert!(rt; config.propagators.len() == 2);
    assert!(rt; config.propagators[0] == EnvPropagator::TraceContext);
    assert!(rt; config.propagators[1] == EnvPropagator::Baggage);
    assert!(rt; config.sampler == EnvSampler::ParentBased(Sampler::AlwaysOn));
    assert!(rt; config.span_limits.max_attributes_per_span == 128);
    assert!(rt; config.span_limits.max_attribute_length.is_none());
    assert!(rt; config.log_limits.max_attributes_per_record == 128);
    assert!(rt; config.span_batches.max_queue_size == 2048);
    assert!(rt; config.span_batches.max_export_batch_size == 512);
    assert!(rt; config.span_batches.schedule_delay_millis == 5000);
    assert!(rt; config.log_batches.schedule_delay_millis == 1000);
    assert!(rt; config.log_batches.export_timeout_millis == 30000);
    assert!(rt; config.traces_exporter == EnvExporter::Otlp);
    assert!(rt; config.otlp_timeout_millis == 10000);
    assert!(rt; config.otlp_logs.headers.as_str().is_empty());
    assert!(rt; is_base(&config.otlp_traces.endpoint, "http://localhost:4318"));
    Ok(())
}

#[test]
fn empty_counts_as_not_set(rt: HostRuntime) -> Result<(), Fail> {
    let config = config(
        rt.alloc(),
        &[
            ("OTEL_SPAN_EVENT_COUNT_LIMIT", ""),
            ("OTEL_PROPAGATORS", " "),
            ("OTEL_TRACES_SAMPLER", ""),
            ("OTEL_BSP_MAX_QUEUE_SIZE", ""),
            ("OTEL_SDK_DISABLED", ""),
        ],
    )?;
    assert!(rt; config.warnings.is_empty());
    assert!(rt; config.span_limits.max_events_per_span == 128);
    assert!(rt; config.propagators.len() == 2);
    assert!(rt; config.span_batches.max_queue_size == 2048);
    Ok(())
}

#[test]
fn first_of_two_texts_counts(rt: HostRuntime) -> Result<(), Fail> {
    let name = "OTEL_SPAN_LINK_COUNT_LIMIT";
    let config = config(rt.alloc(), &[(name, "3"), (name, "x")])?;
    assert!(rt; config.warnings.is_empty());
    assert!(rt; config.span_limits.max_links_per_span == 3);
    Ok(())
}

#[test]
fn propagators_are_listed_once(rt: HostRuntime) -> Result<(), Fail> {
    let alloc = rt.alloc();
    let name = "OTEL_PROPAGATORS";
    let twice = config(alloc, &[(name, " baggage , tracecontext,baggage,zipkin")])?;
    assert!(rt; twice.propagators.len() == 2);
    assert!(rt; twice.propagators[0] == EnvPropagator::Baggage);
    assert!(rt; twice.propagators[1] == EnvPropagator::TraceContext);
    assert!(rt;
        warns(
            alloc,
            &twice,
            "OTEL_PROPAGATORS can't be \"zipkin\": it is left out\n"
        )?
    );
    let none = config(alloc, &[(name, "none")])?;
    assert!(rt; none.propagators.is_empty());
    assert!(rt; none.warnings.is_empty());
    let beside = config(alloc, &[(name, "none,b3")])?;
    assert!(rt; beside.propagators.len() == 1);
    assert!(rt; beside.propagators[0] == EnvPropagator::B3);
    assert!(rt;
        warns(
            alloc,
            &beside,
            "OTEL_PROPAGATORS can't be \"none\": it is left out\n"
        )?
    );
    Ok(())
}

#[test]
fn propagators_have_any_case_and_defaults(rt: HostRuntime) -> Result<(), Fail> {
    let alloc = rt.alloc();
    let w3c = "[TraceContext, Baggage]";
    let default = "tracecontext,baggage counts instead\n";
    for (text, wanted, faulty, instead) in [
        ("TraceContext", "[TraceContext]", "", ""),
        ("B3,b3Multi", "[B3, B3Multi]", "", ""),
        ("None", "[]", "", ""),
        ("jaeger", w3c, "jaeger", default),
        (",", w3c, ",", default),
        ("jaeger,b3", "[B3]", "jaeger", "it is left out\n"),
        ("NONE,jaeger", "[]", "jaeger", "it is left out\n"),
    ] {
        let config = config(alloc, &[("OTEL_PROPAGATORS", text)])?;
        let propagators = &config.propagators;
        let named = format!(in alloc; "{propagators:?}")?;
        assert!(rt; named.as_str() == wanted);
        let line = format!(in alloc; "OTEL_PROPAGATORS can't be {faulty:?}: {instead}")?;
        let lines = if faulty.is_empty() { "" } else { line.as_str() };
        assert!(rt; warns(alloc, &config, lines)?);
    }
    Ok(())
}

/// The sampler of the name and the argument, and the number of warnings.
fn sampler(alloc: Global, name: &str, arg: &str) -> Result<(EnvSampler, usize), Fail> {
    let vars = [
        ("OTEL_TRACES_SAMPLER", name),
        ("OTEL_TRACES_SAMPLER_ARG", arg),
    ];
    let config = config(alloc, &vars)?;
    Ok((config.sampler, config.warnings.len()))
}

/// The sampler of a ratio.
fn of_ratio(ratio: f64) -> EnvSampler {
    EnvSampler::Plain(Sampler::TraceIdRatioBased(ratio))
}

#[test]
fn ratio_is_from_0_to_1(rt: HostRuntime) -> Result<(), Fail> {
    let alloc = rt.alloc();
    for (text, ratio, faults) in [
        ("0.25", 0.25, 0),
        ("0", 0.0, 0),
        ("1", 1.0, 0),
        ("1.5", 1.0, 1),
        ("-0.5", 1.0, 1),
        ("x", 1.0, 1),
        ("nan", 1.0, 1),
        ("inf", 1.0, 1),
        ("", 1.0, 0),
    ] {
        let (sampler, warned) = sampler(alloc, "traceidratio", text)?;
        assert!(rt; sampler == of_ratio(ratio));
        assert!(rt; warned == faults);
    }
    Ok(())
}

#[test]
fn sampler_has_its_name(rt: HostRuntime) -> Result<(), Fail> {
    let alloc = rt.alloc();
    let default = EnvSampler::ParentBased(Sampler::AlwaysOn);
    for (name, wanted, faults) in [
        ("always_on", EnvSampler::Plain(Sampler::AlwaysOn), 0),
        ("always_off", EnvSampler::Plain(Sampler::AlwaysOff), 0),
        ("parentbased_always_on", default, 0),
        (
            "parentbased_always_off",
            EnvSampler::ParentBased(Sampler::AlwaysOff),
            0,
        ),
        ("ALWAYS_OFF", EnvSampler::Plain(Sampler::AlwaysOff), 0),
        ("ParentBased_Always_On", default, 0),
        ("sometimes", default, 1),
    ] {
        let (sampler, warned) = sampler(alloc, name, "x")?;
        assert!(rt; sampler == wanted);
        assert!(rt; warned == faults);
    }
    let (half, _) = sampler(alloc, "parentbased_traceidratio", "0.5")?;
    assert!(rt; half == EnvSampler::ParentBased(Sampler::TraceIdRatioBased(0.5)));
    Ok(())
}

#[test]
fn numbers_have_digits_alone(rt: HostRuntime) -> Result<(), Fail> {
    let alloc = rt.alloc();
    for (text, limit, faults) in [
        ("0", 0, 0),
        (" 7 ", 7, 0),
        ("4294967295", u32::MAX, 0),
        ("-1", 128, 1),
        ("+1", 128, 1),
        ("4294967296", 128, 1),
        ("1e3", 128, 1),
    ] {
        let config = config(alloc, &[("OTEL_SPAN_EVENT_COUNT_LIMIT", text)])?;
        assert!(rt; config.span_limits.max_events_per_span == limit);
        assert!(rt; config.warnings.len() == faults);
    }
    Ok(())
}

#[test]
fn own_limit_wins(rt: HostRuntime) -> Result<(), Fail> {
    let alloc = rt.alloc();
    let general = ("OTEL_ATTRIBUTE_COUNT_LIMIT", "5");
    let own = ("OTEL_SPAN_ATTRIBUTE_COUNT_LIMIT", "6");
    let both = config(alloc, &[general, own])?;
    assert!(rt; both.span_limits.max_attributes_per_span == 6);
    assert!(rt; both.log_limits.max_attributes_per_record == 5);
    let alone = config(alloc, &[general])?;
    assert!(rt; alone.span_limits.max_attributes_per_span == 5);
    let lengths = [
        ("OTEL_ATTRIBUTE_VALUE_LENGTH_LIMIT", "9"),
        ("OTEL_SPAN_ATTRIBUTE_VALUE_LENGTH_LIMIT", "x"),
    ];
    let faulty = config(alloc, &lengths)?;
    assert!(rt; faulty.span_limits.max_attribute_length == Some(9));
    let line = "OTEL_SPAN_ATTRIBUTE_VALUE_LENGTH_LIMIT can't be \"x\": 9 counts instead\n";
    assert!(rt; warns(alloc, &faulty, line)?);
    Ok(())
}

#[test]
fn batch_is_at_most_the_queue(rt: HostRuntime) -> Result<(), Fail> {
    let alloc = rt.alloc();
    let queue = ("OTEL_BSP_MAX_QUEUE_SIZE", "10");
    let unset = config(alloc, &[queue])?;
    assert!(rt; unset.span_batches.max_queue_size == 10);
    assert!(rt; unset.span_batches.max_export_batch_size == 10);
    assert!(rt; unset.log_batches.max_export_batch_size == 512);
    assert!(rt; unset.warnings.is_empty());
    let more = config(alloc, &[queue, ("OTEL_BSP_MAX_EXPORT_BATCH_SIZE", "11")])?;
    assert!(rt; more.span_batches.max_export_batch_size == 10);
    let line = "OTEL_BSP_MAX_EXPORT_BATCH_SIZE can't be \"11\": 10 counts instead\n";
    assert!(rt; warns(alloc, &more, line)?);
    let zero = config(alloc, &[("OTEL_BLRP_MAX_QUEUE_SIZE", "0")])?;
    assert!(rt; zero.log_batches.max_queue_size == 2048);
    assert!(rt; zero.warnings.len() == 1);
    Ok(())
}

#[test]
fn disabled_is_true_in_any_case(rt: HostRuntime) -> Result<(), Fail> {
    let alloc = rt.alloc();
    for (text, disabled, faults) in [("TRUE", true, 0), ("False", false, 0), ("1", false, 1)] {
        let config = config(alloc, &[("OTEL_SDK_DISABLED", text)])?;
        assert!(rt; config.is_disabled == disabled);
        assert!(rt; config.warnings.len() == faults);
    }
    Ok(())
}

/// Whether the endpoint is the base.
pub fn is_base(endpoint: &EnvEndpoint, text: &str) -> bool {
    match endpoint {
        EnvEndpoint::Base(base) => base.as_str() == text,
        EnvEndpoint::Exact(_) => false,
    }
}

#[test]
fn own_endpoint_and_headers_win(rt: HostRuntime) -> Result<(), Fail> {
    let alloc = rt.alloc();
    let vars = [
        ("OTEL_EXPORTER_OTLP_ENDPOINT", "http://h"),
        ("OTEL_EXPORTER_OTLP_TRACES_ENDPOINT", "http://h/a"),
        ("OTEL_EXPORTER_OTLP_HEADERS", "a=1"),
        ("OTEL_EXPORTER_OTLP_LOGS_HEADERS", "b=2"),
        ("OTEL_EXPORTER_OTLP_PROTOCOL", "grpc"),
        ("OTEL_TRACES_EXPORTER", "none"),
        ("OTEL_LOGS_EXPORTER", "file"),
    ];
    let config = config(alloc, &vars)?;
    match &config.otlp_traces.endpoint {
        EnvEndpoint::Exact(text) => assert!(rt; text.as_str() == "http://h/a"),
        EnvEndpoint::Base(_) => assert!(rt; false),
    }
    assert!(rt; is_base(&config.otlp_logs.endpoint, "http://h"));
    assert!(rt; config.otlp_traces.headers.as_str() == "a=1");
    assert!(rt; config.otlp_logs.headers.as_str() == "b=2");
    assert!(rt; config.traces_exporter == EnvExporter::Nothing);
    let lines = "OTEL_LOGS_EXPORTER can't be \"file\": otlp counts instead
OTEL_EXPORTER_OTLP_PROTOCOL can't be \"grpc\": http/json counts instead
";
    assert!(rt; warns(alloc, &config, lines)?);
    Ok(())
}

#[test]
fn warning_is_one_line(rt: HostRuntime) -> Result<(), Fail> {
    let alloc = rt.alloc();
    let config = config(alloc, &[("OTEL_TRACES_SAMPLER", "a\nb\"")])?;
    let line = "OTEL_TRACES_SAMPLER can't be \"a\\nb\\\"\": parentbased_always_on counts instead\n";
    assert!(rt; warns(alloc, &config, line)?);
    Ok(())
}

#[test]
fn resource_updates_the_default(rt: HostRuntime) -> Result<(), Fail> {
    let alloc = rt.alloc();
    let vars = [
        ("OTEL_SERVICE_NAME", "shop"),
        ("OTEL_RESOURCE_ATTRIBUTES", "service.name=x,host.name=h%2C"),
    ];
    let resource = config(alloc, &vars)?.resource(alloc)?;
    assert!(rt; resource.len() == 5);
    assert!(rt; resource.get("service.name") == Some(&Value::String(StringValue::from("shop"))));
    assert!(rt; resource.get("host.name") == Some(&Value::String(StringValue::from("h,"))));
    let faulty = config(alloc, &[("OTEL_RESOURCE_ATTRIBUTES", "a=1,b")])?;
    assert!(rt; faulty.resource(alloc)?.len() == 4);
    assert!(rt; faulty.warnings.len() == 1);
    Ok(())
}

/// The number of spans that arrive under these variables: one span is started.
fn arrived(rt: HostRuntime, vars: &[(&str, &str)]) -> Result<usize, Fail> {
    let alloc = rt.alloc();
    let vars = owned(alloc, vars)?;
    let config = EnvConfig::from_vars(alloc, vars.as_slice())?;
    let mut tracing = TracingBuilder::new(rt)
        .with_env(alloc, &config)?
        .counted(1)
        .with_exporter(InMemorySpanExporter::new(alloc))
        .build(alloc, "shop")?;
    let span = tracing.enter("work")?;
    tracing.exit(span);
    tracing.flush()?;
    Ok(
        tracing
            .processors()
            .1
            .exporter()
            .get_finished_spans()?
            .len(),
    )
}

#[test]
fn tracing_obeys_the_environment(rt: HostRuntime) -> Result<(), Fail> {
    assert!(rt; arrived(rt, &[])? == 1);
    assert!(rt; arrived(rt, &[("OTEL_TRACES_SAMPLER", "always_off")])? == 0);
    assert!(rt; arrived(rt, &[("OTEL_SDK_DISABLED", "true")])? == 0);
    Ok(())
}

#[test]
fn help_names_each_variable(rt: HostRuntime) -> Result<(), Fail> {
    let alloc = rt.alloc();
    assert!(rt; EnvConfig::HELP.ends_with("\n"));
    let mut named = 0;
    for line in EnvConfig::HELP.lines() {
        if line.starts_with("OTEL_") {
            named += 1;
        } else {
            assert!(rt; line.starts_with("    "));
        }
    }
    assert_eq!(rt; named, 38);
    // Whatever is read from a faulty text is in the help.
    for name in [
        "OTEL_PROPAGATORS",
        "OTEL_BLRP_SCHEDULE_DELAY",
        "OTEL_LOGS_EXPORTER",
    ] {
        let config = config(alloc, &[(name, "x")])?;
        assert!(rt; EnvConfig::HELP.contains(config.warnings[0].name.as_str()));
    }
    Ok(())
}
