//! The variables of exports by OTLP: what counts of each, and the warnings about what doesn't.
use crate::env::{config, is_base, warns};
use otel_sdk::EnvConfig;
use otel_sdk::env::{EnvEndpoint, EnvFault, Instead};
use std::alloc::Global;
use std::test::Fail;

const LOCAL: &str = "http://localhost:4318";

const ALL: &str = "OTEL_EXPORTER_OTLP_ENDPOINT";

const TRACES: &str = "OTEL_EXPORTER_OTLP_TRACES_ENDPOINT";

const LOGS: &str = "OTEL_EXPORTER_OTLP_LOGS_ENDPOINT";

const HEADERS: &str = "OTEL_EXPORTER_OTLP_HEADERS";

/// The texts of an endpoint that don't count, how a warning shows them, and why they don't.
const FAULTY: [(&str, &str, &str); 16] = [
    ("a:4318", "a:4318", "its scheme isn't http or https"),
    ("a", "a", "its scheme isn't http or https"),
    ("/v1/traces", "/v1/traces", "its scheme isn't http or https"),
    ("grpc://a:1", "grpc://a:1", "its scheme isn't http or https"),
    ("ftp://a#b", "ftp://a#b", "its scheme isn't http or https"),
    ("http://", "http://", "it isn't a URL with a host"),
    ("http:///a", "http:///a", "it isn't a URL with a host"),
    ("http://:4318", "http://:4318", "it isn't a URL with a host"),
    ("http://a b", "http://a b", "it isn't a URL with a host"),
    ("http://a/b c", "http://a/b c", "it isn't a URL with a host"),
    (
        "http://a/\u{e4}",
        "http://a/\u{e4}",
        "it isn't a URL with a host",
    ),
    (
        "http://\u{e4}",
        "http://\u{e4}",
        "it isn't a URL with a host",
    ),
    ("http://user:pw@a", "..", "it has user information"),
    ("https://user@a/b", "..", "it has user information"),
    ("http://user:pw@", "..", "it isn't a URL with a host"),
    ("ftp://user:pw@a", "..", "its scheme isn't http or https"),
];

/// Texts of an endpoint that count.
const GOOD: [&str; 6] = [
    "http://a",
    "https://a:4318/b/",
    "HTTP://A",
    "http://[::1]:4318",
    "http://127.0.0.1/a@b",
    "http://a/%20",
];

/// Whether the endpoint is the one of a signal.
fn is_exact(endpoint: &EnvEndpoint, text: &str) -> bool {
    match endpoint {
        EnvEndpoint::Exact(own) => own.as_str() == text,
        EnvEndpoint::Base(_) => false,
    }
}

/// Whether the one warning is that the variable counts as unset.
fn is_unset(
    alloc: Global,
    config: &EnvConfig,
    name: &str,
    shown: &str,
    reason: &str,
) -> Result<bool, Fail> {
    let line = format!(in alloc; "{name} can't be {shown:?}: {reason}, and counts as unset\n")?;
    warns(alloc, config, line.as_str())
}

#[test]
fn a_faulty_endpoint_counts_as_unset(rt: HostRuntime) -> Result<(), Fail> {
    let alloc = rt.alloc();
    for (text, shown, reason) in FAULTY {
        let env = config(alloc, &[(ALL, text)])?;
        assert!(rt; is_unset(alloc, &env, ALL, shown, reason)?, "{text}");
        assert!(rt; is_base(&env.otlp_traces.endpoint, LOCAL), "{text}");
        assert!(rt; is_base(&env.otlp_logs.endpoint, LOCAL), "{text}");
        let env = config(alloc, &[(ALL, "http://all"), (LOGS, text)])?;
        assert!(rt; is_unset(alloc, &env, LOGS, shown, reason)?, "{text}");
        assert!(rt; is_base(&env.otlp_traces.endpoint, "http://all"), "{text}");
        assert!(rt; is_base(&env.otlp_logs.endpoint, "http://all"), "{text}");
        let env = config(alloc, &[(ALL, text), (TRACES, "http://own")])?;
        assert!(rt; is_unset(alloc, &env, ALL, shown, reason)?, "{text}");
        assert!(rt; is_exact(&env.otlp_traces.endpoint, "http://own"), "{text}");
        assert!(rt; is_base(&env.otlp_logs.endpoint, LOCAL), "{text}");
    }
    Ok(())
}

#[test]
fn a_good_endpoint_counts(rt: HostRuntime) -> Result<(), Fail> {
    let alloc = rt.alloc();
    for text in GOOD {
        let env = config(alloc, &[(ALL, text)])?;
        assert!(rt; env.warnings.is_empty(), "{text}");
        assert!(rt; is_base(&env.otlp_traces.endpoint, text), "{text}");
        let env = config(alloc, &[(ALL, "a"), (TRACES, text), (LOGS, text)])?;
        assert_eq!(rt; env.warnings.len(), 1, "{text}");
        assert!(rt; is_exact(&env.otlp_traces.endpoint, text), "{text}");
        assert!(rt; is_exact(&env.otlp_logs.endpoint, text), "{text}");
    }
    Ok(())
}

#[test]
fn only_the_endpoint_of_a_signal_has_a_query(rt: HostRuntime) -> Result<(), Fail> {
    let alloc = rt.alloc();
    for text in ["http://a?b", "http://a/?b=c", "http://a/b#c"] {
        let env = config(alloc, &[(ALL, text)])?;
        let reason = "it has a query or a fragment";
        assert!(rt; is_unset(alloc, &env, ALL, text, reason)?, "{text}");
        assert!(rt; is_base(&env.otlp_logs.endpoint, LOCAL), "{text}");
        let env = config(alloc, &[(LOGS, text)])?;
        assert!(rt; env.warnings.is_empty(), "{text}");
        assert!(rt; is_exact(&env.otlp_logs.endpoint, text), "{text}");
    }
    Ok(())
}

/// The pieces of a list of headers that are left out, and how a warning shows them.
const LEFT_OUT: [(&str, &str); 20] = [
    ("a b=1", "a b"),
    ("a%20b=1", "a%20b"),
    ("n:=1", "n:"),
    ("c", "c"),
    ("=d", "="),
    (" = ", "="),
    ("api-key=%zz", "api-key"),
    ("api-key=%f", "api-key"),
    ("api-key=%ff", "api-key"),
    ("%zz=1", "%zz"),
    ("a=x%0Dy", "a"),
    ("a=x%0A", "a"),
    ("a=%00", "a"),
    ("a=%20b", "a"),
    ("a=b%20", "a"),
    ("a=%09", "a"),
    ("Content-Type=x", "Content-Type"),
    ("content-length=1", "content-length"),
    ("TRANSFER-ENCODING=chunked", "TRANSFER-ENCODING"),
    ("host=a", "host"),
];

/// Pieces that are kept.
const KEPT: [&str; 7] = [
    "a=1",
    "a=",
    "%61=1",
    "a=b%20c",
    "a=%C3%A4%2C",
    "x = y",
    "a=1=2",
];

#[test]
fn a_faulty_header_is_left_out(rt: HostRuntime) -> Result<(), Fail> {
    let alloc = rt.alloc();
    for (piece, shown) in LEFT_OUT {
        let list = format!(in alloc; "k=1, {piece} ,l=2")?;
        let env = config(alloc, &[(HEADERS, list.as_str())])?;
        let line = format!(in alloc; "{HEADERS} can't be {shown:?}: it is left out\n")?;
        assert!(rt; warns(alloc, &env, line.as_str())?, "{piece}");
        assert_eq!(rt; env.otlp_traces.headers.as_str(), "k=1,l=2", "{piece}");
        assert_eq!(rt; env.otlp_logs.headers.as_str(), "k=1,l=2", "{piece}");
    }
    for piece in KEPT {
        let env = config(alloc, &[(HEADERS, piece)])?;
        assert!(rt; env.warnings.is_empty(), "{piece}");
        assert_eq!(rt; env.otlp_traces.headers.as_str(), piece);
    }
    Ok(())
}

#[test]
fn own_headers_count_if_all_are_left_out(rt: HostRuntime) -> Result<(), Fail> {
    let alloc = rt.alloc();
    let own = ("OTEL_EXPORTER_OTLP_TRACES_HEADERS", "n:=1,host=x");
    let env = config(alloc, &[(HEADERS, "a=1"), own])?;
    assert!(rt; env.otlp_traces.headers.as_str().is_empty());
    assert_eq!(rt; env.otlp_logs.headers.as_str(), "a=1");
    let lines = "OTEL_EXPORTER_OTLP_TRACES_HEADERS can't be \"n:\": it is left out
OTEL_EXPORTER_OTLP_TRACES_HEADERS can't be \"host\": it is left out
";
    assert!(rt; warns(alloc, &env, lines)?);
    Ok(())
}

/// A text of this length that begins so, and goes on with the letter x.
fn padded(alloc: Global, front: &str, length: usize) -> Result<String, Fail> {
    let mut text = String::from_str(alloc, front)?;
    while text.len() < length {
        text.push('x')?;
    }
    Ok(text)
}

#[test]
fn a_long_text_counts_as_unset(rt: HostRuntime) -> Result<(), Fail> {
    let alloc = rt.alloc();
    for (name, front) in [(ALL, "http://a/"), (HEADERS, "a=1,b=")] {
        let most = padded(alloc, front, 65_000)?;
        let env = config(alloc, &[(name, most.as_str())])?;
        assert!(rt; env.warnings.is_empty(), "{name}");
        let more = padded(alloc, front, 65_001)?;
        let env = config(alloc, &[(name, more.as_str())])?;
        let reason = "it has more than 65000 bytes";
        assert!(rt; is_unset(alloc, &env, name, "..", reason)?, "{name}");
        assert!(rt;
            env.warnings[0].instead == Instead::Unset(EnvFault::Length),
            "{name}"
        );
        assert!(rt; is_base(&env.otlp_traces.endpoint, LOCAL), "{name}");
        assert!(rt; env.otlp_traces.headers.as_str().is_empty(), "{name}");
    }
    Ok(())
}

/// The variables that aren't supported, in the order of their warnings.
pub const UNSUPPORTED: [&str; 17] = [
    "OTEL_CONFIG_FILE",
    "OTEL_LOG_LEVEL",
    "OTEL_LOGRECORD_ATTRIBUTE_VALUE_LENGTH_LIMIT",
    "OTEL_EXPORTER_OTLP_TRACES_TIMEOUT",
    "OTEL_EXPORTER_OTLP_LOGS_TIMEOUT",
    "OTEL_EXPORTER_OTLP_INSECURE",
    "OTEL_EXPORTER_OTLP_TRACES_INSECURE",
    "OTEL_EXPORTER_OTLP_LOGS_INSECURE",
    "OTEL_EXPORTER_OTLP_CERTIFICATE",
    "OTEL_EXPORTER_OTLP_TRACES_CERTIFICATE",
    "OTEL_EXPORTER_OTLP_LOGS_CERTIFICATE",
    "OTEL_EXPORTER_OTLP_CLIENT_KEY",
    "OTEL_EXPORTER_OTLP_TRACES_CLIENT_KEY",
    "OTEL_EXPORTER_OTLP_LOGS_CLIENT_KEY",
    "OTEL_EXPORTER_OTLP_CLIENT_CERTIFICATE",
    "OTEL_EXPORTER_OTLP_TRACES_CLIENT_CERTIFICATE",
    "OTEL_EXPORTER_OTLP_LOGS_CLIENT_CERTIFICATE",
];

#[test]
fn what_is_not_supported_gives_a_warning(rt: HostRuntime) -> Result<(), Fail> {
    let alloc = rt.alloc();
    for name in UNSUPPORTED {
        let env = config(alloc, &[(name, "5")])?;
        assert!(rt;
            is_unset(alloc, &env, name, "5", "it is not supported")?,
            "{name}"
        );
        assert!(rt;
            config(alloc, &[(name, " ")])?.warnings.is_empty(),
            "{name}"
        );
    }
    for signal in ["", "TRACES_", "LOGS_"] {
        let name = format!(in alloc; "OTEL_EXPORTER_OTLP_{signal}COMPRESSION")?;
        let env = config(alloc, &[(name.as_str(), "gzip")])?;
        let reason = "it is not supported";
        assert!(rt;
            is_unset(alloc, &env, name.as_str(), "gzip", reason)?,
            "{name}"
        );
        assert!(rt;
            config(alloc, &[(name.as_str(), "None")])?
                .warnings
                .is_empty(),
            "{name}"
        );
        let name = format!(in alloc; "OTEL_EXPORTER_OTLP_{signal}PROTOCOL")?;
        let env = config(alloc, &[(name.as_str(), "grpc")])?;
        let line = format!(in alloc; "{name} can't be \"grpc\": http/json counts instead\n")?;
        assert!(rt; warns(alloc, &env, line.as_str())?, "{name}");
        assert!(rt;
            config(alloc, &[(name.as_str(), "HTTP/json")])?
                .warnings
                .is_empty()
        );
    }
    Ok(())
}

#[test]
fn warnings_are_in_the_order_of_the_variables(rt: HostRuntime) -> Result<(), Fail> {
    let alloc = rt.alloc();
    let vars = [
        ("OTEL_LOG_LEVEL", "debug"),
        ("OTEL_EXPORTER_OTLP_COMPRESSION", "gzip"),
        ("OTEL_EXPORTER_OTLP_PROTOCOL", "grpc"),
        ("OTEL_EXPORTER_OTLP_TIMEOUT", "long"),
        ("OTEL_EXPORTER_OTLP_LOGS_HEADERS", "b"),
        (HEADERS, "a=1,c"),
        (LOGS, "a:1"),
        (TRACES, "grpc://a"),
        (ALL, "http://u@a"),
        ("OTEL_LOGS_EXPORTER", "file"),
        ("OTEL_BLRP_MAX_QUEUE_SIZE", "0"),
    ];
    let lines = "OTEL_BLRP_MAX_QUEUE_SIZE can't be \"0\": 2048 counts instead
OTEL_LOGS_EXPORTER can't be \"file\": otlp counts instead
OTEL_EXPORTER_OTLP_ENDPOINT can't be \"..\": it has user information, and counts as unset
OTEL_EXPORTER_OTLP_TRACES_ENDPOINT can't be \"grpc://a\": its scheme isn't http or https, and counts as unset
OTEL_EXPORTER_OTLP_LOGS_ENDPOINT can't be \"a:1\": its scheme isn't http or https, and counts as unset
OTEL_EXPORTER_OTLP_HEADERS can't be \"c\": it is left out
OTEL_EXPORTER_OTLP_LOGS_HEADERS can't be \"b\": it is left out
OTEL_EXPORTER_OTLP_TIMEOUT can't be \"long\": 10000 counts instead
OTEL_EXPORTER_OTLP_PROTOCOL can't be \"grpc\": http/json counts instead
OTEL_EXPORTER_OTLP_COMPRESSION can't be \"gzip\": it is not supported, and counts as unset
OTEL_LOG_LEVEL can't be \"debug\": it is not supported, and counts as unset
";
    assert!(rt; warns(alloc, &config(alloc, &vars)?, lines)?);
    Ok(())
}
