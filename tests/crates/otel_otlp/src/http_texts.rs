//! The headers and the target of a configuration, also one that is read from the texts of environment
//! variables.
use crate::http_exporter::{headers_sent, target_sent};
use opentelemetry::StringValue;
use otel_otlp::{ConfigError, OtlpHttpConfig};
use otel_sdk::EnvConfig;
use otel_sdk::env::{EnvEndpoint, EnvOtlp};
use std::alloc::Global;
use std::test::Fail;

/// A list of headers, and the ones that are sent, between the exporter's name and the content type.
const LISTS: [(&str, &str); 12] = [
    ("", ""),
    (" , ,", ""),
    ("api-key=secret", "api-key=secret,"),
    ("a=1,b=2", "a=1,b=2,"),
    (" A = 1 , b= x y ", "a=1,b=x y,"),
    ("a=1,b=2,a=3", "a=3,b=2,"),
    ("A=1,a=2,A=3", "a=3,"),
    ("a=b%2Cc%3dd", "a=b,c=d,"),
    ("a=1=2,b=", "a=1=2,b=,"),
    ("%61=1", "a=1,"),
    ("a=%25", "a=%,"),
    ("authorization=Basic YTpi,,", "authorization=Basic YTpi,"),
];

#[test]
fn a_header_that_is_set_again_is_sent_once(rt: HostRuntime) -> Result<(), Fail> {
    let alloc = rt.alloc();
    let config = OtlpHttpConfig::new(alloc)?
        .with_header(alloc, "x-tenant", "a")?
        .with_header(alloc, "X-Tenant", "b")?
        .with_header(alloc, "user-agent", "mine")?;
    assert_eq!(rt;
        headers_sent(alloc, config)?.as_str(),
        "user-agent=mine,x-tenant=b,content-type=application/json,"
    );
    Ok(())
}

#[test]
fn a_list_of_headers_is_sent(rt: HostRuntime) -> Result<(), Fail> {
    let alloc = rt.alloc();
    for (list, sent) in LISTS {
        let config = OtlpHttpConfig::new(alloc)?.with_header_list(alloc, list)?;
        let wanted = format!(in alloc;
            "user-agent=OTel-OTLP-Exporter-Rattle/0.1.0,{sent}content-type=application/json,"
        )?;
        assert_eq!(rt;
            headers_sent(alloc, config)?.as_str(),
            wanted.as_str(),
            "{list}"
        );
    }
    Ok(())
}

#[test]
fn a_list_replaces_earlier_headers(rt: HostRuntime) -> Result<(), Fail> {
    let alloc = rt.alloc();
    let config = OtlpHttpConfig::new(alloc)?
        .with_header(alloc, "a", "0")?
        .with_header_list(alloc, "user-agent=mine,a=1")?
        .with_header_list(alloc, "b=2")?;
    assert_eq!(rt;
        headers_sent(alloc, config)?.as_str(),
        "user-agent=mine,a=1,b=2,content-type=application/json,"
    );
    Ok(())
}

/// The number of a piece, or the name of a header.
type Named = Result<usize, &'static str>;

/// A list of headers that is refused, and the part that the error names.
const REFUSED: [(&str, Named); 15] = [
    ("a", Ok(0)),
    ("a=1,b", Ok(1)),
    ("a=1,,=2", Ok(2)),
    ("a=1,b=%f", Ok(1)),
    ("a=1,b=%ff", Ok(1)),
    ("content-type=x,b", Ok(1)),
    ("a b=1", Err("a b")),
    ("a=1,a%20b=1", Err("a b")),
    ("a=1,content-type=x", Err("content-type")),
    ("Host=x,a=1", Err("Host")),
    ("content-length=1", Err("content-length")),
    ("a=1,b=x%0Dy", Err("b")),
    ("a=1,b=%20x", Err("b")),
    ("b=x%20", Err("b")),
    ("b=%09", Err("b")),
];

#[test]
fn a_refused_list_is_named(rt: HostRuntime) -> Result<(), Fail> {
    let alloc = rt.alloc();
    for (list, wanted) in REFUSED {
        let named = match OtlpHttpConfig::new(alloc)?.with_header_list(alloc, list) {
            Err(ConfigError::HeaderList(piece)) => wanted == Ok(piece),
            Err(ConfigError::Header(name)) => wanted == Err(name.as_str()),
            _ => false,
        };
        assert!(rt; named, "{list}");
    }
    Ok(())
}

#[test]
fn the_endpoint_of_the_signal_wins(rt: HostRuntime) -> Result<(), Fail> {
    let alloc = rt.alloc();
    // The endpoint of all signals, the one of spans, and the target.
    let rows = [
        ("", "", "/v1/traces"),
        ("http://h/base", "", "/base/v1/traces"),
        ("http://h/base", "http://h/a", "/a"),
        ("", "http://h", "/"),
    ];
    for (endpoint, own, target) in rows {
        let config = OtlpHttpConfig::from_texts(alloc, endpoint, own, "")?;
        assert_eq!(rt;
            target_sent(alloc, config)?.as_str(),
            target,
            "{endpoint} {own}"
        );
    }
    Ok(())
}

/// The configuration that these variables give.
pub fn environment(alloc: Global, vars: &[(&str, &str)]) -> Result<EnvConfig, Fail> {
    let mut owned = Vec::new(alloc);
    for (name, text) in vars {
        let name = String::from_str(alloc, name)?;
        owned.push((name, String::from_str(alloc, text)?))?;
    }
    Ok(EnvConfig::from_vars(alloc, owned.as_slice())?)
}

#[test]
fn the_environment_gives_the_endpoint_and_the_headers(rt: HostRuntime) -> Result<(), Fail> {
    let alloc = rt.alloc();
    let vars = [
        ("OTEL_EXPORTER_OTLP_ENDPOINT", "http://h/base"),
        ("OTEL_EXPORTER_OTLP_LOGS_ENDPOINT", "http://h/a"),
        ("OTEL_EXPORTER_OTLP_HEADERS", "a=1, b=2"),
        ("OTEL_EXPORTER_OTLP_LOGS_HEADERS", "c=%2C"),
    ];
    let env = environment(alloc, &vars)?;

    let config = OtlpHttpConfig::from_env(alloc, &env.otlp_traces)?;

    assert_eq!(rt; target_sent(alloc, config)?.as_str(), "/base/v1/traces");
    let config = OtlpHttpConfig::from_env(alloc, &env.otlp_logs)?;
    assert_eq!(rt; target_sent(alloc, config)?.as_str(), "/a");
    for (otlp, sent) in [(&env.otlp_traces, "a=1,b=2,"), (&env.otlp_logs, "c=,,")] {
        let config = OtlpHttpConfig::from_env(alloc, otlp)?;
        let wanted = format!(in alloc;
            "user-agent=OTel-OTLP-Exporter-Rattle/0.1.0,{sent}content-type=application/json,"
        )?;
        assert_eq!(rt; headers_sent(alloc, config)?.as_str(), wanted.as_str());
    }
    Ok(())
}

#[test]
fn a_value_with_a_blank_at_an_end_is_refused(rt: HostRuntime) -> Result<(), Fail> {
    let alloc = rt.alloc();
    for value in [" x", "x ", "\tx", "x\t", " "] {
        match OtlpHttpConfig::new(alloc)?.with_header(alloc, "a", value) {
            Err(ConfigError::Header(name)) => assert_eq!(rt; name.as_str(), "a"),
            _ => assert!(rt; false, "{value:?}"),
        }
    }
    let config = OtlpHttpConfig::new(alloc)?.with_header(alloc, "a", "x y")?;
    assert!(rt; headers_sent(alloc, config)?.as_str().contains("a=x y,"));
    Ok(())
}

/// Where a signal is sent, as no variable says it.
pub fn by_hand(alloc: Global, endpoint: &str, headers: &str) -> Result<EnvOtlp, Fail> {
    let endpoint = StringValue::from(String::from_str(alloc, endpoint)?);
    Ok(EnvOtlp {
        endpoint: EnvEndpoint::Base(endpoint),
        headers: StringValue::from(String::from_str(alloc, headers)?),
    })
}

#[test]
fn headers_that_no_variable_gives_may_be_refused(rt: HostRuntime) -> Result<(), Fail> {
    let alloc = rt.alloc();
    match OtlpHttpConfig::from_env(alloc, &by_hand(alloc, "http://h", "a=1,host=x")?) {
        Err(ConfigError::Header(name)) => assert_eq!(rt; name.as_str(), "host"),
        _ => assert!(rt; false),
    }
    let refused = OtlpHttpConfig::from_env(alloc, &by_hand(alloc, "http://h", "a=1,b=%")?);
    assert!(rt; matches!(refused, Err(ConfigError::HeaderList(1))));
    Ok(())
}

/// Texts of an endpoint, and the path of the target of spans.
const ENDPOINTS: [(&str, &str); 10] = [
    ("a:4318", "/v1/traces"),
    ("/b", "/v1/traces"),
    ("grpc://a/b", "/v1/traces"),
    ("http://user:pw@a/b", "/v1/traces"),
    ("http://a/b?c", "/v1/traces"),
    ("http://a/b#c", "/v1/traces"),
    ("http://a/\u{e4}", "/v1/traces"),
    ("http://a b", "/v1/traces"),
    ("http://a/b", "/b/v1/traces"),
    ("HTTPS://a/b@c/", "/b@c/v1/traces"),
];

#[test]
fn no_endpoint_of_the_environment_is_refused(rt: HostRuntime) -> Result<(), Fail> {
    let alloc = rt.alloc();
    for (text, target) in ENDPOINTS {
        let env = environment(alloc, &[("OTEL_EXPORTER_OTLP_ENDPOINT", text)])?;
        let config = OtlpHttpConfig::from_env(alloc, &env.otlp_traces)?;
        assert_eq!(rt; target_sent(alloc, config)?.as_str(), target, "{text}");
    }
    let own = "OTEL_EXPORTER_OTLP_TRACES_ENDPOINT";
    for (text, target) in [
        ("http://a?b", "/"),
        ("http://a#b", "/"),
        ("a", "/v1/traces"),
    ] {
        let env = environment(alloc, &[(own, text)])?;
        let config = OtlpHttpConfig::from_env(alloc, &env.otlp_traces)?;
        assert_eq!(rt; target_sent(alloc, config)?.as_str(), target, "{text}");
    }
    Ok(())
}

#[test]
fn a_long_endpoint_of_the_environment_has_a_target(rt: HostRuntime) -> Result<(), Fail> {
    let alloc = rt.alloc();
    let mut text = String::from_str(alloc, "http://a/")?;
    while text.len() < 65_000 {
        text.push('b')?;
    }
    let env = environment(alloc, &[("OTEL_EXPORTER_OTLP_ENDPOINT", text.as_str())])?;
    let config = OtlpHttpConfig::from_env(alloc, &env.otlp_traces)?;
    assert_eq!(rt; target_sent(alloc, config)?.len(), 65_000 - 8 + 10);
    Ok(())
}

#[test]
fn no_header_of_the_environment_is_refused(rt: HostRuntime) -> Result<(), Fail> {
    let alloc = rt.alloc();
    let list = "a=1,api-key=%zz,b,=c,Host=x,Content-Type=x,content-length=1,Transfer-Encoding=x,\
        d=%20x,e=x%0Dy,f g=1,h=%ff,i=%2C";
    let env = environment(alloc, &[("OTEL_EXPORTER_OTLP_HEADERS", list)])?;
    for otlp in [&env.otlp_traces, &env.otlp_logs] {
        let config = OtlpHttpConfig::from_env(alloc, otlp)?;
        assert_eq!(rt;
            headers_sent(alloc, config)?.as_str(),
            "user-agent=OTel-OTLP-Exporter-Rattle/0.1.0,a=1,i=,,content-type=application/json,"
        );
    }
    Ok(())
}

#[test]
fn many_headers_of_the_environment_fit(rt: HostRuntime) -> Result<(), Fail> {
    let alloc = rt.alloc();
    let mut list = String::new(alloc);
    let mut number = 0;
    while number < 300 {
        let piece = format!(in alloc; "{number:x}=,")?;
        list.push_str(piece.as_str())?;
        number += 1;
    }
    let env = environment(alloc, &[("OTEL_EXPORTER_OTLP_HEADERS", list.as_str())])?;
    assert!(rt; env.warnings.is_empty());
    drop(OtlpHttpConfig::from_env(alloc, &env.otlp_logs)?);
    Ok(())
}
