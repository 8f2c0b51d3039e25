//! An exporter over the pipes of a folder, which are files here.
use crate::batches::{root, scope};
use crate::http_texts::{by_hand, environment};
use otel_otlp::pipe_exporter;
use otel_sdk::EnvConfig;
use otel_sdk_base::Exporter;
use std::alloc::Global;
use std::fs;
use std::random::RandomSource;
use std::test::Fail;

/// Creates a folder of a new name.
pub fn folder(rt: HostRuntime) -> Result<String, Fail> {
    let mut bytes = [0; 8];
    rt.fill_bytes(&mut bytes)?;
    let number = u64::from_le_bytes(bytes);
    let folder = format!(in rt.alloc(); "/tmp/pipe-exporter-{number:x}")?;
    fs::create_dir(&rt, folder.as_str())?;
    Ok(folder)
}

// The configuration with this endpoint and these headers.
fn given(alloc: Global, endpoint: &str, headers: &str) -> Result<EnvConfig, Fail> {
    let vars = [
        ("OTEL_EXPORTER_OTLP_ENDPOINT", endpoint),
        ("OTEL_EXPORTER_OTLP_HEADERS", headers),
    ];
    environment(alloc, &vars)
}

// Makes both files anew: nothing is written yet, and the response is this one.
fn lay(rt: HostRuntime, folder: &str, response: &str) -> Result<(), Fail> {
    for (name, contents) in [("request", ""), ("response", response)] {
        let path = format!(in rt.alloc(); "{folder}/{name}")?;
        let _ = fs::remove_file(&rt, path.as_str());
        fs::write(&rt, path.as_str(), contents.as_bytes())?;
    }
    Ok(())
}

// The text that was written.
fn written(rt: HostRuntime, folder: &str) -> Result<String, Fail> {
    let path = format!(in rt.alloc(); "{folder}/request")?;
    Ok(fs::read_to_string(&rt, path.as_str())?)
}

const HEAD: &str = "POST /base/v1/traces HTTP/1.1\r
host: h:4318\r
connection: keep-alive\r
user-agent: OTel-OTLP-Exporter-Rattle/0.1.0\r
a: 1\r
b: x y\r
content-type: application/json\r
";

const OK: &str = "HTTP/1.1 200 OK\r\nContent-Length: 2\r\n\r\n{}";

const CUT: &str = "HTTP/1.1 200 OK\r\nContent-Length: 2\r\n\r\n{";

#[test]
fn each_request_opens_the_pipes(rt: HostRuntime) -> Result<(), Fail> {
    let alloc = rt.alloc();
    let folder = folder(rt)?;
    let env = given(alloc, "http://h:4318/base", "a=1, B = x y")?;
    let mut exporter = pipe_exporter(alloc, rt, folder.as_str(), &env.otlp_traces)?;
    for (number, response) in [(1, OK), (2, CUT), (3, OK)] {
        lay(rt, folder.as_str(), response)?;
        let mut batch = Vec::new(alloc);
        batch.push(root(alloc, number, scope(alloc, "s")?)?)?;
        exporter.export(&batch)?;
        let text = written(rt, folder.as_str())?;
        assert!(rt; text.as_str().starts_with(HEAD), "{number}: {text}");
        let id = format!(in alloc; "\"spanId\":\"{number:016x}\"")?;
        assert!(rt; text.as_str().contains(id.as_str()), "{number}: {text}");
        assert_eq!(rt; exporter.waiting(), usize::from(number == 2), "{number}");
        // A span that stays is sent again after a second, by files of their own.
        lay(rt, folder.as_str(), OK)?;
        while exporter.waiting() > 0 {
            let _ = exporter.force_flush();
        }
    }
    assert_eq!(rt; exporter.given_up(), 0);
    fs::remove_dir_all(&rt, folder.as_str())?;
    Ok(())
}

#[test]
fn without_pipes_a_batch_stays(rt: HostRuntime) -> Result<(), Fail> {
    let alloc = rt.alloc();
    let folder = folder(rt)?;
    let env = environment(
        alloc,
        &[("OTEL_EXPORTER_OTLP_TRACES_ENDPOINT", "http://h/a")],
    )?;

    let mut exporter = pipe_exporter(alloc, rt, folder.as_str(), &env.otlp_traces)?;

    let mut batch = Vec::new(alloc);
    batch.push(root(alloc, 1, scope(alloc, "s")?)?)?;
    exporter.export(&batch)?;
    assert_eq!(rt; exporter.waiting(), 1);
    let error = exporter.shutdown().err().ok_or("no error")?;
    let wanted = format!(in alloc;
        "Operation failed: no response came: {folder}/request: \
        No such file or directory (os error 2); to be sent again in "
    )?;
    let text = format!(in alloc; "{error}")?;
    assert!(rt; text.as_str().starts_with(wanted.as_str()), "{text}");
    fs::remove_dir_all(&rt, folder.as_str())?;
    Ok(())
}

#[test]
fn a_refused_configuration_is_named(rt: HostRuntime) -> Result<(), Fail> {
    let alloc = rt.alloc();
    // The endpoint, the list of headers, and the text of the error.
    let rows = [
        ("h", "", "no endpoint: h"),
        (
            "http://h",
            "a=1,b=%f",
            "piece 1 of the list of headers isn't NAME=VALUE",
        ),
        ("http://h", "a=1,Host=x", "header not allowed: Host"),
    ];
    for (endpoint, headers, wanted) in rows {
        let otlp = by_hand(alloc, endpoint, headers)?;
        match pipe_exporter(alloc, rt, "/tmp", &otlp) {
            Ok(_) => assert!(rt; false, "{endpoint} {headers}"),
            Err(error) => {
                let text = format!(in alloc; "{error}")?;
                assert_eq!(rt; text.as_str(), wanted);
            }
        }
    }
    Ok(())
}

#[test]
fn no_variable_refuses_the_exporter(rt: HostRuntime) -> Result<(), Fail> {
    let alloc = rt.alloc();
    for (endpoint, headers) in [
        ("a:4318", "api-key=%zz"),
        ("grpc://a:1", "api-key=%20a"),
        ("http://user:pw@a", "Host=x"),
        ("http://", "content-type=x,=1,b"),
    ] {
        let env = given(alloc, endpoint, headers)?;
        assert!(rt; env.warnings.len() >= 2, "{endpoint} {headers}");
        drop(pipe_exporter(alloc, rt, "/tmp", &env.otlp_traces)?);
    }
    Ok(())
}
