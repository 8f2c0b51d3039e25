//! The configuration from the environment of a process: what is read, and what is told.
use crate::env_otlp::UNSUPPORTED;
use opentelemetry::Value;
use otel_sdk::EnvConfig;
use otel_sdk::env::EnvPropagator;
use std::alloc::Global;
use std::cell::RefCell;
use std::env::{Env, FillError};
use std::fmt::Display;
use std::io;
use std::io::Eprint;
use std::test::Fail;

/// A process with these variables. Keeps the names that are read, and standard error, as lines.
#[derive(Drop)]
struct Process<'a> {
    vars: &'a [(&'a str, &'a [u8])],
    alloc: Global,
    read: RefCell<String>,
    told: RefCell<String>,
}

/// Adds the value to the lines.
fn add_line<D: Display + Drop>(alloc: Global, lines: &RefCell<String>, value: D) -> io::Result<()> {
    let line = format!(in alloc; "{value}\n")?;
    match lines.try_borrow_mut() {
        Ok(mut lines) => Ok(lines.push_str(line.as_str())?),
        Err(_) => Err(io::Error::from(io::ErrorKind::Other)),
    }
}

/// Whether these are the lines.
fn are(lines: &RefCell<String>, text: &str) -> bool {
    lines.try_borrow().is_ok_and(|lines| lines.as_str() == text)
}

impl<'a> Env for Process<'a> {
    fn arg(&self, _i: usize, _buf: &mut [u8]) -> Result<usize, FillError> {
        Err(FillError::NotPresent)
    }

    fn var(&self, name: &str, buf: &mut [u8]) -> Result<usize, FillError> {
        drop(add_line(self.alloc, &self.read, name));
        let Some((_, text)) = self.vars.iter().find(|var| var.0 == name) else {
            return Err(FillError::NotPresent);
        };
        if text.len() > buf.len() {
            return Err(FillError::TooLong);
        }
        buf[..text.len()].copy_from_slice(text);
        Ok(text.len())
    }

    fn var_at(&self, _i: usize, _buf: &mut [u8]) -> Result<usize, FillError> {
        Err(FillError::NotPresent)
    }
}

impl<'a> Eprint for Process<'a> {
    fn eprint<D: Display + Drop>(&self, _value: D) -> io::Result<()> {
        Err(io::Error::from(io::ErrorKind::Other))
    }

    fn eprintln<D: Display + Drop>(&self, value: D) -> io::Result<()> {
        add_line(self.alloc, &self.told, value)
    }
}

fn process<'a>(alloc: Global, vars: &'a [(&'a str, &'a [u8])]) -> (Process<'a>, Global) {
    let process = Process {
        vars,
        alloc,
        read: RefCell::new(String::new(alloc)),
        told: RefCell::new(String::new(alloc)),
    };
    (process, alloc)
}

/// The names of the variables of the help, and of those that aren't supported, a line each.
fn names(alloc: Global) -> Result<String, Fail> {
    let mut names = String::new(alloc);
    for line in EnvConfig::HELP.lines() {
        if let Some((name, _)) = line.split_once(' ')
            && !name.is_empty()
        {
            names.push_str(name)?;
            names.push_str("\n")?;
        }
    }
    for name in UNSUPPORTED {
        names.push_str(name)?;
        names.push_str("\n")?;
    }
    Ok(names)
}

#[test]
fn each_variable_is_read_once(rt: HostRuntime) -> Result<(), Fail> {
    let alloc = rt.alloc();
    let (process, alloc) = process(alloc, &[]);
    let unset = EnvConfig::from_env(&(&process, alloc))?;
    assert!(rt; are(&process.read, names(alloc)?.as_str()));
    assert!(rt; unset.warnings.is_empty() && are(&process.told, ""));
    Ok(())
}

#[test]
fn what_is_read_counts(rt: HostRuntime) -> Result<(), Fail> {
    let given: &[(&str, &[u8])] = &[
        ("OTEL_EXPORTER_OTLP_TIMEOUT", b"7"),
        ("OTEL_NO_SUCH", b"x"),
        ("OTEL_PROPAGATORS", b"b3"),
        // Not UTF-8.
        ("OTEL_SERVICE_NAME", b"a\xff"),
    ];
    let (process, alloc) = process(rt.alloc(), given);
    let config = EnvConfig::from_env(&(&process, alloc))?;
    assert_eq!(rt; config.otlp_timeout_millis, 7);
    assert!(rt; config.propagators.as_slice() == [EnvPropagator::B3].as_slice());
    assert!(rt; config.service_name.as_str() == "\u{fffd}");
    assert!(rt; are(&process.told, ""));
    Ok(())
}

#[test]
fn each_warning_is_told_once(rt: HostRuntime) -> Result<(), Fail> {
    let given: &[(&str, &[u8])] = &[
        ("OTEL_BLRP_MAX_QUEUE_SIZE", b"few"),
        ("OTEL_BSP_MAX_QUEUE_SIZE", b"many"),
        ("OTEL_SDK_DISABLED", b"maybe"),
    ];
    let (process, alloc) = process(rt.alloc(), given);
    let config = EnvConfig::from_env(&(&process, alloc))?;
    let lines = "OTEL_SDK_DISABLED can't be \"maybe\": false counts instead
OTEL_BSP_MAX_QUEUE_SIZE can't be \"many\": 2048 counts instead
OTEL_BLRP_MAX_QUEUE_SIZE can't be \"few\": 2048 counts instead
";
    assert!(rt; are(&process.told, lines));
    assert_eq!(rt; config.warnings.len(), 3);
    Ok(())
}

/// The lengths of texts in bytes: beyond a byte, a page and a MiB.
const LENGTHS: &[usize] = &[255, 256, 257, 4_097, 65_537, 1_048_577];

#[test]
fn long_variables_are_read_whole(rt: HostRuntime) -> Result<(), Fail> {
    let alloc = rt.alloc();
    for length in LENGTHS {
        let (name, value) = ("n".repeat(alloc, *length)?, "v".repeat(alloc, *length)?);
        let attributes = format!(in alloc; "first={value},last=1")?;
        let given: &[(&str, &[u8])] = &[
            ("OTEL_SERVICE_NAME", name.as_bytes()),
            ("OTEL_RESOURCE_ATTRIBUTES", attributes.as_bytes()),
        ];
        let (process, alloc) = process(alloc, given);
        let config = EnvConfig::from_env(&(&process, alloc))?;
        assert!(rt;
            config.service_name.as_str() == name.as_str(),
            "{length} bytes"
        );
        let resource = config.resource(alloc)?;
        for (key, text) in [("first", value.as_str()), ("last", "1")] {
            let found = resource.get(key);
            assert!(rt;
                matches!(found, Some(Value::String(held)) if held.as_str() == text),
                "{key}"
            );
        }
        assert!(rt; are(&process.told, ""));
    }
    Ok(())
}
