//! What a file that is appended to holds, since no contract tells.
use crate::batches::{root, scope};
use crate::pipes::folder;
use crate::records::observed;
use otel_otlp::{
    AppendCalls, AppendFile, OtlpJsonLogExporter, OtlpJsonSpanExporter, logs_text, traces_text,
};
use otel_sdk::resource::Resource;
use otel_sdk_base::Exporter;
use std::fs::{self, File, TryLockError};
use std::io::Write;
use std::test::Fail;

/// One writer, whose file is missing at first, and is then moved away.
#[test]
fn each_write_appends_once_to_the_file_of_the_path(rt: HostRuntime) -> Result<(), Fail> {
    let alloc = rt.alloc();
    let folder = folder(rt)?;
    let path = format!(in alloc; "{folder}/lines")?;
    let moved = format!(in alloc; "{folder}/moved")?;
    let mut file = AppendFile::new(rt, path.clone()?);
    assert_eq!(rt; file.write(b"one\n")?, 4);
    assert_eq!(rt; file.write(b"two\n")?, 4);
    assert_eq!(rt;
        fs::read_to_string(&rt, path.as_str())?.as_str(),
        "one\ntwo\n"
    );
    fs::rename(&rt, path.as_str(), moved.as_str())?;
    assert_eq!(rt; file.write(b"three\n")?, 6);
    assert_eq!(rt;
        fs::read_to_string(&rt, moved.as_str())?.as_str(),
        "one\ntwo\n"
    );
    assert_eq!(rt; fs::read_to_string(&rt, path.as_str())?.as_str(), "three\n");
    fs::remove_dir_all(&rt, folder.as_str())?;
    assert!(rt; file.write(b"four\n").is_err(), "without its folder");
    Ok(())
}

/// What a file holds, the writes to it, and what it holds then.
const MENDED: [(&str, &[&str], &str); 9] = [
    ("{\"a\":", &["one\n"], "{\"a\":\none\n"),
    ("{}\n{", &["one\n", "two\n"], "{}\n{\none\ntwo\n"),
    ("{}", &["o", "ne", "\n", "two\n"], "{}\none\ntwo\n"),
    ("{}", &["\n", "one\n"], "{}\none\n"),
    ("{}", &[""], "{}"),
    ("{}", &[], "{}"),
    ("{}\n", &["one\n", "two\n"], "{}\none\ntwo\n"),
    ("\n", &["one\n"], "\none\n"),
    ("", &["one\n", "t", "wo\n"], "one\ntwo\n"),
];

#[test]
fn a_torn_end_gets_a_newline(rt: HostRuntime) -> Result<(), Fail> {
    let folder = folder(rt)?;
    let path = format!(in rt.alloc(); "{folder}/lines")?;
    for (before, writes, after) in MENDED {
        fs::write(&rt, path.as_str(), before.as_bytes())?;
        let mut file = AppendFile::new(rt, path.clone()?);
        for text in writes {
            assert_eq!(rt; file.write(text.as_bytes())?, text.len());
        }
        assert_eq!(rt; fs::read_to_string(&rt, path.as_str())?.as_str(), after);
    }
    Ok(fs::remove_dir_all(&rt, folder.as_str())?)
}

/// Another program leaves a part of its line between two lines, and then writes the rest.
#[test]
fn each_line_looks_at_the_end_anew(rt: HostRuntime) -> Result<(), Fail> {
    let folder = folder(rt)?;
    let path = format!(in rt.alloc(); "{folder}/lines")?;
    let mut ours = AppendFile::new(rt, path.clone()?);
    let mut other = AppendFile::new(rt, path.clone()?);
    for (is_ours, text) in [(true, "a\n"), (false, "{"), (true, "b\n"), (false, "}\n")] {
        let file = if is_ours { &mut ours } else { &mut other };
        assert_eq!(rt; file.write(text.as_bytes())?, text.len());
    }
    let text = fs::read_to_string(&rt, path.as_str())?;
    assert_eq!(rt; text.as_str(), "a\n{\nb\n}\n");
    Ok(fs::remove_dir_all(&rt, folder.as_str())?)
}

/// The lock that a write takes keeps each other one out, and ends with the write.
#[test]
fn a_file_is_locked_while_it_is_open(rt: HostRuntime) -> Result<(), Fail> {
    let folder = folder(rt)?;
    let path = format!(in rt.alloc(); "{folder}/lines")?;
    let ours = rt.lock(path.as_str())?;
    let other = File::open(&rt, path.as_str())?;
    assert!(rt; matches!(other.try_lock(), Err(TryLockError::WouldBlock)));
    assert_eq!(rt; rt.last_byte(&ours), None);
    assert_eq!(rt; rt.append(&ours, b"{")?, 1);
    assert_eq!(rt; rt.last_byte(&ours), Some(b'{'));
    drop(ours);
    assert!(rt; other.try_lock().is_ok());
    other.unlock()?;
    assert_eq!(rt; AppendFile::new(rt, path).write(b"one\n")?, 4);
    assert!(rt; other.try_lock().is_ok());
    Ok(fs::remove_dir_all(&rt, folder.as_str())?)
}

/// A file that ends within a line gets the line of a batch, once with a newline that the exporter
/// has pending. Nothing is written without a batch.
#[test]
fn batches_go_after_a_torn_line(rt: HostRuntime) -> Result<(), Fail> {
    let alloc = rt.alloc();
    let folder = folder(rt)?;
    let path = format!(in alloc; "{folder}/lines")?;
    let none = Resource::builder_empty(alloc).build();
    let span = [root(alloc, 1, scope(alloc, "s")?)?];
    let record = [observed(alloc, 5, scope(alloc, "s")?)];
    fs::write(&rt, path.as_str(), b"{")?;
    let mut spans = OtlpJsonSpanExporter::new(alloc, AppendFile::new(rt, path.clone()?))?;
    let mut logs = OtlpJsonLogExporter::new(alloc, AppendFile::new(rt, path.clone()?))?;
    spans.force_flush()?;
    logs.force_flush()?;
    assert_eq!(rt; fs::read_to_string(&rt, path.as_str())?.as_str(), "{");
    spans.export(&span)?;
    logs.export(&record)?;
    let mut wanted = format!(in alloc; "{{\n{}\n", traces_text(alloc, &none, &span)?)?;
    wanted.push_str(logs_text(alloc, &none, &record)?.as_str())?;
    wanted.push('\n')?;
    assert_eq!(rt;
        fs::read_to_string(&rt, path.as_str())?.as_str(),
        wanted.as_str()
    );
    fs::write(&rt, path.as_str(), b"{")?;
    let mut logs = logs.with_pending_newline();
    logs.export(&record)?;
    let wanted = format!(in alloc; "{{\n{}\n", logs_text(alloc, &none, &record)?)?;
    assert_eq!(rt;
        fs::read_to_string(&rt, path.as_str())?.as_str(),
        wanted.as_str()
    );
    Ok(fs::remove_dir_all(&rt, folder.as_str())?)
}

#[test]
fn a_device_is_written_as_it_is(rt: HostRuntime) -> Result<(), Fail> {
    let path = format!(in rt.alloc(); "/dev/null")?;
    let mut file = AppendFile::new(rt, path);
    assert_eq!(rt; file.write(b"one\n")?, 4);
    assert_eq!(rt; file.write(b"two")?, 3);
    Ok(())
}
