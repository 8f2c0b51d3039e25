//! The files that a client opens, writes and reads for each request.
use crate::stream_client::{Answer, OK, SENT, is_answer, request};
use otel_otlp::{FileCalls, FileClient, HttpClient};
use std::cell::Cell;
use std::fs;
use std::hash::RandomState;
use std::io::{self, ErrorKind, Read, Write};
use std::random::RandomSource;
use std::test::Fail;

/// Creates a folder of a new name.
fn folder(rt: HostRuntime) -> Result<String, Fail> {
    let mut bytes = [0; 8];
    rt.fill_bytes(&mut bytes)?;
    let number = u64::from_le_bytes(bytes);
    let folder = format!(in rt.alloc(); "/tmp/file-client-{number:x}")?;
    fs::create_dir(&rt, folder.as_str())?;
    Ok(folder)
}

/// The contents of the files `request` and `response`, if they exist, and the answer.
const FOLDERS: [(Option<&'static str>, Option<&'static str>, Answer); 7] = [
    (Some(""), Some(OK), Ok((200, "{}", false))),
    (
        Some(""),
        Some("HTTP/1.1 503 Busy\r\nRetry-After: 7\r\n\r\nx"),
        Ok((503, "x", false)),
    ),
    (Some(""), Some(""), Err("unreachable")),
    (
        Some(""),
        Some("HTTP/1.1 200 OK\r\nContent-Length: 2\r\n\r\n{"),
        Err("malformed"),
    ),
    (Some(""), None, Err("no response")),
    (None, Some(OK), Err("no request")),
    (Some(""), Some(OK), Ok((200, "{}", false))),
];

/// One client, whose files are others at each request.
#[test]
fn the_files_are_opened_anew_for_each_request(rt: HostRuntime) -> Result<(), Fail> {
    let alloc = rt.alloc();
    let folder = folder(rt)?;
    let to = format!(in alloc; "{folder}/request")?;
    let from = format!(in alloc; "{folder}/response")?;
    let mut client = FileClient::new(alloc, RandomState::new(&rt)?, rt, folder.as_str())?;
    for (place, (request_file, response_file, wanted)) in FOLDERS.iter().enumerate() {
        for (path, contents) in [(&to, request_file), (&from, response_file)] {
            let _ = fs::remove_file(&rt, path.as_str());
            if let Some(contents) = contents {
                fs::write(&rt, path.as_str(), contents.as_bytes())?;
            }
        }
        let sent = client.send_bytes(&request(alloc)?);
        assert!(rt; is_answer(&sent, false, wanted), "answer {place}");
        if request_file.is_some() && response_file.is_some() {
            assert!(rt;
                fs::read(&rt, to.as_str())?.as_slice() == SENT,
                "request {place}"
            );
        }
    }
    fs::remove_dir_all(&rt, folder.as_str())?;
    Ok(())
}

/// A file that takes all bytes, and gives the response once.
#[derive(Drop)]
struct Open {
    is_read: bool,
}

impl Read for Open {
    fn read(&mut self, buffer: &mut [u8]) -> io::Result<usize> {
        let left = if self.is_read {
            b"".as_slice()
        } else {
            OK.as_bytes()
        };
        self.is_read = true;
        buffer[..left.len()].copy_from_slice(left);
        Ok(left.len())
    }
}

impl Write for Open {
    fn write(&mut self, bytes: &[u8]) -> io::Result<usize> {
        Ok(bytes.len())
    }

    fn flush(&mut self) -> io::Result<()> {
        Ok(())
    }
}

/// Counts the files that are opened.
#[derive(Drop)]
struct Counting<'a> {
    outputs: &'a Cell<u32>,
    inputs: &'a Cell<u32>,
}

impl FileCalls for Counting<'_> {
    type Stream = Open;

    ghost outputs = { λ _ _. Unit {0} };

    ghost inputs = { λ _ _ _. Unit {0} };

    fn open_output(&self, path: &str) -> io::Result<Open> {
        self.outputs.set(self.outputs.get() + 1);
        match path {
            "f/request" => Ok(Open { is_read: false }),
            _ => Err(ErrorKind::NotFound.into()),
        }
    }

    fn open_input(&self, path: &str, _output: &Open) -> io::Result<Open> {
        self.inputs.set(self.inputs.get() + 1);
        match path {
            "f/response" => Ok(Open { is_read: false }),
            _ => Err(ErrorKind::NotFound.into()),
        }
    }
}

#[test]
fn each_file_is_opened_once(rt: HostRuntime) -> Result<(), Fail> {
    let alloc = rt.alloc();
    let outputs = Cell::new(0);
    let inputs = Cell::new(0);
    let files = Counting {
        outputs: &outputs,
        inputs: &inputs,
    };
    let mut client = FileClient::new(alloc, RandomState::new(&rt)?, files, "f")?;
    for count in 1..4 {
        let sent = client.send_bytes(&request(alloc)?);
        assert!(rt;
            is_answer(&sent, false, &Ok((200, "{}", false))),
            "answer {count}"
        );
        assert_eq!(rt; (outputs.get(), inputs.get()), (count, count));
    }
    Ok(())
}
