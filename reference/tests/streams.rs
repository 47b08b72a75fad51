//! Where reading or writing fails, drill, fault program and page say so, nothing else, and end with status 1.
#![deny(warnings)]

use std::fs::{File, OpenOptions};
use std::io::Write;
use std::os::fd::OwnedFd;
use std::os::unix::net::UnixStream;
use std::process::{Command, Output, Stdio};
use std::sync::atomic::{AtomicUsize, Ordering};

/// One of the programs with this input and output.
fn run(program: &str, input: Stdio, output: Stdio) -> Output {
    let mut command = Command::new(env!("CARGO_BIN_EXE_reference"));
    command.arg(program).stdin(input).stdout(output).stderr(Stdio::piped());
    command.spawn().unwrap().wait_with_output().unwrap()
}

/// Drill and fault program end with status 1 and one line on standard error.
fn both_fail(input: impl Fn() -> Stdio, output: impl Fn() -> Stdio) {
    for program in ["drill", "fault"] {
        fails(program, input(), output());
    }
}

/// One of the programs ends with status 1 and one line on standard error.
fn fails(program: &str, input: Stdio, output: Stdio) {
    let ended = run(program, input, output);
    assert_eq!(ended.status.code(), Some(1), "{program}");
    let message = String::from_utf8(ended.stderr).unwrap();
    assert!(message.starts_with("reference: ") && message.lines().count() == 1, "{program}: {message}");
}

/// A socket's end as a program's stream.
fn stream(end: UnixStream) -> Stdio {
    OwnedFd::from(end).into()
}

/// An input that has a script of that many cuts.
fn script(lines: usize) -> Stdio {
    text(&"X\n".repeat(lines))
}

/// An input that has this script.
fn text(script: &str) -> Stdio {
    static COUNT: AtomicUsize = AtomicUsize::new(0);
    let count = COUNT.fetch_add(1, Ordering::Relaxed);
    let path = std::env::temp_dir().join(format!("reference-streams-{}-{count}", std::process::id()));
    std::fs::write(&path, script).unwrap();
    let file = File::open(&path).unwrap();
    std::fs::remove_file(&path).unwrap();
    file.into()
}

#[test]
fn a_directory_cannot_be_read() {
    both_fail(|| File::open("/").unwrap().into(), Stdio::piped);
}

#[test]
fn a_descriptor_for_writing_cannot_be_read() {
    both_fail(|| OpenOptions::new().write(true).open("/dev/null").unwrap().into(), Stdio::piped);
}

#[test]
fn a_descriptor_for_reading_cannot_be_written() {
    both_fail(Stdio::null, || File::open("/dev/null").unwrap().into());
}

#[test]
fn a_full_device_cannot_be_written() {
    let full = || OpenOptions::new().write(true).open("/dev/full").unwrap().into();
    both_fail(Stdio::null, full);
    both_fail(|| script(1), full);
    both_fail(|| script(100_000), full);
}

#[test]
fn an_output_that_nobody_reads_cannot_be_written() {
    both_fail(Stdio::null, || stream(UnixStream::pair().unwrap().0));
    both_fail(|| script(100_000), || stream(UnixStream::pair().unwrap().0));
}

#[test]
fn a_page_that_cannot_be_read_or_written_is_a_failure() {
    fails("page", File::open("/").unwrap().into(), Stdio::piped());
    fails("page", OpenOptions::new().write(true).open("/dev/null").unwrap().into(), Stdio::piped());
    for format in ["F\t1\t1\n", "F\t511\t8\n"] {
        fails("page", text(format), File::open("/dev/null").unwrap().into());
        fails("page", text(format), OpenOptions::new().write(true).open("/dev/full").unwrap().into());
        let unread = stream(UnixStream::pair().unwrap().0);
        fails("page", text(format), unread);
    }
}

#[test]
fn a_page_is_not_printed_where_reading_fails() {
    let (mut ours, theirs) = UnixStream::pair().unwrap();
    theirs.set_nonblocking(true).unwrap();
    ours.write_all(b"F\t1\t1\n").unwrap();
    let ended = run("page", stream(theirs), Stdio::piped());
    assert_eq!((ended.status.code(), ended.stdout.as_slice()), (Some(1), &b""[..]));
    assert!(ended.stderr.starts_with(b"reference: "));
}

#[test]
fn an_input_with_nothing_to_read_yet_is_a_failure() {
    for program in ["drill", "fault"] {
        let (mut ours, theirs) = UnixStream::pair().unwrap();
        theirs.set_nonblocking(true).unwrap();
        ours.write_all(b"X\nC").unwrap();
        let ended = run(program, stream(theirs), Stdio::piped());
        assert_eq!(ended.status.code(), Some(1));
        assert!(ended.stderr.starts_with(b"reference: "));
        assert_eq!(ended.stdout, b"line\tcall\tanswer\tvalue\n1\tX\t0\t-\n");
    }
}

#[test]
fn an_output_that_is_full_for_now_is_a_failure() {
    for program in ["drill", "fault"] {
        let (_ours, theirs) = UnixStream::pair().unwrap();
        theirs.set_nonblocking(true).unwrap();
        let ended = run(program, script(1_000_000), stream(theirs));
        assert_eq!(ended.status.code(), Some(1));
        assert!(ended.stderr.starts_with(b"reference: "));
    }
}

#[test]
fn lines_that_are_no_calls_are_not_told_of_where_reading_or_writing_fails() {
    let full = || OpenOptions::new().write(true).open("/dev/full").unwrap().into();
    both_fail(|| text("Y\n\n"), full);
    fails("page", text("F\t1\t1\nY\n"), full());
    for program in ["drill", "fault", "page"] {
        let (mut ours, theirs) = UnixStream::pair().unwrap();
        theirs.set_nonblocking(true).unwrap();
        ours.write_all(b"Y\n\nY").unwrap();
        fails(program, stream(theirs), Stdio::piped());
    }
}

#[test]
fn a_message_that_cannot_be_written_changes_nothing() {
    let full = OpenOptions::new().write(true).open("/dev/full").unwrap();
    let mut command = Command::new(env!("CARGO_BIN_EXE_reference"));
    command.arg("drill").stdin(File::open("/").unwrap()).stdout(Stdio::null()).stderr(full);
    assert_eq!(command.status().unwrap().code(), Some(1));
    for (program, code) in [("drill", 0), ("fault", 0), ("page", 1)] {
        let full = OpenOptions::new().write(true).open("/dev/full").unwrap();
        let mut command = Command::new(env!("CARGO_BIN_EXE_reference"));
        command.arg(program).stdin(text("F\t1\t1\nY\n")).stdout(Stdio::null()).stderr(full);
        assert_eq!(command.status().unwrap().code(), Some(code), "{program}");
    }
}
