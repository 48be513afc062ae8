//! When reading or writing fails, the program says so once on standard error
//! and ends.

use std::fs::File;
use std::io::Read;
use std::process::{Command, Output, Stdio};

fn program() -> Command {
    let mut command = Command::new(env!("CARGO_BIN_EXE_reference"));
    command.arg("answer").stderr(Stdio::piped());
    command
}

/// More answers than any buffer holds.
fn questions() -> File {
    let path = std::env::temp_dir().join(format!("reference-{}", std::process::id()));
    std::fs::write(&path, "help\n".repeat(1000)).expect("a file");
    let file = File::open(&path).expect("the file");
    std::fs::remove_file(&path).expect("the file");
    file
}

/// One line of complaint, and no success.
fn failed(output: &Output) {
    let complaint = String::from_utf8_lossy(&output.stderr);
    assert_eq!(complaint.lines().count(), 1, "{complaint}");
    assert!(complaint.starts_with("reference: "), "{complaint}");
    assert!(!output.status.success());
}

#[test]
fn a_full_device() {
    let full = File::options().write(true).open("/dev/full");
    let mut command = program();
    command.stdin(questions()).stdout(full.expect("a device"));
    failed(&command.output().expect("it runs"));
}

#[test]
fn a_closed_pipe() {
    let mut command = program();
    command.stdin(questions()).stdout(Stdio::piped());
    let mut child = command.spawn().expect("it runs");
    let mut pipe = child.stdout.take().expect("a pipe");
    let mut some = [0; 100];
    pipe.read_exact(&mut some).expect("an answer");
    drop(pipe);
    failed(&child.wait_with_output().expect("it ends"));
}

#[test]
fn a_directory_in_place_of_questions() {
    let mut command = program();
    let directory = File::open(std::env::temp_dir()).expect("a directory");
    command.stdin(directory).stdout(Stdio::piped());
    let output = command.output().expect("it runs");
    failed(&output);
    assert!(output.stdout.is_empty());
}

#[test]
fn an_end_is_no_failure() {
    for text in ["", "cell", "cell\r"] {
        let path = std::env::temp_dir().join(format!("reference-end-{}", text.len()));
        std::fs::write(&path, text).expect("a file");
        let mut command = program();
        command.stdin(File::open(&path).expect("the file"));
        let output = command.stdout(Stdio::piped()).output().expect("it runs");
        std::fs::remove_file(&path).expect("the file");
        assert!(output.status.success() && output.stderr.is_empty());
        let expected: &[u8] = if text.is_empty() { b"" } else { b"no=3\n" };
        assert_eq!(output.stdout, expected);
    }
}
