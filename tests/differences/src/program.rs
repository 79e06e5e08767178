//! Runs a program under test: all of its standard input at once, all of what it prints.

use std::io::{Read, Write};
use std::process::{Command, ExitStatus, Stdio};

/// What a program left when it ended.
pub struct Ended {
    pub status: ExitStatus,
    pub output: Vec<u8>,
    pub errors: Vec<u8>,
}

/// What the program printed, or how it ended otherwise than well.
pub fn printed(path: &str, input: &[u8]) -> Result<Vec<u8>, String> {
    let ended = run(path, input)?;
    if !ended.status.success() || !ended.errors.is_empty() {
        return Err(format!("{path} ended with {}, {}", ended.status, String::from_utf8_lossy(&ended.errors)));
    }
    Ok(ended.output)
}

/// Runs the program to its end.
pub fn run(path: &str, input: &[u8]) -> Result<Ended, String> {
    let mut child = Command::new(path)
        .stdin(Stdio::piped())
        .stdout(Stdio::piped())
        .stderr(Stdio::piped())
        .spawn()
        .map_err(|error| format!("{path} doesn't start: {error}"))?;
    let mut stdin = child.stdin.take().expect("standard input was asked for");
    let mut stdout = child.stdout.take().expect("standard output was asked for");
    let mut output = Vec::new();
    // The program may print before it has read everything, so both go on at once. One that stops reading early breaks
    // the pipe; what it printed tells the rest.
    std::thread::scope(|scope| {
        scope.spawn(move || {
            let _ = stdin.write_all(input);
        });
        stdout.read_to_end(&mut output).map_err(|error| format!("{path} can't be read: {error}"))
    })?;
    let end = child.wait_with_output().map_err(|error| format!("{path}: {error}"))?;
    Ok(Ended { status: end.status, output, errors: end.stderr })
}
