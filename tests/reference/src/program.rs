//! A journal program run as a process of its own.

use std::io::Write;
use std::process::{Command, Stdio};

/// What the program writes for a journal; it may end before it has read all of it.
pub fn output_of(program: &str, journal: &[u8]) -> Result<Vec<u8>, String> {
    let mut child = Command::new(program)
        .stdin(Stdio::piped())
        .stdout(Stdio::piped())
        .spawn()
        .map_err(|error| format!("{program}: {error}"))?;
    let input = child.stdin.take();
    let bytes = journal.to_vec();
    let writer = std::thread::spawn(move || {
        if let Some(mut input) = input {
            let _ = input.write_all(&bytes);
        }
    });
    let output = child.wait_with_output().map_err(|error| format!("{program}: {error}"))?;
    let _ = writer.join();
    if output.status.code().is_none() {
        return Err(format!("{program} was stopped: {}", output.status));
    }
    Ok(output.stdout)
}
