//! `story run`, `story journal` and `story answers`: a placer's runs for people.

use std::io::{Read, Write};
use std::path::{Path, PathBuf};
use std::process::ExitCode;

use story::answers::told;
use story::run::run;
use story::script::{journal, read_script, Script};

const USAGE: &str = "usage:
  story run SCRIPT                   the script run by the library, with its answers, and the nodes as they fill up
  story journal < SCRIPT > JOURNAL   a script without `map`, `keep`, `drain`, `names`, notes and `why` as a journal
  story answers SCRIPT < ANSWERS     the script with a journal's answers, and the nodes as they fill up";

fn main() -> ExitCode {
    let arguments: Vec<String> = std::env::args().skip(1).collect();
    let words: Vec<&str> = arguments.iter().map(String::as_str).collect();
    let output = match words.as_slice() {
        ["run", script] => run_script(script),
        ["journal"] => make_journal(),
        ["answers", script] => tell(script),
        _ => Err(String::from(USAGE)),
    };
    let written = output.and_then(|bytes| std::io::stdout().write_all(&bytes).map_err(|error| error.to_string()));
    match written {
        Ok(()) => ExitCode::SUCCESS,
        Err(message) => {
            eprintln!("{message}");
            ExitCode::FAILURE
        }
    }
}

/// All of standard input.
fn standard_input() -> Result<Vec<u8>, String> {
    let mut bytes = Vec::new();
    match std::io::stdin().read_to_end(&mut bytes) {
        Ok(_) => Ok(bytes),
        Err(error) => Err(format!("standard input: {error}")),
    }
}

/// The script in these bytes.
fn script_in(bytes: Vec<u8>) -> Result<Script, String> {
    let text = String::from_utf8(bytes).map_err(|_| String::from("the script is not UTF-8 text"))?;
    read_script(&text).map_err(|fault| fault.to_string())
}

/// The script in a file; the files that it names stand beside it.
fn script_at(path: &str) -> Result<Script, String> {
    let script = script_in(std::fs::read(path).map_err(|error| format!("{path}: {error}"))?)?;
    let folder = Path::new(path).parent().map_or_else(PathBuf::new, Path::to_path_buf);
    Ok(Script { folder, ..script })
}

/// `story run SCRIPT`.
fn run_script(path: &str) -> Result<Vec<u8>, String> {
    run(&script_at(path)?).map(String::into_bytes)
}

/// `story journal`.
fn make_journal() -> Result<Vec<u8>, String> {
    journal(&script_in(standard_input()?)?).map_err(|fault| fault.to_string())
}

/// `story answers SCRIPT`.
fn tell(path: &str) -> Result<Vec<u8>, String> {
    told(&script_at(path)?, &standard_input()?).map(String::into_bytes)
}
