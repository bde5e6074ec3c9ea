//! The program: runs, makes and compares journals.

use std::io::{Read, Write};
use std::process::ExitCode;

use reference::fair;
use reference::generate;
use reference::journal::{run, ANSWER};
use reference::program::output_of;

const USAGE: &str = "usage:
  reference run < JOURNAL > ANSWERS         the journal program itself
  reference make SEED RECORDS > JOURNAL     a good journal
  reference damaged SEED > JOURNAL          a damaged journal
  reference check PLACER SEED COUNT RECORDS runs PLACER on COUNT good journals of RECORDS records and as
                                            many damaged ones, from SEED on, and compares byte for byte
  reference fair SEED COUNT CALLS           checks demand 3 on COUNT lists of CALLS calls and COUNT journals
  reference show < ANSWERS                  answers as lines of text";

fn main() -> ExitCode {
    let arguments: Vec<String> = std::env::args().skip(1).collect();
    let words: Vec<&str> = arguments.iter().map(String::as_str).collect();
    let result = match words.as_slice() {
        ["run"] => run_program(),
        ["make", seed, records] => make(seed, records),
        ["damaged", seed] => make_damaged(seed),
        ["check", placer, seed, count, records] => check(placer, seed, count, records),
        ["fair", seed, count, calls] => check_fair(seed, count, calls),
        ["show"] => show(),
        _ => Err(String::from(USAGE)),
    };
    match result {
        Ok(()) => ExitCode::SUCCESS,
        Err(message) => {
            eprintln!("{message}");
            ExitCode::FAILURE
        }
    }
}

/// A number from the command line.
fn number(word: &str) -> Result<u64, String> {
    word.parse().map_err(|_| format!("not a number: {word}"))
}

/// All of standard input.
fn standard_input() -> Result<Vec<u8>, String> {
    let mut bytes = Vec::new();
    match std::io::stdin().read_to_end(&mut bytes) {
        Ok(_) => Ok(bytes),
        Err(error) => Err(format!("standard input: {error}")),
    }
}

/// Writes all bytes to standard output.
fn standard_output(bytes: &[u8]) -> Result<(), String> {
    std::io::stdout().write_all(bytes).map_err(|error| format!("standard output: {error}"))
}

/// `reference run`.
fn run_program() -> Result<(), String> {
    standard_output(&run(&standard_input()?))
}

/// `reference make SEED RECORDS`.
fn make(seed: &str, records: &str) -> Result<(), String> {
    standard_output(&generate::journal(number(seed)?, number(records)? as usize))
}

/// `reference damaged SEED`.
fn make_damaged(seed: &str) -> Result<(), String> {
    standard_output(&generate::damaged(number(seed)?))
}

/// The bytes of one answer in hexadecimal.
fn hexadecimal(bytes: &[u8]) -> String {
    let mut text = String::new();
    for byte in bytes {
        text.push_str(&format!("{byte:02X} "));
    }
    text.trim_end().to_string()
}

/// The first answer in which two outputs differ, as text.
fn first_difference(expected: &[u8], found: &[u8]) -> String {
    let longest = expected.len().max(found.len());
    let mut from = 0;
    while from < longest {
        let one = &expected[from.min(expected.len())..(from + ANSWER).min(expected.len())];
        let other = &found[from.min(found.len())..(from + ANSWER).min(found.len())];
        if one != other {
            let index = from / ANSWER;
            return format!("answer {index}: reference [{}], placer [{}]", hexadecimal(one), hexadecimal(other));
        }
        from += ANSWER;
    }
    String::from("no difference")
}

/// Compares PLACER with the reference on one journal; gives how many answers were compared.
fn compare(placer: &str, what: &str, seed: u64, journal: &[u8]) -> Result<usize, String> {
    let expected = run(journal);
    let found = output_of(placer, journal).map_err(|error| format!("{what} seed {seed}: {error}"))?;
    if expected != found {
        return Err(format!("DIFFERENT at {what} seed {seed}: {}", first_difference(&expected, &found)));
    }
    Ok(expected.len() / ANSWER)
}

/// `reference check PLACER SEED COUNT RECORDS`.
fn check(placer: &str, seed: &str, count: &str, records: &str) -> Result<(), String> {
    let first = number(seed)?;
    let count = number(count)?;
    let records = number(records)? as usize;
    let mut good = 0;
    let mut broken = 0;
    for turn in 0..count {
        let seed = first.wrapping_add(turn);
        good += compare(placer, "good", seed, &generate::journal(seed, records))?;
        broken += compare(placer, "damaged", seed, &generate::damaged(seed))?;
    }
    println!("{count} good journals, {good} records compared; {count} damaged journals, {broken} answers compared; all the same");
    Ok(())
}

/// `reference fair SEED COUNT CALLS`.
fn check_fair(seed: &str, count: &str, calls: &str) -> Result<(), String> {
    let first = number(seed)?;
    let calls = number(calls)? as usize;
    let mut total = fair::Seen::default();
    for turn in 0..number(count)? {
        let seed = first.wrapping_add(turn);
        for (start, list) in [generate::list(seed, calls), generate::journal_parts(seed, calls)] {
            match fair::check(&start, &list) {
                Ok(seen) => fair::add(&mut total, seen),
                Err(unfair) => return Err(format!("UNFAIR at seed {seed}: {unfair:?}")),
            }
        }
    }
    println!(
        "{} grants, {} windows, {} at-least-k and {} exactly-k claims hold",
        total.grants, total.windows, total.at_least, total.exact
    );
    Ok(())
}

/// `reference show`.
fn show() -> Result<(), String> {
    let answers = standard_input()?;
    let mut lines = String::new();
    for answer in answers.chunks(ANSWER) {
        if answer.len() < ANSWER {
            lines.push_str(&format!("short: {}\n", hexadecimal(answer)));
            continue;
        }
        let page = u32::from_le_bytes([answer[8], answer[9], answer[10], answer[11]]);
        lines.push_str(&format!("kind {:3} refusal {:2} node {:3} page {}\n", answer[2], answer[3], answer[4], page));
    }
    standard_output(lines.as_bytes())
}
