//! Runs the proved program and the careful one on whole journals in turns, compares their output byte for byte
//! and prints the times as Markdown.

use std::fs::File;
use std::io::Read;
use std::path::{Path, PathBuf};
use std::process::{Command, ExitCode, Stdio};
use std::time::{Duration, Instant};

use bench::journals::{empty, journals, Journal};

const USAGE: &str = "usage: journals PLACER [ROUNDS]";

/// The least time of the proved program and of the careful one.
type Best = [Duration; 2];

fn main() -> ExitCode {
    let arguments: Vec<String> = std::env::args().skip(1).collect();
    let result = match arguments.as_slice() {
        [placer] => measure(placer, 25),
        [placer, rounds] => rounds.parse().map_err(|_| USAGE.into()).and_then(|rounds| measure(placer, rounds)),
        _ => Err(USAGE.into()),
    };
    match result {
        Ok(()) => ExitCode::SUCCESS,
        Err(message) => {
            eprintln!("{message}");
            ExitCode::FAILURE
        }
    }
}

/// Measures all journals, which lie in a folder of their own meanwhile, and prints the table.
fn measure(placer: &str, rounds: usize) -> Result<(), String> {
    let careful = std::env::current_exe().map_err(|error| error.to_string())?.with_file_name("careful");
    let folder = std::env::temp_dir().join(format!("spirerivet-journals-{}", std::process::id()));
    std::fs::create_dir(&folder).map_err(|error| format!("{}: {error}", folder.display()))?;
    let mut all = vec![Journal { name: "machine alone", bytes: empty(), records: 0, refused: 0 }];
    all.extend(journals());
    let best = best_of(&[PathBuf::from(placer), careful], &folder, &all, rounds);
    let _ = std::fs::remove_dir_all(&folder);
    print(&all, &best?, rounds);
    Ok(())
}

/// The best times on each journal. All journals take turns, so that a busy moment spoils few rounds of any; and neither
/// program is always the first, nor has fresh memory to be read into, which made the second one seem slower.
fn best_of(programs: &[PathBuf; 2], folder: &Path, all: &[Journal], rounds: usize) -> Result<Vec<Best>, String> {
    let mut best = vec![[Duration::MAX; 2]; all.len()];
    for journal in all {
        let file = folder.join(journal.name);
        std::fs::write(&file, &journal.bytes).map_err(|error| format!("{}: {error}", file.display()))?;
    }
    let mut answers = [Vec::new(), Vec::new()];
    for round in 0..rounds {
        for (journal, best) in all.iter().zip(&mut best) {
            let file = folder.join(journal.name);
            for turn in [round % 2, 1 - round % 2] {
                best[turn] = best[turn].min(run(&programs[turn], &file, &mut answers[turn])?);
            }
            if answers[0] != answers[1] || answers[0].len() != 12 * journal.records {
                return Err(format!("{}: the answers differ", journal.name));
            }
        }
    }
    Ok(best)
}

/// Runs a program on a journal and takes all that it writes; gives the time from its start to its end.
fn run(program: &Path, journal: &Path, answers: &mut Vec<u8>) -> Result<Duration, String> {
    let told = |error| format!("{}: {error}", program.display());
    let input = File::open(journal).map_err(told)?;
    answers.clear();
    let begin = Instant::now();
    let mut child = Command::new(program).stdin(input).stdout(Stdio::piped()).spawn().map_err(told)?;
    if let Some(mut output) = child.stdout.take() {
        output.read_to_end(answers).map_err(told)?;
    }
    let status = child.wait().map_err(told)?;
    let time = begin.elapsed();
    if !status.success() {
        return Err(format!("{}: {status}", program.display()));
    }
    Ok(time)
}

/// The table; the first journal is the machine record alone, whose time is taken off the others.
fn print(all: &[Journal], best: &[Best], rounds: usize) {
    let best: Vec<[f64; 2]> = best.iter().map(|best| best.map(|time| time.as_secs_f64() * 1e3)).collect();
    let start = best[0];
    println!(
        "Whole runs of the journal program: milliseconds, best of {rounds} rounds, less the time of a run on a machine"
    );
    println!("record alone: proved {:.2}, careful {:.2}. Ratio = proved program / careful Rust.\n", start[0], start[1]);
    println!("| journal | records | refused | proved ms | careful ms | ratio |");
    println!("|---|---|---|---|---|---|");
    for (Journal { name, records, refused, .. }, best) in all.iter().zip(&best).skip(1) {
        let [proved, careful] = [best[0] - start[0], best[1] - start[1]];
        println!("| {name} | {records} | {refused} | {proved:.2} | {careful:.2} | {:.2} |", proved / careful);
    }
}
