//! The command line.

#![forbid(unsafe_code)]

use std::env;
use std::ffi::OsString;
use std::io::{self, BufReader, BufWriter, Write};
use std::path::{Path, PathBuf};
use std::process::ExitCode;

use second::compare::{check, compare, make, Failure, Summary};
use second::replay::answer_all;

const USAGE: &str = "\
usage: second [answer]                               answers the lines of standard input
       second make SEED LINES                        writes random lines
       second check SEEDS LINES                      checks the rules on random lines
       second compare PROGRAM SEEDS LINES [--check]  compares another program's answers
";

/// How much is read or written at a time.
const BUFFER_SIZE: usize = 1 << 16;

/// What the command line asks for.
enum Task {
    Answer,
    Make {
        seed: u64,
        lines: u64,
    },
    Check {
        seeds: u64,
        lines: u64,
    },
    Compare {
        program: PathBuf,
        seeds: u64,
        lines: u64,
        is_checking: bool,
    },
}

fn main() -> ExitCode {
    let arguments: Vec<OsString> = env::args_os().skip(1).collect();
    let Some(task) = read_task(&arguments) else {
        eprint!("{USAGE}");
        return ExitCode::from(2);
    };
    match perform(task) {
        Ok(()) => ExitCode::SUCCESS,
        Err(Failure::Found(account)) => {
            // Whoever reads this may have stopped. It is a failure anyway.
            let _ = io::stdout().write_all(account.as_bytes());
            ExitCode::FAILURE
        }
        Err(Failure::Io(error)) => {
            eprintln!("second: {error}");
            ExitCode::FAILURE
        }
    }
}

fn read_task(arguments: &[OsString]) -> Option<Task> {
    let count = |argument: &OsString| argument.to_str()?.parse().ok();
    let words: Vec<&str> = arguments
        .iter()
        .map(|argument| argument.to_str().unwrap_or(""))
        .collect();
    match *words.as_slice() {
        [] | ["answer"] => Some(Task::Answer),
        ["make", _, _] => Some(Task::Make {
            seed: count(&arguments[1])?,
            lines: count(&arguments[2])?,
        }),
        ["check", _, _] => Some(Task::Check {
            seeds: count(&arguments[1])?,
            lines: count(&arguments[2])?,
        }),
        ["compare", _, _, _] | ["compare", _, _, _, "--check"] => Some(Task::Compare {
            program: PathBuf::from(&arguments[1]),
            seeds: count(&arguments[2])?,
            lines: count(&arguments[3])?,
            is_checking: arguments.len() == 5,
        }),
        _ => None,
    }
}

fn perform(task: Task) -> Result<(), Failure> {
    match task {
        Task::Answer => answer_standard_input()?,
        Task::Make { seed, lines } => make(seed, lines, buffered_output())?,
        Task::Check { seeds, lines } => {
            let summary = check(seeds, lines)?;
            tell("checked", &summary)?;
        }
        Task::Compare {
            program,
            seeds,
            lines,
            is_checking,
        } => {
            let summary = compare_with(&program, seeds, lines, is_checking)?;
            let done = if is_checking {
                "compared and checked"
            } else {
                "compared"
            };
            tell(done, &summary)?;
        }
    }
    Ok(())
}

fn answer_standard_input() -> io::Result<()> {
    let input = BufReader::with_capacity(BUFFER_SIZE, io::stdin().lock());
    answer_all(input, buffered_output())
}

fn buffered_output() -> BufWriter<io::StdoutLock<'static>> {
    BufWriter::with_capacity(BUFFER_SIZE, io::stdout().lock())
}

/// Compares, and names the program when it can't be run.
fn compare_with(
    program: &Path,
    seeds: u64,
    lines: u64,
    is_checking: bool,
) -> Result<Summary, Failure> {
    compare(program, seeds, lines, is_checking).map_err(|failure| match failure {
        Failure::Io(error) => {
            Failure::Io(io::Error::other(format!("{}: {error}", program.display())))
        }
        found => found,
    })
}

fn tell(done: &str, summary: &Summary) -> io::Result<()> {
    let total = summary.tally.total();
    let text = format!("lines {done}: {total}\n{}", summary.text());
    io::stdout().write_all(text.as_bytes())
}
