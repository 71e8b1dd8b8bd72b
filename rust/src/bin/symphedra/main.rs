//! The command: maps files, asks the library, prints. See `symphedra help`.

mod args;
mod files;
mod json;
mod report;
mod show;
#[allow(unsafe_code)]
mod system;
mod writing;

use args::{Action, Question};
use files::{Failure, Source, Trouble};
use report::Report;
use show::Style;
use std::io::{self, BufWriter, Write};
use std::path::Path;
use std::process::ExitCode;
use symphedra::Refusal;

/// How a file fared; the worst of all files is the exit status.
#[derive(Debug, Clone, Copy, PartialEq, Eq, PartialOrd, Ord)]
enum Outcome {
    Good = 0,
    Refused = 1,
    Failed = 2,
}

fn main() -> ExitCode {
    system::install_handlers();
    let outcome = match args::parse() {
        Action::Ask { question, json, files } => {
            worst(files.iter().map(|path| ask(question, json, path)))
        }
        Action::Upgrade { target, files } => worst(files.iter().map(|path| {
            tell(path, files::upgrade(path, target), || {
                format!("now {}", show::target_name(target))
            })
        })),
        Action::Write(job) => tell(&job.out, writing::write(&job), || "written".into()),
        Action::Completions(shell) => match io::stdout().write_all(&args::completions(shell)) {
            Ok(()) => Outcome::Good,
            Err(error) => output_failed(&error),
        },
    };
    ExitCode::from(outcome as u8)
}

fn worst(outcomes: impl Iterator<Item = Outcome>) -> Outcome {
    outcomes.max().unwrap_or(Outcome::Good)
}

/// Answers a question about one file. An answer goes to standard output, a refusal in words and
/// every trouble to standard error.
fn ask(question: Question, json: bool, path: &Path) -> Outcome {
    let source = match Source::open(path) {
        Ok(source) => source,
        Err(trouble) => return failed(path, &trouble),
    };
    let report = Report::new(question, source.bytes());
    if let Err(trouble) = source.check_unchanged() {
        return failed(path, &trouble);
    }
    let length = source.len();
    if let Err(error) = print(&report, json, path, length) {
        return output_failed(&error);
    }
    match report.refusal() {
        None => Outcome::Good,
        Some(refusal) => {
            if !json && !report.shows_refusal() {
                refused(path, refusal);
            }
            Outcome::Refused
        }
    }
}

fn print(report: &Report, json: bool, path: &Path, length: u64) -> io::Result<()> {
    let mut out = BufWriter::new(io::stdout().lock());
    if json {
        json::line(&mut out, report, path)?;
    } else {
        show::report(&mut out, &Style::stdout(), report, path, length)?;
    }
    out.flush()
}

/// Says on standard error how an upgrade or a write went.
fn tell(path: &Path, result: Result<(), Failure>, good: impl FnOnce() -> String) -> Outcome {
    match result {
        Ok(()) => {
            say(&format!("{}: {}", show::path(path), good()));
            Outcome::Good
        }
        Err(Failure::Refused(refusal)) => {
            refused(path, refusal);
            Outcome::Refused
        }
        Err(Failure::Trouble(trouble)) => failed(path, &trouble),
    }
}

/// A message to a person. Where standard error is gone there is no one to tell.
fn say(message: &str) {
    let _ = writeln!(io::stderr(), "{message}");
}

fn refused(path: &Path, refusal: Refusal) {
    let style = Style::stderr();
    let (path, words) = (show::path(path), style.bad(&refusal.to_string()));
    let mut message = format!("{path}: {words}\n  {}", refusal.advice());
    if let Some(more) = what_list_shows(refusal) {
        message += &format!("\n  {more}");
    }
    say(&message);
}

/// The refusal about which the listing tells more.
fn what_list_shows(refusal: Refusal) -> Option<&'static str> {
    (refusal == Refusal::StaleListing).then_some("`symphedra list FILE` says why it has none")
}

fn failed(path: &Path, trouble: &Trouble) -> Outcome {
    say(&format!("symphedra: {}: {trouble}", show::path(path)));
    Outcome::Failed
}

fn output_failed(error: &io::Error) -> Outcome {
    // A reader that went away, such as `head`, needs no message.
    if error.kind() != io::ErrorKind::BrokenPipe {
        say(&format!("symphedra: standard output: {error}"));
    }
    Outcome::Failed
}
