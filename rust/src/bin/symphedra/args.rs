//! The command line.

use clap::{value_parser, Arg, ArgAction, ArgMatches, Command};
use std::path::PathBuf;
use symphedra::{Form, Target};

/// What is asked of each file.
#[derive(Debug, Clone, Copy, PartialEq, Eq)]
pub enum Question {
    Scan,
    List,
    Judge,
    Walk,
    Samples,
    Info,
}

pub struct WriteJob {
    pub form: Form,
    pub rate: u32,
    pub channels: u16,
    pub bits: u16,
    pub bext: Option<PathBuf>,
    pub chna: Option<PathBuf>,
    pub audio: PathBuf,
    pub out: PathBuf,
}

pub enum Action {
    Ask { question: Question, json: bool, files: Vec<PathBuf> },
    Upgrade { target: Target, files: Vec<PathBuf> },
    Write(WriteJob),
    Completions(clap_complete::Shell),
}

const AFTER_HELP: &str = "\
Exit status: 0 all good; 1 some file was refused; 2 bad usage, or a file that can't be opened, \
read, mapped or written.";

const TABLE_HELP: &str = "\
Where some size isn't the chunk's own, a column says where each came from:
  own      the chunk's own size field
  ds64     the data size of ds64
  entry N  the entry of ds64 at position N, from 0
JSON always has it, as \"from\".";

fn files() -> Arg {
    Arg::new("FILE").required(true).action(ArgAction::Append).value_parser(value_parser!(PathBuf))
}

fn path(name: &'static str) -> Arg {
    Arg::new(name).value_name("FILE").value_parser(value_parser!(PathBuf))
}

fn question(name: &'static str, about: &'static str) -> Command {
    let json =
        Arg::new("json").long("json").action(ArgAction::SetTrue).help("One JSON object a line");
    Command::new(name).about(about).arg(json).arg(files())
}

fn command() -> Command {
    let to = Arg::new("to").long("to").required(true).value_parser(["rf64", "bw64"]);
    let form = Arg::new("form").long("form").required(true).value_parser(["riff", "rf64", "bw64"]);
    let number = |name: &'static str, help: &'static str| {
        Arg::new(name).long(name).value_name("N").required(true).help(help)
    };
    Command::new("symphedra")
        .version(env!("CARGO_PKG_VERSION"))
        .about("RIFF, RF64 and BW64 recordings: scan, list, judge, walk, upgrade and write")
        .after_help(AFTER_HELP)
        .subcommand_required(true)
        .arg_required_else_help(true)
        .subcommand(
            question("scan", "The table of each file, or its refusal").after_help(TABLE_HELP),
        )
        .subcommand(
            question("list", "The table of each file whatever its format, or its refusal")
                .after_help(TABLE_HELP),
        )
        .subcommand(question(
            "judge",
            "Whether each file's format is good and its audio whole blocks",
        ))
        .subcommand(question("walk", "What the plain 32-bit walk shows, and where it stops"))
        .subcommand(question("samples", "The sample count that each file states"))
        .subcommand(question("info", "Form, format, bext and chna records, duration"))
        .subcommand(
            Command::new("upgrade")
                .about("RIFF files made RF64 or BW64 in place; a refused file is not touched")
                .arg(to.help("The form to upgrade to"))
                .arg(files()),
        )
        .subcommand(
            Command::new("write")
                .about("A file from raw PCM audio")
                .arg(form.help("The form to write"))
                .arg(number("rate", "Frames a second").value_parser(value_parser!(u32)))
                .arg(number("channels", "Channels").value_parser(value_parser!(u16)))
                .arg(number("bits", "Bits a sample").value_parser(value_parser!(u16)))
                .arg(path("bext").long("bext").help("A file that holds the bext payload"))
                .arg(path("chna").long("chna").help("A file that holds the chna payload"))
                .arg(path("AUDIO").value_name("AUDIO").required(true).help("The raw audio"))
                .arg(path("OUT").value_name("OUT").required(true).help("The file to write")),
        )
        .subcommand(Command::new("completions").about("A shell's completion script").arg(
            Arg::new("SHELL").required(true).value_parser(value_parser!(clap_complete::Shell)),
        ))
}

/// The action asked for; bad usage ends the process with status 2, help with 0.
pub fn parse() -> Action {
    let matches = command().get_matches();
    match matches.subcommand() {
        Some(("scan", m)) => ask(Question::Scan, m),
        Some(("list", m)) => ask(Question::List, m),
        Some(("judge", m)) => ask(Question::Judge, m),
        Some(("walk", m)) => ask(Question::Walk, m),
        Some(("samples", m)) => ask(Question::Samples, m),
        Some(("info", m)) => ask(Question::Info, m),
        Some(("upgrade", m)) => {
            let target = match one::<String>(m, "to").as_str() {
                "rf64" => Target::Rf64,
                _ => Target::Bw64,
            };
            Action::Upgrade { target, files: paths(m) }
        }
        Some(("write", m)) => Action::Write(write_job(m)),
        Some(("completions", m)) => Action::Completions(one(m, "SHELL")),
        _ => unreachable!("clap asks for one of the subcommands"),
    }
}

fn ask(question: Question, m: &ArgMatches) -> Action {
    Action::Ask { question, json: m.get_flag("json"), files: paths(m) }
}

fn write_job(m: &ArgMatches) -> WriteJob {
    WriteJob {
        form: match one::<String>(m, "form").as_str() {
            "riff" => Form::Riff,
            "rf64" => Form::Rf64,
            _ => Form::Bw64,
        },
        rate: one(m, "rate"),
        channels: one(m, "channels"),
        bits: one(m, "bits"),
        bext: m.get_one("bext").cloned(),
        chna: m.get_one("chna").cloned(),
        audio: one(m, "AUDIO"),
        out: one(m, "OUT"),
    }
}

fn paths(m: &ArgMatches) -> Vec<PathBuf> {
    m.get_many("FILE").into_iter().flatten().cloned().collect()
}

/// An argument that clap has seen to be there.
fn one<T: Clone + Send + Sync + 'static>(m: &ArgMatches, name: &str) -> T {
    m.get_one::<T>(name).cloned().expect("a required argument")
}

pub fn completions(shell: clap_complete::Shell) -> Vec<u8> {
    let mut script = Vec::new();
    clap_complete::generate(shell, &mut command(), "symphedra", &mut script);
    script
}

#[cfg(test)]
mod tests {
    #[test]
    fn the_command_line_is_well_made() {
        super::command().debug_assert();
    }
}
