//! Runs the sides on the same inputs and compares every value, count and size bit for bit.
#![forbid(unsafe_code)]

mod corpus;
mod fault_runs;
mod generate;
mod kinds;
mod reading_faults;
mod reference;
mod report;
mod rng;
mod run;
mod side;
mod slowest;
mod stack;
mod walks;

use std::{env, fs, io::Read, path::PathBuf, process::ExitCode, thread};

use judge::{Judge, Walk};
use run::{Plan, Run, written};
use side::{Library, Reference, Response, Side};
use text::Call;

const HELP: &str = "\
differ: the crate's own text, the papers read plainly and the proved library, run on the same inputs

  differ all [--cases N] [--builds N] [--seed S]   runs everything; N random cases for each leaf
             [--largest N] [--largest-p P]         (200000), N whole builds (as many) and N of 4,096
             [--call CALL]                         modules and 65,535 records (100), with P at most
                                                   so large (262144, which takes 4.3 GB); of one
                                                   CALL alone by its word in the text form
  differ faults [--cases N] [--seed S]             runs every deliberate fault (N: 4000)
  differ reading-faults [--cases N] [FOLDER]       runs every deliberate fault of the reading on the
                                                   recorded builds, cuts and refusals, and on N
                                                   random builds beside them (0)
  differ corpus [FOLDER]                           writes the recorded corpus (into `corpus`)
  differ corpus --check [FOLDER]                   compares the recorded corpus with a new one
  differ stack [--cases N]                         how much stack a call of the library takes, over
                                                   N random ones of each call (1000) and the largest
  differ slowest                                   how long the library takes for the accepted builds
                                                   that take it longest, as far as they are known
  differ answer [--side SIDE] [--walk WALK] [FILE] answers the cases of a file or of standard input;
                                                   SIDE is `crate`, `reference` or `library`, WALK the
                                                   order in which the crate walks hash maps:
                                                   `document`, `own`, `inserted`, `ascending`,
                                                   `descending`, or a number to draw it from
";

/// The crate's text walks dependencies by calling itself, up to 4,096 deep.
const STACK: usize = 1 << 28;

fn main() -> ExitCode {
    let arguments: Vec<String> = env::args().skip(1).collect();
    let work = thread::Builder::new().stack_size(STACK).spawn(move || command(&arguments));
    let result = work.map(thread::JoinHandle::join);
    match result {
        Ok(Ok(Ok(true))) => ExitCode::SUCCESS,
        Ok(Ok(Err(message))) => {
            eprintln!("differ: {message}");
            ExitCode::from(2)
        }
        _ => ExitCode::FAILURE,
    }
}

/// Runs one command; true if all is as it should be.
fn command(arguments: &[String]) -> Result<bool, String> {
    let options = Options::read(arguments)?;
    match options.command.as_str() {
        "all" => all(options),
        "faults" => faults(options),
        "reading-faults" => reading_faults(options),
        "corpus" => corpus(options),
        "stack" => stack(options),
        "slowest" => {
            options.done(0)?;
            report::slowest(slowest::builds());
            Ok(true)
        }
        "answer" => answer(options),
        "--help" | "-h" | "help" => {
            print!("{HELP}");
            Ok(true)
        }
        other => Err(format!("unknown command `{other}`\n\n{HELP}")),
    }
}

fn all(mut options: Options) -> Result<bool, String> {
    let cases = options.number("--cases")?.unwrap_or(200_000);
    let only = options.value("--call")?.map(|word| call(&word)).transpose()?;
    let plan = Plan {
        seed: options.number("--seed")?.unwrap_or(1),
        only,
        cases,
        builds: options.number("--builds")?.unwrap_or(cases),
        largest: options.number("--largest")?.unwrap_or(100),
        largest_p: options.number("--largest-p")?.unwrap_or(64 * 4_096) as usize,
    };
    options.done(0)?;
    Ok(report::run(&Run::all(plan)))
}

fn faults(mut options: Options) -> Result<bool, String> {
    let cases = options.number("--cases")?.unwrap_or(4_000);
    let seed = options.number("--seed")?.unwrap_or(1);
    options.done(0)?;
    fault_runs::break_off_quietly();
    Ok(report::faults(&fault_runs::all(seed, cases)))
}

fn reading_faults(mut options: Options) -> Result<bool, String> {
    let cases = options.number("--cases")?.unwrap_or(0);
    options.done(1)?;
    fault_runs::break_off_quietly();
    Ok(report::reading_faults(&reading_faults::all(&options.folder(), cases)?))
}

fn corpus(mut options: Options) -> Result<bool, String> {
    let check = options.flag("--check");
    options.done(1)?;
    corpus::write(&options.folder(), check)
}

fn stack(mut options: Options) -> Result<bool, String> {
    let cases = options.number("--cases")?.unwrap_or(1_000);
    options.done(0)?;
    report::stack(&stack::measure(cases).map_err(|error| error.to_string())?);
    Ok(true)
}

fn answer(mut options: Options) -> Result<bool, String> {
    let side = options.value("--side")?.unwrap_or("crate".into());
    let walk = walk(&options.value("--walk")?.unwrap_or("document".into()))?;
    options.done(1)?;
    answer_file(&side, walk, options.rest.first())
}

/// A call by its word.
fn call(word: &str) -> Result<Call, String> {
    let named = Call::ALL.into_iter().find(|call| call.word() == word);
    named.ok_or_else(|| format!("unknown call `{word}`"))
}

/// An order of walking by its word.
fn walk(word: &str) -> Result<Walk, String> {
    match word {
        "document" => Ok(Walk::Document),
        "own" => Ok(Walk::Own),
        "inserted" => Ok(Walk::Inserted),
        "ascending" => Ok(Walk::Ascending),
        "descending" => Ok(Walk::Descending),
        seed => seed.parse().map(Walk::Shuffled).map_err(|_| format!("unknown walk `{seed}`")),
    }
}

/// Answers the cases of a file or of standard input. What document 01 refuses isn't put to the
/// crate.
fn answer_file(side: &str, walk: Walk, file: Option<&String>) -> Result<bool, String> {
    let text = match file {
        Some(file) => fs::read_to_string(file).map_err(|error| format!("{file}: {error}"))?,
        None => {
            let mut text = String::new();
            std::io::stdin().read_to_string(&mut text).map_err(|error| error.to_string())?;
            text
        }
    };
    for case in text::read_cases(&text).map_err(|error| error.to_string())? {
        let refused = Reference.respond(&case.question);
        let response = match side {
            "reference" => refused,
            "library" => Library.respond(&case.question),
            "crate" if matches!(refused, Response::Refused(_)) => refused,
            "crate" => Judge { walk, ..Judge::default() }.respond(&case.question),
            other => return Err(format!("unknown side `{other}`")),
        };
        print!("{}", written(&case.tag, case.question.call(), &response));
    }
    Ok(true)
}

/// The words of a command line.
struct Options {
    command: String,
    rest: Vec<String>,
}

impl Options {
    fn read(arguments: &[String]) -> Result<Self, String> {
        let (command, rest) = arguments.split_first().ok_or(HELP)?;
        Ok(Self { command: command.clone(), rest: rest.to_vec() })
    }

    /// Takes an option that stands alone.
    fn flag(&mut self, name: &str) -> bool {
        let at = self.rest.iter().position(|word| word == name);
        at.map(|at| self.rest.remove(at)).is_some()
    }

    /// Takes an option with its value.
    fn value(&mut self, name: &str) -> Result<Option<String>, String> {
        let Some(at) = self.rest.iter().position(|word| word == name) else {
            return Ok(None);
        };
        if at + 1 >= self.rest.len() {
            return Err(format!("{name} needs a value"));
        }
        self.rest.remove(at);
        Ok(Some(self.rest.remove(at)))
    }

    /// Takes an option with a number.
    fn number(&mut self, name: &str) -> Result<Option<u64>, String> {
        let value = self.value(name)?;
        let number = value.map(|value| value.parse().map_err(|_| format!("{name} needs a number")));
        number.transpose()
    }

    /// The folder of the corpus, which may be the word that is left.
    fn folder(&self) -> PathBuf {
        PathBuf::from(self.rest.first().map_or("corpus", String::as_str))
    }

    /// At most so many words are left.
    fn done(&self, most: usize) -> Result<(), String> {
        match self.rest.get(most) {
            None => Ok(()),
            Some(word) => Err(format!("`{word}` isn't expected here")),
        }
    }
}
