//! Tests of the live program `serve` from outside: it is run as a command, fed over pipes or by the real client, and killed.

#![forbid(unsafe_code)]

use std::path::{Path, PathBuf};
use std::process::ExitCode;
use std::thread;
use std::time::{Duration, Instant};

mod cases;
mod client;
mod expect;
mod kills;
mod program;
// the same numbers from a seed as in compare, of which not every function is needed here
#[allow(dead_code)]
#[path = "../../compare/src/random.rs"]
mod random;
mod refusals;
mod streams;

use program::Program;

const USAGE: &str = "usage: trials streams FOLDER SERVE..\n\
    \x20      trials refusals FOLDER SERVE..\n\
    \x20      trials client FOLDER SERVE..\n\
    \x20      trials kills [--seed N] [--kills N] FOLDER SERVE..\n\
    SERVE.. is the command of the live program, and must become it (exec), so that a kill reaches it. FOLDER is made where it is\n\
    missing; each run works in a folder of its own below it, which is left there where something failed.\n\
    Status: 0 all is well, 1 something failed, 2 bad usage, 77 skipped.";

/// No test takes longer, whatever hangs.
const LONGEST: Duration = Duration::from_secs(900);

/// What became of a test.
pub enum Done {
    Passed(String),
    Skipped(String),
}

pub type Outcome = Result<Done, String>;

/// The options of the kill test.
pub struct Options {
    pub seed: u64,
    pub kills: usize,
}

fn options(words: &mut Vec<String>) -> Option<Options> {
    let mut options = Options {
        seed: 20_480,
        kills: 100,
    };
    while words.first().is_some_and(|w| w.starts_with("--")) {
        if words.len() < 2 {
            return None;
        }
        let value = words.remove(1);
        match words.remove(0).as_str() {
            "--seed" => options.seed = value.parse().ok()?,
            "--kills" => options.kills = value.parse().ok()?,
            _ => return None,
        }
    }
    Some(options)
}

fn run(verb: &str, options: &Options, folder: &Path, program: &Program) -> Option<Outcome> {
    Some(match verb {
        "streams" => streams::run(folder, program),
        "refusals" => refusals::run(folder, program),
        "client" => client::run(folder, program),
        "kills" => kills::run(folder, program, options),
        _ => return None,
    })
}

fn usage() -> ExitCode {
    eprintln!("{USAGE}");
    ExitCode::from(2)
}

fn main() -> ExitCode {
    let mut words: Vec<String> = std::env::args().skip(1).collect();
    if words.is_empty() {
        return usage();
    }
    let verb = words.remove(0);
    let Some(options) = options(&mut words) else {
        return usage();
    };
    if words.len() < 2 {
        return usage();
    }
    let folder = PathBuf::from(words.remove(0)).join(format!("{verb}.{}", std::process::id()));
    let program = Program::new(&words);
    thread::spawn(|| {
        thread::sleep(LONGEST);
        println!("FAILED: still running after {} s", LONGEST.as_secs());
        std::process::exit(1);
    });
    let began = Instant::now();
    let made = std::fs::create_dir_all(&folder).map_err(|e| format!("{}: {e}", folder.display()));
    let outcome = match made.map(|()| run(&verb, &options, &folder, &program)) {
        Ok(Some(outcome)) => outcome,
        Ok(None) => return usage(),
        Err(error) => Err(error),
    };
    let took = began.elapsed().as_secs_f64();
    match outcome {
        Ok(Done::Passed(text)) => {
            let _ = std::fs::remove_dir_all(&folder);
            println!("{verb}: {text} ({took:.1} s)");
            ExitCode::SUCCESS
        }
        Ok(Done::Skipped(text)) => {
            let _ = std::fs::remove_dir_all(&folder);
            println!("skipped: {verb}: {text}");
            ExitCode::from(77)
        }
        Err(text) => {
            println!(
                "{verb} FAILED: {text} ({took:.1} s; its files are in {})",
                folder.display()
            );
            ExitCode::FAILURE
        }
    }
}
