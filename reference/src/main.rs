//! The binary: `reference bench`, `reference replay`, `reference replan`, `reference sessions`.

#![forbid(unsafe_code)]

use reference::batch::Stop;
use reference::{bench, cases, flash, plans, sessions};
use std::fs::File;
use std::io::{self, BufReader, BufWriter, Read, StdinLock, StdoutLock, Write};
use std::process::ExitCode;

const BUFFER: usize = 1 << 16;
type Input = BufReader<StdinLock<'static>>;
type Output = BufWriter<StdoutLock<'static>>;

fn main() -> ExitCode {
    let arguments: Vec<_> = std::env::args_os().skip(1).collect();
    let done = match arguments.as_slice() {
        [word] if word == "bench" => run_bench(),
        [word] if word == "replay" => run_batch("case", cases::replay),
        [word] if word == "replan" => run_batch("record", plans::replan),
        [word] if word == "sessions" => run_sessions(),
        _ => {
            eprintln!("usage: reference bench | replay | replan | sessions");
            return ExitCode::from(2);
        }
    };
    match done {
        Ok(true) => ExitCode::SUCCESS,
        Ok(false) => ExitCode::FAILURE,
        Err(error) => {
            eprintln!("reference: {error}");
            ExitCode::FAILURE
        }
    }
}

fn run_bench() -> io::Result<bool> {
    let image = read_image();
    let mut input = Vec::new();
    let input_max = bench::INPUT_MAX as u64;
    io::stdin().take(input_max).read_to_end(&mut input)?;
    io::stdout().write_all(bench::text(image.as_deref(), &input).as_bytes())?;
    Ok(true)
}

/// The image file; any file that cannot be read counts as missing. One byte over the right size is
/// enough to see that the size is wrong.
fn read_image() -> Option<Vec<u8>> {
    let mut image = Vec::new();
    let file = File::open(bench::IMAGE_FILE).ok()?;
    file.take(flash::IMAGE_LEN as u64 + 1)
        .read_to_end(&mut image)
        .ok()?;
    Some(image)
}

/// Answers a batch of cases or records. A bad one is told on standard error, as `what` and its
/// number.
fn run_batch(
    what: &str,
    answer: impl FnOnce(&mut Input, &mut Output) -> Result<(), Stop>,
) -> io::Result<bool> {
    let mut input = BufReader::with_capacity(BUFFER, io::stdin().lock());
    let mut output = BufWriter::with_capacity(BUFFER, io::stdout().lock());
    let done = answer(&mut input, &mut output);
    // What stands before a bad case or record is answered.
    output.flush()?;
    match done {
        Ok(()) => Ok(true),
        Err(Stop::Malformed(number)) => {
            eprintln!("reference: {what} {number} is not well formed");
            Ok(false)
        }
        Err(Stop::Io(error)) => Err(error),
    }
}

fn run_sessions() -> io::Result<bool> {
    let mut output = io::stdout().lock();
    let mut all = true;
    for number in 1..=sessions::COUNT {
        let checks = sessions::play(number);
        all &= checks.iter().all(sessions::Check::passes);
        writeln!(output, "{}", sessions::line(number, &checks))?;
    }
    Ok(all)
}
