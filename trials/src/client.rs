//! The real client: Debian's m16c-flash on a pseudo-terminal that Debian's socat joins to `serve`. The image file and both byte
//! streams are compared; the client's exit status alone would say little.

use crate::cases::{play, Case, Played, CASES};
use crate::expect::{holds, names, same, stamp, Stamp};
use crate::program::{read, room, write, Program};
use crate::{Done, Outcome};
use std::fs::{File, OpenOptions};
use std::os::unix::fs::OpenOptionsExt;
use std::path::{Path, PathBuf};
use std::process::{Child, Command, ExitStatus, Stdio};
use std::thread;
use std::time::{Duration, Instant};

const CLIENT: &str = "m16c-flash";
const JOINER: &str = "socat";
/// The client has no timeout of its own.
const PATIENCE: Duration = Duration::from_secs(90);

/// A program on the path.
fn found(name: &str) -> Option<PathBuf> {
    let path = std::env::var_os("PATH")?;
    std::env::split_paths(&path)
        .map(|folder| folder.join(name))
        .find(|file| file.is_file())
}

/// A child that does not outlive its test.
struct Guarded(Child);

impl Drop for Guarded {
    fn drop(&mut self) {
        let _ = self.0.kill();
        let _ = self.0.wait();
    }
}

impl Guarded {
    fn start(command: &mut Command, folder: &Path, log: &str) -> Result<Guarded, String> {
        let out = File::create(folder.join(log)).map_err(|e| format!("{log}: {e}"))?;
        let err = out.try_clone().map_err(|e| format!("{log}: {e}"))?;
        let child = command
            .current_dir(folder)
            .stdin(Stdio::null())
            .stdout(out)
            .stderr(err)
            .spawn();
        child.map(Guarded).map_err(|e| format!("{log}: {e}"))
    }

    fn end(&mut self, what: &str) -> Result<ExitStatus, String> {
        let until = Instant::now() + PATIENCE;
        while Instant::now() < until {
            if let Some(status) = self.0.try_wait().map_err(|e| format!("{what}: {e}"))? {
                return Ok(status);
            }
            thread::sleep(Duration::from_millis(5));
        }
        Err(format!("{what} did not end in {} s", PATIENCE.as_secs()))
    }
}

/// Puts `serve` on the line r8c.tty of a folder. It is up until the last who has it open closes it.
fn line_up(folder: &Path, program: &Program) -> Result<Guarded, String> {
    // tee passes each byte on as it comes, and records both streams
    write(
        &folder.join("line.sh"),
        format!("tee tx.bin | {} 2>serve.txt | tee rx.bin\n", program.line()).as_bytes(),
    )?;
    // -t: socat waits for the program's end; wait-slave: the last close is the end of the input
    let line = Guarded::start(
        Command::new(JOINER).args([
            "-t",
            "60",
            "PTY,link=r8c.tty,raw,echo=0,wait-slave,pty-interval=0.05",
            "SYSTEM:sh line.sh",
        ]),
        folder,
        "socat.txt",
    )?;
    let until = Instant::now() + Duration::from_secs(20);
    while std::fs::symlink_metadata(folder.join("r8c.tty")).is_err() {
        holds("socat made no line", Instant::now() < until)?;
        thread::sleep(Duration::from_millis(5));
    }
    Ok(line)
}

/// The client's run over that line with this ID, and how it ended.
fn client(folder: &Path, id: &str) -> Result<ExitStatus, String> {
    Guarded::start(
        Command::new(CLIENT).args(["./r8c.tty", "R8C", "prog.mot", id]),
        folder,
        "client.txt",
    )?
    .end(CLIENT)
}

fn session(case: &Case, folder: &Path, program: &Program, wanted: &Played) -> Result<(), String> {
    let folder = room(folder, case.name, case.before)?;
    write(&folder.join("prog.mot"), case.file)?;
    let before = stamp(&folder.join("unit.img"))?;
    let mut line = line_up(&folder, program)?;
    let status = client(&folder, case.id)?;
    let joined = line.end(JOINER)?;
    ended(case, &folder, wanted, &before, status, joined)
}

/// What a session has left: both streams, the image, no complaint and nothing left over, the file's stamp, how both programs ended.
fn ended(
    case: &Case,
    folder: &Path,
    wanted: &Played,
    before: &Stamp,
    status: ExitStatus,
    joined: ExitStatus,
) -> Result<(), String> {
    same(
        "the bytes that the client sent",
        &read(&folder.join("tx.bin"))?,
        case.sent,
    )?;
    same(
        "the replies that it got",
        &read(&folder.join("rx.bin"))?,
        &wanted.joined(),
    )?;
    same("unit.img", &read(&folder.join("unit.img"))?, &wanted.image)?;
    same("serve's complaints", &read(&folder.join("serve.txt"))?, b"")?;
    holds(
        "unit.img.new is left over",
        !names(folder)?.iter().any(|n| n == "unit.img.new"),
    )?;
    let untouched = &stamp(&folder.join("unit.img"))? == before;
    holds(
        "the image file was touched, or was not",
        untouched == case.is_refused(),
    )?;
    holds(
        &format!(
            "{CLIENT} ended with {status}, and {} was recorded",
            case.status
        ),
        status.code() == Some(case.status),
    )?;
    holds(&format!("{JOINER} ended with {joined}"), joined.success())
}

/// What `serve` says at the third wrong ID, and nothing else.
const LOCKED: &[u8] =
    b"serve: note: three wrong IDs, the port stays shut until serve is started again\n";

/// Keeps the line up between the client's runs: it does not read, so that the replies are the client's.
fn hold(folder: &Path) -> Result<File, String> {
    const NO_CONTROLLING_TERMINAL: i32 = 0o400;
    OpenOptions::new()
        .read(true)
        .write(true)
        .custom_flags(NO_CONTROLLING_TERMINAL)
        .open(folder.join("r8c.tty"))
        .map_err(|e| format!("r8c.tty: {e}"))
}

/// Item 5 of document 02 with the real client: the line is kept up over four runs, three with a wrong ID and one with the right one, which must
/// fail like them; `serve` started again, the right one opens.
fn locked_out(folder: &Path, program: &Program) -> Result<(), String> {
    let [right, wrong, ..] = &CASES;
    let folder = room(folder, "locked_out", right.before)?;
    write(&folder.join("prog.mot"), right.file)?;
    let before = stamp(&folder.join("unit.img"))?;
    let mut line = line_up(&folder, program)?;
    let held = hold(&folder)?;
    for (run, id) in [wrong.id, wrong.id, wrong.id, right.id].iter().enumerate() {
        let status = client(&folder, id)?;
        holds(
            &format!("run {run} with ID {id} ended with {status}"),
            status.code() == Some(wrong.status),
        )?;
    }
    drop(held);
    let joined = line.end(JOINER)?;
    holds(&format!("{JOINER} ended with {joined}"), joined.success())?;
    let sent = read(&folder.join("tx.bin"))?;
    let replies = read(&folder.join("rx.bin"))?;
    let wanted = play(right.before, 0, &sent)?;
    same("the replies of four runs", &replies, &wanted.joined())?;
    holds(
        "the last run's status is not 80 04",
        replies.ends_with(&[0x80, 0x04]),
    )?;
    let id = |last: u8| {
        [
            0xF5, 0xDF, 0xFF, 0x00, 0x07, 0x31, 0x32, 0x33, 0x34, 0x35, 0x36, last,
        ]
    };
    let tries = |last: u8| sent.windows(12).filter(|w| w == &id(last)).count();
    holds(
        "the client did not send three wrong IDs and the right one",
        (tries(0x38), tries(0x37)) == (3, 1),
    )?;
    same(
        "serve's complaints",
        &read(&folder.join("serve.txt"))?,
        LOCKED,
    )?;
    holds(
        "the image file was touched",
        stamp(&folder.join("unit.img"))? == before,
    )?;
    let mut again = line_up(&folder, program)?;
    let status = client(&folder, right.id)?;
    let joined = again.end(JOINER)?;
    ended(right, &folder, &right.wanted()?, &before, status, joined)
        .map_err(|e| format!("after a restart: {e}"))
}

pub fn run(folder: &Path, program: &Program) -> Outcome {
    let missing: Vec<&str> = [CLIENT, JOINER]
        .into_iter()
        .filter(|name| found(name).is_none())
        .collect();
    if !missing.is_empty() {
        return Ok(Done::Skipped(format!(
            "{} not installed",
            missing.join(" and ")
        )));
    }
    for case in &CASES {
        let wanted = case.wanted().map_err(|e| format!("{}: {e}", case.name))?;
        session(case, folder, program, &wanted).map_err(|e| format!("{}: {e}", case.name))?;
    }
    locked_out(folder, program).map_err(|e| format!("locked out: {e}"))?;
    Ok(Done::Passed(format!(
        "{} sessions of {CLIENT}: right ID, wrong ID, blank image, several pages; a line kept up over three wrong IDs and the right one, and a restart",
        CASES.len()
    )))
}
