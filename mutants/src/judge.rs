//! What refuses a change.

use crate::change::Change;
use crate::house;
use std::path::Path;
use std::process::Command;

pub enum Verdict {
    /// A fact that no longer holds, and where.
    Fact(String),
    /// Only the proof's text no longer fits, or another error; what a run shows, and whether it differs.
    Unfit(String, bool),
    Survived,
    /// It could not be tried.
    Untried(String),
}

impl Verdict {
    pub fn line(&self) -> String {
        match self {
            Verdict::Fact(at) => format!("refused by a fact, {at}"),
            Verdict::Unfit(at, _) => format!("unfit, {at}"),
            Verdict::Survived => "SURVIVED".into(),
            Verdict::Untried(why) => format!("NOT TRIED: {why}"),
        }
    }
}

/// The place of an error or of an open goal, by the crate that was checked: crates/..:LINE.
fn place(name: &str, line: &str) -> String {
    let line = line.strip_prefix("note: ").unwrap_or(line);
    let mut parts = line.split(':');
    let file = parts.next().unwrap_or_default();
    match parts.next() {
        Some(number) if !number.is_empty() && number.bytes().all(|b| b.is_ascii_digit()) => {
            format!("crates/{name}/{}:{number}", file.trim_start_matches("./"))
        }
        _ => line.to_string(),
    }
}

/// The crate that a log judges: a library that did not build, or else the one that the check was asked for.
fn judged(log: &str, asked: &str) -> String {
    log.lines()
        .find_map(|line| line.strip_prefix("rt: the library ")?.split(' ').next())
        .unwrap_or(asked)
        .to_string()
}

fn tried(root: &Path, from: &Path, room: &Path, change: &Change) -> Result<Verdict, String> {
    house::whole(root, from, room)?;
    let crates = room.join("crates");
    let text = change.applied(&crates)?;
    let path = change.path(&crates);
    std::fs::write(&path, text).map_err(|e| format!("{}: {e}", path.display()))?;
    let asked = if change.laws_only {
        house::judge_of(&change.name)
    } else {
        &change.name
    };
    if house::check(room, asked)? {
        return Ok(Verdict::Survived);
    }
    let mut said = verdict(root, room, asked)?;
    // where only names of goals no longer fit, once more, with the names that the changed code gives them
    if said.word == "unfit" && !change.laws_only && renamed(root, room, change)? {
        if house::check(room, asked)? {
            return Ok(Verdict::Survived);
        }
        said = verdict(root, room, asked)?;
    }
    Ok(match said.word.as_str() {
        "fact" => Verdict::Fact(said.place),
        "none" => Verdict::Untried("rt failed without an error of a proof".into()),
        _ => {
            let (shown, differs) = run(root, room, change)?;
            Verdict::Unfit(format!("{}; {shown}", said.place), differs)
        }
    })
}

/// What tools/verdict says of a log.
struct Said {
    word: String,
    place: String,
}

fn verdict(root: &Path, room: &Path, asked: &str) -> Result<Said, String> {
    let log = room.join("check.log");
    let text = std::fs::read(&log).map_err(|e| format!("{}: {e}", log.display()))?;
    let name = judged(&String::from_utf8_lossy(&text), asked);
    let said = Command::new(root.join("tools/verdict"))
        .arg(&log)
        .output()
        .map_err(|e| format!("tools/verdict: {e}"))?;
    let said = String::from_utf8_lossy(&said.stdout).trim().to_string();
    let (word, line) = said.split_once(' ').unwrap_or((&said, ""));
    Ok(Said {
        word: word.to_string(),
        place: place(&name, line),
    })
}

/// Gives the proof of the changed function the names that its goals now have.
fn renamed(root: &Path, room: &Path, change: &Change) -> Result<bool, String> {
    let module = Path::new(&change.file)
        .file_stem()
        .map_or("lib".into(), |stem| stem.to_string_lossy());
    let item = match &*module {
        "lib" | "main" => change.item.clone(),
        _ => format!("{module}::{}", change.item),
    };
    Command::new(root.join("tools/verdict"))
        .arg("--rename")
        .arg(room.join("crates").join(&change.name))
        .arg(room.join("check.log"))
        .args([&change.name, &item])
        .status()
        .map(|status| status.success())
        .map_err(|e| format!("tools/verdict: {e}"))
}

/// What a run of the changed code shows where no fact refused it, and whether it differs from the second program.
fn run(root: &Path, room: &Path, change: &Change) -> Result<(String, bool), String> {
    if change.laws_only {
        return Ok(("NOT RUN: a definition".into(), false));
    }
    let said = Command::new("sh")
        .arg(root.join("tools/differs"))
        .arg(room)
        .arg(&change.name)
        .output()
        .map_err(|e| format!("tools/differs: {e}"))?;
    let told = String::from_utf8_lossy(&said.stdout).trim().to_string();
    let shown = match said.status.code() {
        Some(0) => format!("a run differs from the second program: {told}"),
        Some(1) => format!("NO RUN DIFFERS: {told}"),
        _ => format!("CANNOT BE RUN: {told}"),
    };
    Ok((shown, said.status.success()))
}

/// Makes the change in a copy of `from` and has it proved.
pub fn judge(root: &Path, from: &Path, room: &Path, change: &Change) -> Verdict {
    tried(root, from, room, change).unwrap_or_else(Verdict::Untried)
}

/// Prints the table; true where nothing survived, all were tried, at most one in ten is unfit, and each of these differs at a run.
pub fn table(changes: &[Change], results: &[(usize, Verdict)]) -> bool {
    println!("| Part | Changes | Refused by a fact | Unfit | Survived |");
    println!("|---|---|---|---|---|");
    let mut good = true;
    for (laws_only, part) in [(false, "code"), (true, "definitions")] {
        let of: Vec<&Verdict> = results
            .iter()
            .filter(|(at, _)| changes[*at].laws_only == laws_only)
            .map(|(_, v)| v)
            .collect();
        let count = |f: fn(&Verdict) -> bool| of.iter().filter(|v| f(v)).count();
        let fact = count(|v| matches!(v, Verdict::Fact(_)));
        let unfit = count(|v| matches!(v, Verdict::Unfit(..)));
        let survived = count(|v| matches!(v, Verdict::Survived));
        println!("| {part} | {} | {fact} | {unfit} | {survived} |", of.len());
        let unseen = count(|v| matches!(v, Verdict::Unfit(_, false)));
        good = good && fact + unfit == of.len() && unfit * 10 <= of.len() && unseen == 0;
    }
    println!();
    println!("| No. | Place | Was | Becomes | Outcome |");
    println!("|---|---|---|---|---|");
    let cell = |s: &str| s.replace('|', "\\|");
    for (at, verdict) in results {
        let c = &changes[*at];
        println!(
            "| {} | {} | `{}` | `{}` | {} |",
            at + 1,
            c.place(),
            cell(&c.old),
            cell(&c.new),
            cell(&verdict.line())
        );
    }
    good
}
