//! Copies of the repository, whole or without its functions.

use crate::change::{begins_function, indent, lines};
use std::path::Path;
use std::process::Command;

/// The crates whose definitions are changed and those under them, in the order of their proofs, and the judges.
const CRATES: [&str; 10] = [
    "slices", "packets", "flash", "unit", "protocol", "lines", "rates", "demands", "plans", "words",
];

/// The crates whose proofs judge changes to definitions.
const JUDGES: [&str; 3] = ["demands", "plans", "words"];

/// The one that judges a change to a definition of this crate.
pub fn judge_of(name: &str) -> &'static str {
    match name {
        "rates" => "plans",
        "words" => "words",
        _ => "demands",
    }
}

fn told<T>(path: &Path, result: std::io::Result<T>) -> Result<T, String> {
    result.map_err(|e| format!("{}: {e}", path.display()))
}

/// A copy of what rt needs: the crates, and what it has kept of them.
pub fn whole(root: &Path, from: &Path, to: &Path) -> Result<(), String> {
    if to.exists() {
        told(to, std::fs::remove_dir_all(to))?;
    }
    let tool = root.join("tools/copy-crates");
    let status = told(&tool, Command::new(&tool).arg(from).arg(to).status())?;
    if status.success() {
        Ok(())
    } else {
        Err(format!("cannot copy {}", from.display()))
    }
}

/// rt's check of a crate of a copy; the log stays in check.log.
pub fn check(copy: &Path, name: &str) -> Result<bool, String> {
    let log = copy.join("check.log");
    let out = told(&log, std::fs::File::create(&log))?;
    let errors = told(&log, out.try_clone())?;
    let status = Command::new("rt")
        .args(["check", "--jobs", "1"])
        .current_dir(copy.join("crates").join(name))
        .stdout(out)
        .stderr(errors)
        .status()
        .map_err(|e| format!("rt: {e}"))?;
    Ok(status.success())
}

/// A source without its functions: types and constants.
fn without_functions(text: &str) -> String {
    let all = lines(text);
    let mut kept: Vec<&str> = Vec::new();
    let mut at = 0;
    while at < all.len() {
        let line = all[at].1;
        if begins_function(line, None) {
            while kept.last().is_some_and(|last| {
                ["//", "#["]
                    .iter()
                    .any(|mark| last.trim_start().starts_with(mark))
            }) {
                kept.pop();
            }
            let end = |l: &str| indent(l) == indent(line) && l.trim_start() == "}";
            while at < all.len() && !end(all[at].1) {
                at += 1;
            }
        } else if line == "}"
            && kept
                .iter()
                .rev()
                .find(|l| !l.is_empty())
                .is_some_and(|l| l.starts_with("impl "))
        {
            while !kept.pop().is_some_and(|l| l.starts_with("impl ")) {}
        } else {
            kept.push(line);
        }
        at += 1;
    }
    kept.join("\n") + "\n"
}

/// A house in which only laws, tables and theorems are proved, and where they are.
pub fn laws_only(root: &Path, to: &Path) -> Result<(), String> {
    whole(root, root, to)?;
    for name in CRATES {
        let folder = to.join("crates").join(name);
        let source = folder.join("src/lib.rt");
        let text = told(&source, std::fs::read_to_string(&source))?;
        told(&source, std::fs::write(&source, without_functions(&text)))?;
        // a folder of proofs belongs to a function
        let proofs = folder.join("proofs");
        for entry in told(&proofs, std::fs::read_dir(&proofs))? {
            let path = told(&proofs, entry)?.path();
            if path.is_dir() {
                told(&path, std::fs::remove_dir_all(&path))?;
            }
        }
    }
    let list = to.join("crates.txt");
    let text = told(&list, std::fs::read_to_string(root.join("crates.txt")))?;
    let kept: Vec<&str> = text
        .lines()
        .filter(|line| CRATES.iter().any(|c| line.split(':').next() == Some(c)))
        .collect();
    told(&list, std::fs::write(&list, kept.join("\n") + "\n"))?;
    for judge in JUDGES {
        if !check(to, judge)? {
            return Err(format!(
                "the laws alone are not proved: {}",
                to.join("check.log").display()
            ));
        }
    }
    Ok(())
}
