//! A change: a place, the text that stands there once, and what it becomes.

use std::path::{Path, PathBuf};

pub struct Change {
    /// The crate, the file in it, and the function or definition.
    pub name: String,
    pub file: String,
    pub item: String,
    pub old: String,
    pub new: String,
    /// Judged by laws, tables and theorems, not by the functions' proofs.
    pub laws_only: bool,
}

impl Change {
    pub fn place(&self) -> String {
        format!("{}/{} {}", self.name, self.file, self.item)
    }

    pub fn path(&self, crates: &Path) -> PathBuf {
        crates.join(&self.name).join(&self.file)
    }

    /// The file of this folder of crates, changed.
    pub fn applied(&self, crates: &Path) -> Result<String, String> {
        let path = self.path(crates);
        let text =
            std::fs::read_to_string(&path).map_err(|e| format!("{}: {e}", path.display()))?;
        let (from, to) = region(&text, &self.item, self.file.ends_with(".rt"))
            .ok_or_else(|| format!("{}: there is no such item", self.place()))?;
        let inside = &text[from..to];
        match inside.matches(self.old.as_str()).count() {
            1 => Ok(format!(
                "{}{}{}",
                &text[..from],
                inside.replacen(self.old.as_str(), &self.new, 1),
                &text[to..]
            )),
            n => Err(format!(
                "{}: '{}' stands there {n} times",
                self.place(),
                self.old
            )),
        }
    }
}

/// The lines of a text, each with the place where it starts.
pub fn lines(text: &str) -> Vec<(usize, &str)> {
    let mut at = 0;
    text.split_inclusive('\n')
        .map(|line| {
            let start = at;
            at += line.len();
            (start, line.trim_end_matches('\n'))
        })
        .collect()
}

pub fn indent(line: &str) -> usize {
    line.len() - line.trim_start().len()
}

/// Does the line begin the function of this name, or any function?
pub fn begins_function(line: &str, name: Option<&str>) -> bool {
    let rest = line.trim_start();
    let rest = rest
        .strip_prefix("pub(crate) ")
        .or_else(|| rest.strip_prefix("pub "))
        .unwrap_or(rest);
    match (rest.strip_prefix("fn "), name) {
        (Some(rest), Some(name)) => rest.strip_prefix(name).is_some_and(|r| r.starts_with('(')),
        (Some(_), None) => true,
        (None, _) => false,
    }
}

/// Where an item's text lies: a function's body, or a definition up to the next empty line.
fn region(text: &str, item: &str, code: bool) -> Option<(usize, usize)> {
    let all = lines(text);
    if !code {
        let defines = |line: &str| {
            let rest = line
                .strip_prefix("abbrev ")
                .or_else(|| line.strip_prefix("unfoldable "))
                .unwrap_or(line);
            rest.strip_prefix("pub ")
                .and_then(|r| r.strip_prefix(item))
                .is_some_and(|r| r.starts_with(' '))
        };
        let first = all.iter().position(|(_, line)| defines(line))?;
        let last = all[first..]
            .iter()
            .position(|(_, line)| line.is_empty())
            .map_or(text.len(), |n| all[first + n].0);
        return Some((all[first].0, last));
    }
    let (owner, name) = match item.split_once("::") {
        Some((owner, name)) => (Some(format!("impl {owner} {{")), name),
        None => (None, item),
    };
    let from = match owner {
        Some(owner) => all.iter().position(|(_, line)| *line == owner)?,
        None => 0,
    };
    let head = from
        + all[from..]
            .iter()
            .position(|(_, line)| begins_function(line, Some(name)))?;
    let edge = indent(all[head].1);
    let stands = |line: &str, brace: &str| indent(line) == edge && line.trim_start() == brace;
    let body = head + all[head..].iter().position(|(_, line)| stands(line, "{"))?;
    let end = body + all[body..].iter().position(|(_, line)| stands(line, "}"))?;
    Some((all[body].0, all[end].0))
}

/// The changes of a list.
pub fn read(path: &Path, laws_only: bool) -> Result<Vec<Change>, String> {
    let text = std::fs::read_to_string(path).map_err(|e| format!("{}: {e}", path.display()))?;
    let lines: Vec<&str> = text
        .lines()
        .filter(|line| !line.is_empty() && !line.starts_with('#'))
        .collect();
    lines
        .chunks(3)
        .map(|block| {
            let wrong = || {
                format!(
                    "{}: a change is three lines, not: {}",
                    path.display(),
                    block.join(" / ")
                )
            };
            let [place, old, new] = block else {
                return Err(wrong());
            };
            let (file, item) = place.split_once(' ').ok_or_else(wrong)?;
            let (name, file) = file.split_once('/').ok_or_else(wrong)?;
            Ok(Change {
                name: name.into(),
                file: file.into(),
                item: item.into(),
                old: old.strip_prefix("- ").ok_or_else(wrong)?.into(),
                new: new.strip_prefix("+ ").ok_or_else(wrong)?.into(),
                laws_only,
            })
        })
        .collect()
}
