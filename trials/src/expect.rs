//! What is to be seen: two runs of bytes held to each other, a line of complaint, what a file's stamp was.

use std::os::unix::fs::MetadataExt;
use std::path::Path;

/// The first bytes of a run in hex.
pub fn hex(bytes: &[u8]) -> String {
    let some: Vec<String> = bytes.iter().take(24).map(|b| format!("{b:02X}")).collect();
    let more = if bytes.len() > 24 { " .." } else { "" };
    format!("{}{more} ({} bytes)", some.join(" "), bytes.len())
}

/// Where two runs differ, in words.
pub fn same(what: &str, got: &[u8], wanted: &[u8]) -> Result<(), String> {
    if got == wanted {
        return Ok(());
    }
    let at = got.iter().zip(wanted).take_while(|(g, w)| g == w).count();
    let from = |bytes: &[u8]| hex(&bytes[at.min(bytes.len())..]);
    Err(format!(
        "{what}: {} bytes, {} wanted; they differ from byte {at} on: {} in place of {}",
        got.len(),
        wanted.len(),
        from(got),
        from(wanted)
    ))
}

pub fn holds(what: &str, fact: bool) -> Result<(), String> {
    if fact {
        Ok(())
    } else {
        Err(what.to_string())
    }
}

/// One line of complaint, as `serve: ..`.
pub fn one_line(errors: &str) -> Result<(), String> {
    let lines = errors.lines().count();
    let good =
        lines == 1 && errors.ends_with('\n') && errors.starts_with("serve: ") && errors.len() > 12;
    holds(
        &format!("standard error is not one line 'serve: ..' but {errors:?}"),
        good,
    )
}

/// Which file it is and when it was last written.
#[derive(PartialEq, Eq)]
pub struct Stamp(u64, i64, i64, u64);

pub fn stamp(path: &Path) -> Result<Stamp, String> {
    let data = std::fs::symlink_metadata(path).map_err(|e| format!("{}: {e}", path.display()))?;
    Ok(Stamp(
        data.ino(),
        data.mtime(),
        data.mtime_nsec(),
        data.size(),
    ))
}

/// The names in a folder, sorted.
pub fn names(folder: &Path) -> Result<Vec<String>, String> {
    let entries = std::fs::read_dir(folder).map_err(|e| format!("{}: {e}", folder.display()))?;
    let mut names: Vec<String> = entries
        .filter_map(|e| Some(e.ok()?.file_name().to_string_lossy().into_owned()))
        .collect();
    names.sort();
    Ok(names)
}
