//! The two programs, and what both answer to the same bytes on standard input.

use std::fs::{self, File};
use std::path::{Path, PathBuf};
use std::process::{Command, Stdio};

pub struct Programs {
    /// Where the files in between stand.
    pub folder: PathBuf,
    pub port: Vec<String>,
    /// Empty where the port is asked alone.
    pub reference: Vec<String>,
}

fn answers(command: &[String], batch: &Path, out: &Path) -> Result<Vec<u8>, String> {
    let input = File::open(batch).map_err(|e| format!("{}: {e}", batch.display()))?;
    let output = File::create(out).map_err(|e| format!("{}: {e}", out.display()))?;
    let status = Command::new(&command[0])
        .args(&command[1..])
        .stdin(Stdio::from(input))
        .stdout(Stdio::from(output))
        .status()
        .map_err(|e| format!("{}: {e}", command[0]))?;
    if !status.success() {
        return Err(format!("{}: {status}", command[0]));
    }
    fs::read(out).map_err(|e| format!("{}: {e}", out.display()))
}

impl Programs {
    fn batch(&self) -> PathBuf {
        self.folder.join("batch")
    }

    /// What the port's program answers to a batch.
    pub fn ask_port(&self, bytes: &[u8]) -> Result<Vec<u8>, String> {
        let batch = self.batch();
        fs::write(&batch, bytes).map_err(|e| format!("{}: {e}", batch.display()))?;
        answers(&self.port, &batch, &self.folder.join("port.out"))
    }

    /// What the port's program and the second program answer to a batch.
    pub fn ask(&self, bytes: &[u8]) -> Result<(Vec<u8>, Vec<u8>), String> {
        let port = self.ask_port(bytes)?;
        let out = self.folder.join("reference.out");
        Ok((port, answers(&self.reference, &self.batch(), &out)?))
    }
}
