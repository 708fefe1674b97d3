//! The live program as a child process: fed over a pipe, its replies heard as they come, never waited for without end.

use std::io::{self, Read, Write};
use std::path::{Path, PathBuf};
use std::process::{Child, ChildStdin, Command, ExitStatus, Stdio};
use std::sync::{Arc, Condvar, Mutex};
use std::thread;
use std::time::{Duration, Instant};

/// How long a reply or an end may take (the emulator is slow).
pub const PATIENCE: Duration = Duration::from_secs(60);

/// The command of the live program, good in any folder.
pub struct Program {
    words: Vec<String>,
}

/// A word that names a file by a path is made absolute, since the program runs in a folder of its own.
fn absolute(word: &str) -> String {
    let path = Path::new(word);
    if word.contains('/') && path.is_relative() && path.exists() {
        if let Ok(whole) = std::path::absolute(path) {
            return whole.to_string_lossy().into_owned();
        }
    }
    word.to_string()
}

impl Program {
    pub fn new(words: &[String]) -> Program {
        Program {
            words: words.iter().map(|w| absolute(w)).collect(),
        }
    }

    /// The command as a line of the shell.
    pub fn line(&self) -> String {
        let quoted = |w: &String| format!("'{}'", w.replace('\'', "'\\''"));
        self.words.iter().map(quoted).collect::<Vec<_>>().join(" ")
    }

    pub fn start(&self, folder: &Path, arguments: &[&str]) -> Result<Live, String> {
        let mut child = Command::new(&self.words[0])
            .args(&self.words[1..])
            .args(arguments)
            .current_dir(folder)
            .stdin(Stdio::piped())
            .stdout(Stdio::piped())
            .stderr(Stdio::piped())
            .spawn()
            .map_err(|e| format!("{}: {e}", self.words[0]))?;
        let input = child.stdin.take();
        let said = Heard::of(child.stdout.take().ok_or("no output")?);
        let errors = Heard::of(child.stderr.take().ok_or("no error output")?);
        Ok(Live {
            child,
            input,
            said,
            errors,
        })
    }

    /// The whole of a run: these bytes, the end of the input, and what came of it.
    pub fn play(&self, folder: &Path, arguments: &[&str], bytes: &[u8]) -> Result<Ended, String> {
        let mut live = self.start(folder, arguments)?;
        // a program that refuses does not read its input: a broken pipe is no fault
        let _ = live.send(bytes);
        live.end()
    }
}

/// What a pipe has brought so far, and whether it has ended.
struct Heard {
    shared: Arc<Shared>,
}

type Shared = (Mutex<(Vec<u8>, bool)>, Condvar);

impl Heard {
    fn of(mut pipe: impl Read + Send + 'static) -> Heard {
        let shared = Arc::new((Mutex::new((Vec::new(), false)), Condvar::new()));
        let theirs = Arc::clone(&shared);
        thread::spawn(move || {
            let mut buffer = [0; 4096];
            loop {
                let got = match pipe.read(&mut buffer) {
                    Err(e) if e.kind() == io::ErrorKind::Interrupted => continue,
                    got => got.unwrap_or(0),
                };
                let mut heard = theirs.0.lock().unwrap_or_else(|e| e.into_inner());
                heard.0.extend_from_slice(&buffer[..got]);
                heard.1 = got == 0;
                theirs.1.notify_all();
                if got == 0 {
                    return;
                }
            }
        });
        Heard { shared }
    }

    /// Waits until this holds of the bytes and the end; false where it does not in time.
    fn wait(&self, patience: Duration, holds: impl Fn(&[u8], bool) -> bool) -> bool {
        let until = Instant::now() + patience;
        let mut heard = self.shared.0.lock().unwrap_or_else(|e| e.into_inner());
        loop {
            if holds(&heard.0, heard.1) {
                return true;
            }
            let left = until.saturating_duration_since(Instant::now());
            if left.is_zero() {
                return false;
            }
            heard = match self.shared.1.wait_timeout(heard, left) {
                Ok((heard, _)) => heard,
                Err(poisoned) => poisoned.into_inner().0,
            };
        }
    }

    fn bytes(&self) -> Vec<u8> {
        self.shared
            .0
            .lock()
            .unwrap_or_else(|e| e.into_inner())
            .0
            .clone()
    }
}

/// A running program.
pub struct Live {
    child: Child,
    input: Option<ChildStdin>,
    said: Heard,
    errors: Heard,
}

/// A run that is over.
pub struct Ended {
    pub status: ExitStatus,
    pub said: Vec<u8>,
    pub errors: String,
}

impl Live {
    /// No test sends more than a pipe holds, so this never waits.
    pub fn send(&mut self, bytes: &[u8]) -> Result<(), String> {
        let input = self.input.as_mut().ok_or("the input is closed")?;
        input
            .write_all(bytes)
            .map_err(|e| format!("its input: {e}"))
    }

    /// Waits until it has said as many bytes.
    pub fn has_said(&self, count: usize) -> bool {
        self.said
            .wait(PATIENCE, |bytes, ended| bytes.len() >= count || ended)
            && self.said.bytes().len() >= count
    }

    pub fn said(&self) -> Vec<u8> {
        self.said.bytes()
    }

    pub fn errors(&self) -> String {
        String::from_utf8_lossy(&self.errors.bytes()).into_owned()
    }

    /// Ends its input and waits for its end.
    pub fn end(mut self) -> Result<Ended, String> {
        self.input = None;
        self.gone()
    }

    /// SIGKILL, and what it had said by then.
    pub fn kill(mut self) -> Result<Ended, String> {
        self.child.kill().map_err(|e| format!("kill: {e}"))?;
        self.gone()
    }

    fn gone(&mut self) -> Result<Ended, String> {
        let until = Instant::now() + PATIENCE;
        let status = loop {
            if let Some(status) = self.child.try_wait().map_err(|e| e.to_string())? {
                break status;
            }
            if Instant::now() > until {
                let _ = self.child.kill();
                let _ = self.child.wait();
                return Err("it did not end".to_string());
            }
            thread::sleep(Duration::from_micros(200));
        };
        if !self.said.wait(PATIENCE, |_, ended| ended)
            || !self.errors.wait(PATIENCE, |_, ended| ended)
        {
            return Err(
                "its output stays open after its end: is SERVE.. the program itself?".to_string(),
            );
        }
        Ok(Ended {
            status,
            said: self.said(),
            errors: self.errors(),
        })
    }
}

/// A folder of its own with this image as unit.img.
pub fn room(folder: &Path, name: &str, image: &[u8]) -> Result<PathBuf, String> {
    let room = folder.join(name);
    std::fs::create_dir_all(&room).map_err(|e| format!("{}: {e}", room.display()))?;
    write(&room.join("unit.img"), image)?;
    Ok(room)
}

pub fn write(path: &Path, bytes: &[u8]) -> Result<(), String> {
    std::fs::write(path, bytes).map_err(|e| format!("{}: {e}", path.display()))
}

pub fn read(path: &Path) -> Result<Vec<u8>, String> {
    std::fs::read(path).map_err(|e| format!("{}: {e}", path.display()))
}
