//! Wrong ports in numbers: each change of a list is made alone in a copy of the repository, and the proofs judge it.
//!
//!     mutants ROOT                      only says whether each change can be made
//!     mutants ROOT SCRATCH [WORD..]     tries each, or those whose place has one of the words
//!
//! ROOT is the repository, proved; SCRATCH an empty folder. The table goes to standard output, progress to standard error. Status 0 where
//! nothing survived, at most one in ten is unfit, and a run of each unfit change differs from the second program.

mod change;
mod house;
mod judge;

use change::Change;
use std::path::Path;
use std::sync::atomic::{AtomicUsize, Ordering};
use std::sync::Mutex;

/// The most changes that are tried at a time.
const WORKERS: usize = 4;

/// The changes of both lists; each can be made.
fn read(root: &Path) -> Result<Vec<Change>, String> {
    let mut changes = Vec::new();
    for (list, laws_only) in [("code.txt", false), ("definitions.txt", true)] {
        changes.extend(change::read(&root.join("mutants").join(list), laws_only)?);
    }
    for c in &changes {
        c.applied(&root.join("crates"))?;
    }
    Ok(changes)
}

fn run(root: &Path, scratch: &Path, words: &[String]) -> Result<bool, String> {
    let mut changes = read(root)?;
    changes.retain(|c| words.is_empty() || words.iter().any(|w| c.place().contains(w.as_str())));
    eprintln!("{} changes", changes.len());
    let laws = scratch.join("laws");
    if changes.iter().any(|c| c.laws_only) {
        eprintln!("the house without its functions is proved first");
        house::laws_only(root, &laws)?;
    }
    let next = AtomicUsize::new(0);
    let results = Mutex::new(Vec::new());
    let workers = std::thread::available_parallelism().map_or(1, |n| n.get().min(WORKERS));
    std::thread::scope(|scope| {
        for worker in 0..workers {
            let (next, results, changes, laws) = (&next, &results, &changes, &laws);
            scope.spawn(move || loop {
                let at = next.fetch_add(1, Ordering::SeqCst);
                let Some(c) = changes.get(at) else { break };
                let from: &Path = if c.laws_only { laws } else { root };
                let verdict = judge::judge(root, from, &scratch.join(format!("room{worker}")), c);
                eprintln!(
                    "{}/{} {}: {}",
                    at + 1,
                    changes.len(),
                    c.place(),
                    verdict.line()
                );
                results
                    .lock()
                    .expect("no worker panics")
                    .push((at, verdict));
            });
        }
    });
    let mut results = results.into_inner().map_err(|e| e.to_string())?;
    results.sort_by_key(|r| r.0);
    Ok(judge::table(&changes, &results))
}

fn main() {
    let arguments: Vec<String> = std::env::args().skip(1).collect();
    let outcome = match arguments.as_slice() {
        [root] => read(Path::new(root)).map(|changes| {
            println!("{} changes can be made", changes.len());
            true
        }),
        [root, scratch, words @ ..] => run(Path::new(root), Path::new(scratch), words),
        [] => {
            eprintln!("usage: mutants ROOT [SCRATCH [WORD..]]");
            std::process::exit(2);
        }
    };
    match outcome {
        Ok(good) => std::process::exit(if good { 0 } else { 1 }),
        Err(why) => {
            eprintln!("mutants: {why}");
            std::process::exit(1);
        }
    }
}
