//! The binary itself.

use crate::support::{barely_blank, framed, woken, PLAN_ANSWERS, PLAN_RECORDS, WORKED_EXAMPLE};
use reference::sessions::image;
use std::fs;
use std::io::Write;
use std::path::{Path, PathBuf};
use std::process::{Command, Output, Stdio};
use std::thread;

fn reference(arguments: &[&str], folder: &Path, input: &[u8]) -> Output {
    let mut child = Command::new(env!("CARGO_BIN_EXE_reference"))
        .args(arguments)
        .current_dir(folder)
        .stdin(Stdio::piped())
        .stdout(Stdio::piped())
        .stderr(Stdio::piped())
        .spawn()
        .unwrap();
    let mut stdin = child.stdin.take().unwrap();
    // Written while the output is read, since no pipe holds a large batch or its answers. The
    // program may end before it has read all of its input.
    thread::scope(|scope| {
        scope.spawn(move || {
            let _ = stdin.write_all(input);
        });
        child.wait_with_output().unwrap()
    })
}

/// A folder of the test's own, with this unit.img if there is one.
fn folder(name: &str, image: Option<&[u8]>) -> PathBuf {
    let folder = Path::new(env!("CARGO_TARGET_TMPDIR")).join(name);
    let _ = fs::remove_dir_all(&folder);
    fs::create_dir_all(&folder).unwrap();
    if let Some(image) = image {
        fs::write(folder.join("unit.img"), image).unwrap();
    }
    folder
}

#[test]
fn usage() {
    let here = folder("usage", None);
    for arguments in [&[][..], &["other"], &["bench", "more"], &["--help"]] {
        let output = reference(arguments, &here, &[]);
        assert_eq!(output.status.code(), Some(2));
        assert!(output.stdout.is_empty());
        let text = String::from_utf8(output.stderr).unwrap();
        assert_eq!(text.lines().count(), 1);
        assert!(text.starts_with("usage: "));
    }
}

#[test]
fn bench() {
    let here = folder("bench", Some(&image()));
    let mut input = woken(&[0x70, 0xFB]);
    let output = reference(&["bench"], &here, &input);
    assert_eq!(output.stdout, WORKED_EXAMPLE.as_bytes());
    assert_eq!(output.status.code(), Some(0));
    // 4,096 bytes at most, also where much more comes.
    input.resize(4094, 0x99);
    input.extend_from_slice(&[0xB1, 0xB2]);
    input.resize(200_000, 0xB3);
    let output = reference(&["bench"], &here, &input);
    let expected = [
        WORKED_EXAMPLE.trim_end_matches("end 80 00\n"),
        "4095: B1\n4096: B2\nend 80 00\n",
    ];
    assert_eq!(output.stdout, expected.concat().as_bytes());
}

#[test]
fn bench_without_a_good_image() {
    let folders = [
        folder("missing", None),
        folder("short", Some(&[0xFF; 20_479])),
        folder("long", Some(&[0xFF; 20_481])),
        folder("longer", Some(&[0xFF; 100_000])),
        folder("directory", None),
    ];
    fs::create_dir(folders[4].join("unit.img")).unwrap();
    for here in folders {
        let output = reference(&["bench"], &here, &[0; 20]);
        assert_eq!(output.stdout, b"refused 1\n");
    }
}

#[test]
fn bench_leaves_the_image_file() {
    let blank = barely_blank();
    let here = folder("kept", Some(&blank));
    let output = reference(&["bench"], &here, &woken(&[0xA7, 0xD0]));
    assert_eq!(output.stdout, b"17: B0\nend 80 0C\n");
    assert_eq!(fs::read(here.join("unit.img")).unwrap(), blank);
}

#[test]
fn sessions() {
    let output = reference(&["sessions"], &folder("sessions", None), &[]);
    let expected: String = (1..=12).map(|number| format!("{number} PASS\n")).collect();
    assert_eq!(output.stdout, expected.as_bytes());
    assert_eq!(output.status.code(), Some(0));
}

#[test]
fn replay() {
    let here = folder("replay", None);
    let output = reference(&["replay"], &here, &[]);
    assert_eq!((output.status.code(), output.stdout), (Some(0), vec![]));
    // An empty image and no groups; the start is refused.
    let mut batch = framed(&[0; 3 + 268 + 7]);
    let output = reference(&["replay"], &here, &batch);
    let mut idle = [0; 268];
    idle[3] = 0x80;
    let expected = [&[1][..], &idle, &idle].concat();
    assert_eq!(output.stdout, expected);
    assert!(output.stderr.is_empty());
    // A bad case after it: the first one's answer, and one line.
    batch.extend_from_slice(&[0xFF; 9]);
    let output = reference(&["replay"], &here, &batch);
    assert_eq!(output.stdout, expected);
    assert_eq!(String::from_utf8(output.stderr).unwrap().lines().count(), 1);
    assert_eq!(output.status.code(), Some(1));
}

#[test]
fn replan() {
    let here = folder("replan", None);
    let output = reference(&["replan"], &here, &[]);
    assert_eq!((output.status.code(), output.stdout), (Some(0), vec![]));
    let good = PLAN_RECORDS.concat();
    let output = reference(&["replan"], &here, &good);
    assert_eq!(output.stdout, PLAN_ANSWERS.concat());
    assert_eq!(output.status.code(), Some(0));
    assert!(output.stderr.is_empty());
    // A bad record after them, of clock 3 or cut short: their answers, and one line.
    let clock_3 = [&[3; 13][..], &good].concat();
    for bad in [&clock_3[..], &good[..12], &[2]] {
        let output = reference(&["replan"], &here, &[&good[..], bad].concat());
        assert_eq!(output.stdout, PLAN_ANSWERS.concat());
        assert_eq!(String::from_utf8(output.stderr).unwrap().lines().count(), 1);
        assert_eq!(output.status.code(), Some(1));
    }
}

#[test]
fn replan_of_a_large_batch() {
    let here = folder("replan-large", None);
    let mut batch = PLAN_RECORDS.concat().repeat(40_000);
    let expected = PLAN_ANSWERS.concat().repeat(40_000);
    let output = reference(&["replan"], &here, &batch);
    assert_eq!(output.status.code(), Some(0));
    assert!(output.stdout == expected);
    batch.push(0);
    let output = reference(&["replan"], &here, &batch);
    assert_eq!(output.status.code(), Some(1));
    assert!(output.stdout == expected);
}
