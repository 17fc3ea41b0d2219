//! The programs `report` and `console`, run as a user runs them: `rt run` in their folders leaves them in `out`.

use std::io::Write;
use std::path::{Path, PathBuf};
use std::process::{Command, Stdio};

fn program(name: &str) -> PathBuf {
    Path::new(env!("CARGO_MANIFEST_DIR")).join("../crates").join(name).join("out").join(name)
}

/// What a program prints for an input.
fn printed(name: &str, arguments: &[&str], input: &[u8]) -> Vec<u8> {
    let started = Command::new(program(name)).args(arguments).stdin(Stdio::piped()).stdout(Stdio::piped()).spawn();
    let mut child = started.unwrap_or_else(|error| panic!("{name} does not start ({error}): `rt run` in crates/{name} first"));
    let mut pipe = child.stdin.take().unwrap();
    let input = input.to_vec();
    let feed = std::thread::spawn(move || {
        let _ = pipe.write_all(&input);
    });
    let output = child.wait_with_output().expect("the program ends");
    feed.join().unwrap();
    output.stdout
}

pub fn report(text: &[u8]) -> Vec<u8> {
    printed("report", &[], text)
}

/// What `console` prints. The words are given as arguments, one each, since the program joins its arguments by spaces; before every other
/// script an empty word stands in front of them, which the program passes over.
pub fn console(text: &[u8], words: &str, script: &[u8]) -> Vec<u8> {
    let file = std::env::temp_dir().join(format!("differential-{}.sheet", std::process::id()));
    std::fs::write(&file, text).expect("the sheet is written");
    let mut arguments = vec![file.to_str().expect("a path in UTF-8")];
    if script.len() % 2 == 1 {
        arguments.push("");
    }
    if !words.is_empty() {
        arguments.extend(words.split(' '));
    }
    let out = printed("console", &arguments, script);
    let _ = std::fs::remove_file(&file);
    out
}
