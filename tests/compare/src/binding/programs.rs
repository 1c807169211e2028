//! The proved programs, run as processes, and programs in C that are built with
//! the proved libraries.

use std::io::{self, Write};
use std::path::{Path, PathBuf};
use std::process::{Child, Command, Stdio};
use std::thread::{self, JoinHandle};
use std::time::Duration;

/// A path in the repository.
pub fn in_repository(path: &str) -> PathBuf {
    Path::new(env!("CARGO_MANIFEST_DIR"))
        .join("../..")
        .join(path)
}

/// What a program writes: to standard output, and to standard error.
#[derive(Clone, Debug, PartialEq, Eq)]
pub struct Said {
    pub out: Vec<u8>,
    pub err: String,
}

/// Starts a program, which reads from this source.
fn start(name: &str, source: Stdio) -> Child {
    Command::new(in_repository("target/bin").join(name))
        .stdin(source)
        .stdout(Stdio::piped())
        .stderr(Stdio::piped())
        .spawn()
        .unwrap_or_else(|_| panic!("run `make programs` in the repository first: no {name}"))
}

/// Writes an input to a program that was started. What it did not take is an error of
/// the thread.
fn feed(child: &mut Child, input: &[u8]) -> JoinHandle<io::Result<()>> {
    let mut pipe = child.stdin.take().expect("its input");
    let bytes = input.to_vec();
    thread::spawn(move || pipe.write_all(&bytes))
}

/// What a program has written at its end.
fn said(child: Child) -> Said {
    let output = child.wait_with_output().expect("its output");
    assert!(output.status.success());
    let err = String::from_utf8(output.stderr).expect("text");
    let out = output.stdout;
    Said { out, err }
}

/// What a program writes for an input, and whether it took all of it.
fn run(name: &str, input: &[u8]) -> (Said, io::Result<()>) {
    let mut child = start(name, Stdio::piped());
    let writer = feed(&mut child, input);
    (said(child), writer.join().expect("a writer"))
}

/// What a program prints that writes nothing to standard error.
fn printed(said: Said) -> String {
    assert_eq!(said.err, "");
    String::from_utf8(said.out).expect("text")
}

/// What the listing program prints for a file. It reads one byte more than the
/// longest file has at most, so the end of a longer one may find no reader.
pub fn decklist(file: &[u8]) -> String {
    printed(run("decklist", file).0)
}

/// What the program for the table of arrows prints.
pub fn arrows() -> String {
    printed(run("arrows", &[]).0)
}

/// What the script program answers to a script, which it takes to the end.
pub fn deckplay(script: &[u8]) -> String {
    let (answers, taken) = run("deckplay", script);
    taken.expect("a script taken to the end");
    printed(answers)
}

/// What the program says that packs a text of coordinates. It need not take lines
/// behind a fault.
pub fn deckpack(text: &[u8]) -> Said {
    run("deckpack", text).0
}

/// What the program says that plans a file, of which it need not take more bytes than
/// the longest file has.
pub fn deckplan(file: &[u8]) -> Said {
    run("deckplan", file).0
}

/// What the program says that draws a file, likewise.
pub fn deckdraw(file: &[u8]) -> Said {
    run("deckdraw", file).0
}

/// What a program says for an input that comes in pieces, with a pause behind each, so
/// that it reads less at a time than it asks for.
pub fn in_pieces(name: &str, pieces: &[&[u8]]) -> Said {
    let mut child = start(name, Stdio::piped());
    let mut pipe = child.stdin.take().expect("its input");
    for piece in pieces {
        // It may stop reading at a fault.
        let _ = pipe.write_all(piece);
        thread::sleep(Duration::from_millis(1));
    }
    drop(pipe);
    said(child)
}

/// What programs say, in their order, of which each reads what the one before prints.
/// What is read so is not kept.
pub fn pipeline(names: &[&str], input: &[u8]) -> Vec<Said> {
    let mut children: Vec<Child> = Vec::new();
    for name in names {
        let before = children.last_mut().and_then(|child| child.stdout.take());
        children.push(start(name, before.map_or(Stdio::piped(), Stdio::from)));
    }
    let writer = feed(&mut children[0], input);
    let said = children.into_iter().map(said).collect();
    // The first one may stop reading at a fault.
    let _ = writer.join().expect("a writer");
    said
}

/// Builds a program at this path, with no warning, from a source in C and a
/// library of the repository.
pub fn build(program: PathBuf, source: &str, library: &str, flags: &[&str]) -> PathBuf {
    let built = Command::new("gcc")
        .args(["-std=c11", "-Wall", "-Wextra", "-Werror"])
        .args(flags)
        .arg("-I")
        .args([in_repository("include"), in_repository(source)])
        .arg(in_repository("target/staticlib").join(library))
        .arg("-o")
        .arg(&program)
        .status();
    assert!(built.expect("gcc").success());
    program
}
