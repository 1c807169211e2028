//! The headers compile by themselves, and the libraries need two names from
//! outside at most. The examples in C build with no warning, plan the samples and
//! show arrows as the reference does, and pass on the number of a refusal.

use compare::binding::programs::{build, in_repository as at};
use compare::check::entries::{planned, Expected};
use reference::arrows::{arrow, glyph};
use reference::damage::damaged;
use reference::examples::{comb, mixed};
use reference::file::{write, LONGEST, SHORTEST};
use reference::generate::{good_file, Random, KINDS};
use reference::refusals::{Refusals, OF_ARROW, OF_FILE};
use reference::script::arrow_line;
use reference::sights::sights;
use std::collections::BTreeSet;
use std::fs::{self, File};
use std::path::{Path, PathBuf};
use std::process::{Command, Output, Stdio};

/// A path in the folder for what tests write.
fn scratch(name: &str) -> PathBuf {
    Path::new(env!("CARGO_TARGET_TMPDIR")).join(name)
}

/// Builds the example that plans a file, to a program of this name.
fn build_plan(name: &str) -> PathBuf {
    build(scratch(name), "examples/plan_file.c", "libplanner.a", &[])
}

/// Builds the example that shows an arrow, to a program of this name.
fn build_display(name: &str) -> PathBuf {
    let source = "examples/display_arrow.c";
    build(scratch(name), source, "libdisplay.a", &[])
}

/// What the program writes for a file, or the number with which it refuses it.
fn run(program: &Path, file: &Path) -> Expected {
    let input = File::open(file).expect("the file");
    written(Command::new(program).stdin(input).output().expect("a run"))
}

/// What a program has written, or the number with which it has refused.
fn written(output: Output) -> Expected {
    let message = String::from_utf8(output.stderr).expect("text");
    match output.status.code() {
        Some(0) => {
            assert_eq!(message, "");
            Ok(output.stdout)
        }
        Some(number) => {
            assert_eq!(message, format!("refused {number}\n"));
            assert!(output.stdout.is_empty());
            Err(number as u8)
        }
        None => panic!("stopped by a signal"),
    }
}

/// A device that nothing can be written to.
fn full_device() -> File {
    let opened = File::options().write(true).open("/dev/full");
    opened.expect("a full device")
}

#[test]
fn the_headers() {
    for name in ["include/planner.h", "include/replay.h", "include/display.h"] {
        for (standard, language) in [("-std=c11", "c"), ("-std=c++11", "c++")] {
            let compiled = Command::new("gcc")
                .args([standard, "-Wall", "-Wextra", "-Werror"])
                .args(["-fsyntax-only", "-x", language])
                .arg(at(name))
                .status();
            assert!(compiled.expect("gcc").success(), "{name} as {language}");
        }
    }
}

/// The names that a library for C needs from outside.
fn needed(library: &str) -> Vec<String> {
    let path = at("target/staticlib").join(library);
    let output = Command::new("nm").arg("-u").arg(path).output().expect("nm");
    assert!(output.status.success(), "nm of {library}");
    let text = String::from_utf8(output.stdout).expect("text");
    let names = text
        .lines()
        .filter_map(|line| line.trim().strip_prefix("U "));
    names.map(str::to_owned).collect()
}

#[test]
fn the_names_from_outside() {
    for library in ["libplanner.a", "libreplay.a", "libdisplay.a"] {
        let names = needed(library);
        assert!(!names.is_empty(), "{library} clears memory");
        for name in names {
            assert!(name == "memcpy" || name == "memset", "{library}: {name}");
        }
    }
}

#[test]
fn the_lengths_stated() {
    for (name, prefix) in [("planner", "PLANNER"), ("replay", "REPLAY")] {
        let text = fs::read_to_string(at(&format!("include/{name}.h"))).expect("a header");
        for (word, length) in [("LONGEST", LONGEST), ("SHORTEST", SHORTEST)] {
            let line = format!("#define {prefix}_{word} {length}\n");
            assert!(text.contains(&line), "{line}");
        }
    }
}

#[test]
fn the_stack_stated() {
    let source = "tests/compare/c/stack.c";
    let plan = scratch("plan_stack");
    let plan = build(plan, source, "libplanner.a", &["-pthread"]);
    let replay = scratch("replay_stack");
    let replay = build(replay, source, "libreplay.a", &["-pthread", "-DREPLAY"]);
    let path = scratch("stack.deck");
    let mut random = Random::new(83);
    let mut files = vec![write(&comb(62)), write(&mixed(comb(62)))];
    files.extend(KINDS.map(|kind| good_file(&mut random, kind, 64)));
    for file in &files {
        fs::write(&path, file).expect("a file written");
        for program in [&plan, &replay] {
            let input = File::open(&path).expect("the file");
            let status = Command::new(program).stdin(input).status();
            assert!(status.expect("a run").success(), "{program:?}");
        }
    }
}

#[test]
fn what_cannot_be_read_or_written() {
    let program = build_plan("plan_broken");
    let input = File::open(at("samples/example.deck")).expect("a sample");
    let status = Command::new(&program)
        .stdin(input)
        .stdout(full_device())
        .stderr(Stdio::null())
        .status();
    assert_eq!(status.expect("a run").code(), Some(101));
    let folder = File::open(at("samples")).expect("a folder");
    let status = Command::new(&program)
        .stdin(folder)
        .stderr(Stdio::null())
        .status();
    assert_eq!(status.expect("a run").code(), Some(100));
}

#[test]
fn the_samples() {
    let program = build_plan("plan_samples");
    let mut planned_decks = 0;
    for file in fs::read_dir(at("samples")).expect("the samples") {
        let path = file.expect("a sample").path();
        if path.extension().is_some_and(|ending| ending == "deck") {
            let bytes = fs::read(&path).expect("a deck file");
            let expected = planned(&bytes);
            assert!(expected.is_ok(), "{path:?}");
            assert_eq!(run(&program, &path), expected, "{path:?}");
            planned_decks += 1;
        }
    }
    assert!(planned_decks >= 4);
}

#[test]
fn files_taken_and_refused() {
    let program = build_plan("plan_files");
    let mut random = Random::new(79);
    let longest = write(&mixed(comb(62)));
    let mut files = vec![vec![], longest.clone(), [&longest[..], &[0]].concat()];
    files.push([&longest[..], &[0; 9_000]].concat());
    files.extend(KINDS.map(|kind| good_file(&mut random, kind, 9)));
    for number in OF_FILE {
        files.push(damaged(&mut random, &[number]));
    }
    let mut seen = Refusals::default();
    let path = scratch("plan_files.deck");
    for file in &files {
        let expected = planned(file);
        fs::write(&path, file).expect("a file written");
        assert_eq!(run(&program, &path), expected);
        if let Err(number) = expected {
            seen.see(number);
        }
    }
    // With the longest file and one of each kind, 8 are taken.
    assert_eq!(files.len() - seen.total(), 8);
    seen.are_exactly(&OF_FILE, 1);
}

/// The example's arguments are the numbers of the line that asks for an arrow.
#[test]
fn arrows_shown_and_refused() {
    let program = build_display("display_sights");
    let (mut seen, mut shown) = (Refusals::default(), BTreeSet::new());
    for sight in sights(&mut Random::new(124), 16) {
        let line = arrow_line(&sight);
        let words: Vec<&str> = line.split(' ').skip(1).collect();
        let output = Command::new(&program).args(&words).output();
        let right = arrow(&sight).map(|number| format!("{}\n", glyph(number.into())));
        let expected = right.clone().map(String::into_bytes);
        assert_eq!(written(output.expect("a run")), expected, "{line}");
        match right {
            Ok(text) => _ = shown.insert(text),
            Err(number) => seen.see(number),
        }
    }
    seen.are_exactly(&OF_ARROW, 20);
    let glyphs: BTreeSet<String> = "ENnWwSse.".chars().map(|c| format!("{c}\n")).collect();
    assert_eq!(shown, glyphs);
}

/// Words that are no number at all, or one that no place holds.
const NO_NUMBERS: [&str; 10] = [
    "",
    "-",
    "x",
    "1x",
    "1 ",
    " 1",
    "+1",
    "1-",
    "0x1",
    "99999999999999999999",
];

/// Too few arguments and too many, and arguments of which one is no such number.
#[test]
fn no_arguments_of_an_arrow() {
    let program = build_display("display_arguments");
    let mut lines: Vec<Vec<&str>> = (0..8).map(|count| vec!["1"; count]).collect();
    lines.remove(5);
    for place in 0..5 {
        let beyond = match place {
            4 => ["2147483648", "-2147483649"],
            _ => ["32768", "-32769"],
        };
        for word in beyond.into_iter().chain(NO_NUMBERS) {
            let mut words = vec!["1"; 5];
            words[place] = word;
            lines.push(words);
        }
    }
    for words in &lines {
        let output = Command::new(&program).args(words).output().expect("a run");
        assert_eq!(output.status.code(), Some(100), "{words:?}");
        assert!(output.stdout.is_empty() && !output.stderr.is_empty());
    }
    assert_eq!(lines.len(), 7 + 5 * 12);
}

#[test]
fn an_arrow_that_cannot_be_written() {
    let program = build_display("display_broken");
    let status = Command::new(&program)
        .args(["1"; 5])
        .stdout(full_device())
        .stderr(Stdio::null())
        .status();
    assert_eq!(status.expect("a run").code(), Some(101));
}
