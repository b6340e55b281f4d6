//! Compares the library with the crate; see ../../run.

use judge::modes::Both;
use judge::shape::Mode;
use judge::tally::{lengths, required, Key, Tally};
use judge::{compare, counters, ethernet, fault, library, listed, make, pads, stored, strings, sweep, work};
use std::path::{Path, PathBuf};
use std::process::exit;

const USAGE: &str = "usage: judge N SEED | --every-byte | --counters | --ethernet | --strings | --every-string | --long | --pads N SEED |
       --input HEX | --files PATH... | --store SEED INTO PATH... | --c-checks | --list-faults, each with [--fault K]";

/// From so many cases on, every format, code and class must have been reached.
const ENOUGH: u64 = 100_000;

fn fail(said: &str) -> ! {
    eprintln!("oracle: {said}");
    exit(2)
}

fn number(word: &str, what: &str) -> u64 {
    word.parse().unwrap_or_else(|_| fail(&format!("{what} is not a number: '{word}'")))
}

fn hex(word: &str) -> Vec<u8> {
    let digit = |c: u8| (c as char).to_digit(16).unwrap_or_else(|| fail("--input takes hex")) as u8;
    if !word.len().is_multiple_of(2) {
        fail("--input takes two hex digits for each byte");
    }
    word.as_bytes().chunks(2).map(|pair| digit(pair[0]) << 4 | digit(pair[1])).collect()
}

/// The bytes of each file; of a folder, those of the files in it, in order of their names.
fn files(paths: &[&str]) -> Vec<Vec<u8>> {
    let cannot = |path: &Path, error| fail(&format!("cannot read {}: {error}", path.display()));
    let mut all: Vec<PathBuf> = Vec::new();
    for path in paths.iter().map(Path::new) {
        match std::fs::read_dir(path) {
            Ok(entries) => {
                let mut inside: Vec<PathBuf> = entries.flatten().map(|entry| entry.path()).filter(|path| path.is_file()).collect();
                inside.sort();
                all.extend(inside);
            }
            Err(_) => all.push(path.to_path_buf()),
        }
    }
    all.iter().map(|path| std::fs::read(path).unwrap_or_else(|error| cannot(path, error))).collect()
}

/// Writes stored cases and their answers into a folder, as a program's `stdin` and `stdout`.
fn store(seed: u64, into: &Path, paths: &[&str]) -> Both {
    let (cases, tally) = stored::cases(seed, &files(paths));
    let (mut input, mut output) = (Vec::new(), String::new());
    for case in &cases {
        case.put(&mut input);
        output += &case.line().unwrap_or_else(|found| fail(&format!("{}: {}", found.kind, found.detail)));
    }
    for (name, bytes) in [("stdin", &input[..]), ("stdout", output.as_bytes())] {
        std::fs::write(into.join(name), bytes).unwrap_or_else(|error| fail(&format!("cannot write {name}: {error}")));
    }
    println!("{} cases, {} bytes; their answers, {} bytes", cases.len(), input.len(), output.len());
    Both { differ: tally.differ, base: tally, ..Both::default() }
}

/// The fault's number, taken out of the arguments.
fn fault_of(words: &mut Vec<String>) -> u32 {
    let Some(at) = words.iter().position(|word| word == "--fault") else { return 0 };
    if at + 1 >= words.len() {
        fail(USAGE);
    }
    let fault = number(&words[at + 1], "the fault") as u32;
    if fault as usize > fault::FAULTS.len() {
        fail(&format!("there are {} faults", fault::FAULTS.len()));
    }
    words.drain(at..at + 2);
    fault
}

/// What is compared, and the known differences, which are looked at with random inputs only.
fn compared(words: &[&str], fault: u32) -> (Both, Tally) {
    let both = match *words {
        ["--every-byte"] => sweep::every_byte(fault),
        ["--counters"] => counters::all(fault),
        ["--ethernet"] => ethernet::all(fault),
        ["--strings"] => strings::all(fault),
        ["--every-string"] => strings::every(fault),
        ["--long"] => sweep::long(fault),
        ["--input", bytes] => {
            let input = hex(bytes);
            compare::show(&input, fault);
            work::spread(1, fault, |_| input.clone())
        }
        ["--files", ref paths @ ..] if !paths.is_empty() => {
            let inputs = files(paths);
            work::spread(inputs.len() as u64, fault, |case| inputs[case as usize].clone())
        }
        ["--store", seed, into, ref paths @ ..] => store(number(seed, "SEED"), Path::new(into), paths),
        [cases, seed] => {
            let (cases, seed) = (number(cases, "N"), number(seed, "SEED"));
            let listed = listed::check(fault);
            return (work::spread(cases, fault, |case| make::input(seed, case, make::EITHER)), listed);
        }
        _ => fail(USAGE),
    };
    (both, Tally::default())
}

fn main() {
    let mut words: Vec<String> = std::env::args().skip(1).collect();
    let fault = fault_of(&mut words);
    let words: Vec<&str> = words.iter().map(String::as_str).collect();
    match words[..] {
        ["--c-checks"] => return print!("{}", library::c_checks()),
        ["--listed"] => return listed::show(),
        ["--list-faults"] => return fault::FAULTS.iter().for_each(|what| println!("{what}")),
        ["--pads", cases, seed] => {
            let holds = pads::holds(number(cases, "N"), number(seed, "SEED"), fault);
            exit(i32::from(!holds))
        }
        _ => {}
    }
    let (both, listed) = compared(&words, fault);
    let enough = listed.cases > 0 && both.base.cases >= ENOUGH;
    report(both, listed, |mode| match words[0] {
        "--store" => required(mode),
        _ if enough => [required(mode), lengths(mode)].concat(),
        _ => Vec::new(),
    })
}

/// What was reached and what differs in a mode; answers whether all was reached that must be.
fn report_mode(tally: &Tally, mode: Mode, required: Vec<Key>) -> bool {
    println!("mode {mode}:");
    tally.print_reached();
    println!("accepted: {} of {}, {} bytes on average", tally.accepted, tally.cases, tally.bytes / tally.cases.max(1));
    if mode == Mode::Base {
        println!("code 7: the position compared with the crate's index in {} inputs", tally.indexed);
    }
    let unreached = tally.unreached(required, mode);
    unreached.iter().for_each(|what| println!("never reached: {what}"));
    tally.print_differences(&format!("{mode}, "));
    unreached.is_empty()
}

/// What was compared; `required` is what each mode must have reached.
fn report(both: Both, listed: Tally, required: impl Fn(Mode) -> Vec<Key>) {
    // Stored cases are of the base mode alone.
    let modes = [(Mode::Base, &both.base), (Mode::Memo, &both.memo)].into_iter().filter(|(_, tally)| tally.cases > 0);
    let mut reached = true;
    for (mode, tally) in modes.clone() {
        reached &= report_mode(tally, mode, required(mode));
    }
    if listed.cases > 0 {
        println!("outside, as docs/DIFFERENCES.md lists them: {} inputs", listed.cases);
    }
    listed.print_differences("");
    for (mode, tally) in modes {
        let with = if mode == Mode::Base { "the crate and the rules" } else { "the rules" };
        println!("{mode}: {} compared with {with}, {} differ", tally.cases, tally.differ);
    }
    let differ = both.differ + listed.differ;
    println!("{} compared, {differ} differ", both.base.cases);
    if differ > 0 || !reached {
        exit(1);
    }
}
