//! What the crate gives for each line of standard input, which is an input's bytes in hex, or `HEX*N` where zeros fill it up to N bytes.
//!
//! Two lines for each: as one datagram, Rust's own rendering of the crate's structure or error; as a run, how many datagrams or the
//! error. With `--outcome` both lines are of that kind, so that nothing but the parsing goes deep.

use sflow_parser::parsers::{parse_datagram, parse_datagrams};
use std::io::BufRead;

fn input(line: &str) -> Option<Vec<u8>> {
    let (hex, size) = line.split_once('*').unwrap_or((line, ""));
    let digits: Option<Vec<u8>> = hex.chars().map(|c| c.to_digit(16).map(|digit| digit as u8)).collect();
    let mut bytes: Vec<u8> = digits?.chunks(2).map(|pair| pair.iter().fold(0, |byte, digit| byte << 4 | digit)).collect();
    if !size.is_empty() {
        bytes.resize(size.parse().ok()?, 0);
    }
    Some(bytes)
}

fn main() {
    let outcome = std::env::args().nth(1).as_deref() == Some("--outcome");
    for line in std::io::stdin().lock().lines() {
        let line = line.expect("standard input is text");
        let Some(bytes) = input(&line) else {
            eprintln!("told: not hex: {line:.80}");
            std::process::exit(2)
        };
        let one = parse_datagram(&bytes);
        match outcome {
            true => println!("{:?}", one.map(|_| 1)),
            false => println!("{one:?}"),
        }
        println!("{:?}", parse_datagrams(&bytes).map(|all| all.len()));
    }
}
