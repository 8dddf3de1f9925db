//! The program `clear` on thousands of inputs, whole and in pieces: the line it
//! prints is the one the case was made for, and the second implementation's.
//!
//! The program is target/bin/clear, which `tools/build clear` writes.

use differential::seeds;
use inputs::{clear_cases, ClearCase, Random};
use std::io::Write;
use std::path::{Path, PathBuf};
use std::process::{Command, Stdio};
use std::thread;
use std::time::Duration;

/// Programs running at a time.
const WORKERS: usize = 2;

fn program() -> PathBuf {
    let program = Path::new(env!("CARGO_MANIFEST_DIR")).join("../../target/bin/clear");
    assert!(
        program.is_file(),
        "there is no {}: write it by `tools/build clear`",
        program.display()
    );
    program
}

/// What the program prints for the input, written in these pieces. Between two
/// pieces it is given the time to read what is there.
fn run(program: &Path, pieces: &[&[u8]]) -> String {
    let mut child = Command::new(program)
        .stdin(Stdio::piped())
        .stdout(Stdio::piped())
        .stderr(Stdio::piped())
        .spawn()
        .expect("the program starts");
    let mut input = child.stdin.take().expect("a pipe");
    for (number, piece) in pieces.iter().enumerate() {
        if number > 0 {
            thread::sleep(Duration::from_micros(300));
        }
        // A program that has seen enough may be gone already.
        if input.write_all(piece).is_err() {
            break;
        }
    }
    drop(input);
    let output = child.wait_with_output().expect("the program ends");
    assert!(output.status.success(), "{:?}", output.status);
    assert!(output.stderr.is_empty(), "{:?}", output.stderr);
    String::from_utf8(output.stdout).expect("a line of text")
}

/// Cuts the input at up to five random places.
fn cut<'a>(random: &mut Random, input: &'a [u8]) -> Vec<&'a [u8]> {
    let mut places: Vec<usize> = (0..1 + random.below(5))
        .map(|_| random.below(input.len() + 1))
        .collect();
    places.sort();
    let mut pieces = vec![];
    let mut start = 0;
    for place in places {
        pieces.push(&input[start..place]);
        start = place;
    }
    pieces.push(&input[start..]);
    pieces
}

fn compare(program: &Path, seed: u64, number: usize, case: &ClearCase) {
    let about = format!("seed {seed}: {}", case.name);
    assert_eq!(second::clear(&case.input), case.line, "{about}");
    let whole = run(program, &[&case.input]);
    assert_eq!(whole, case.line, "{about}");
    if number.is_multiple_of(8) {
        let mut random = Random::new(seed + number as u64);
        let pieces = cut(&mut random, &case.input);
        let lengths: Vec<usize> = pieces.iter().map(|piece| piece.len()).collect();
        let line = run(program, &pieces);
        assert_eq!(line, case.line, "{about}, in pieces of {lengths:?}");
    }
}

#[test]
fn lines() {
    let program = program();
    for seed in seeds("program") {
        let cases = clear_cases(seed, 3000);
        thread::scope(|scope| {
            for worker in 0..WORKERS {
                let (program, cases) = (&program, &cases);
                scope.spawn(move || {
                    for (number, case) in cases.iter().enumerate() {
                        if number % WORKERS == worker {
                            compare(program, seed, number, case);
                        }
                    }
                });
            }
        });
    }
}

/// In pieces of 97 bytes, and byte by byte where the table ends.
#[test]
fn bytes_one_by_one() {
    let program = program();
    let cases = clear_cases(differential::SEED, 0);
    let accepted = cases.iter().find(|case| case.line == "accepted 1 372\n");
    let input = &accepted.expect("an accepted day").input;
    let pieces: Vec<&[u8]> = input.chunks(97).collect();
    assert_eq!(run(&program, &pieces), "accepted 1 372\n");
    let ends: Vec<&[u8]> = [&input[..3160]]
        .into_iter()
        .chain(input[3160..3180].chunks(1))
        .chain([&input[3180..]])
        .collect();
    assert_eq!(run(&program, &ends), "accepted 1 372\n");
}
