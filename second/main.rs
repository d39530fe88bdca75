//! The second program: the same rules by other methods, in another language, with no code shared.
//!
//! Build it and run it from the project's root; `/tmp/second --help` prints what it can be asked for:
//!
//!     rustc -O --edition 2021 -o /tmp/second second/main.rs && /tmp/second WORDS

mod adding;
mod block;
mod blots;
mod cases;
mod clarity;
mod code;
mod compare;
mod encoder;
mod even;
mod false_starts;
mod field;
mod interpolation;
mod line;
mod locator;
mod open_trays;
mod panel;
mod random;
mod refusals;
mod ring;
mod scans;
mod sheet;
mod sheets;
mod smudge;
mod spool;
mod tray;
mod twice;

use std::io::{self, Read};
use std::process::exit;
use std::{env, fs};

const HELP: &str = "The second program, from the project's root:

    second cases                                 writes the stored files of crate `cases` anew, `stdin` and `stdout`; `git diff` then shows what differs
    second bench_sheet                           the same for that crate, which reads nothing
    second tray                                  prints the report of the tray file on standard input
    second compare PROGRAM TRAYS [SEED [FIRST]]  runs PROGRAM on so many random trays and stops at the first byte that is not the report's;
                                                 without SEED and FIRST it makes the trays of seed 1 from tray 0 on
    second --help                                prints this
";

/// For words that are none of these.
fn refuse() -> ! {
    eprint!("{HELP}");
    exit(2)
}

/// Writes what a program crate has to write.
fn store(name: &str, stdout: &str) {
    fs::write(format!("crates/{name}/stdout"), stdout).expect("run this from the project's root");
}

/// Writes what a program crate reads, and what it has to write.
fn store_both(name: &str, (stdin, stdout): (Vec<u8>, String)) {
    fs::write(format!("crates/{name}/stdin"), stdin).expect("run this from the project's root");
    store(name, &stdout);
}

fn print_report() {
    let mut file = Vec::new();
    io::stdin().read_to_end(&mut file).expect("a tray file on standard input");
    print!("{}", tray::report(&code::Code::new(), &file));
}

fn print_comparison(program: &str, trays: &str, seed: &str, first: &str) {
    let [trays, seed, first] = [trays, seed, first].map(|number| number.parse().unwrap_or_else(|_| refuse()));
    match compare::compare(program, trays, seed, first) {
        Ok(summary) => println!("{summary}"),
        Err(difference) => {
            eprintln!("{difference}");
            exit(1);
        }
    }
}

fn main() {
    let arguments: Vec<String> = env::args().skip(1).collect();
    let words: Vec<&str> = arguments.iter().map(String::as_str).collect();
    match words[..] {
        _ if words.contains(&"--help") => print!("{HELP}"),
        [name @ "bench_sheet"] => store(name, &sheet::rows()),
        [name @ "cases"] => store_both(name, cases::stored()),
        ["tray"] => print_report(),
        ["compare", program, trays] => print_comparison(program, trays, "1", "0"),
        ["compare", program, trays, seed] => print_comparison(program, trays, seed, "0"),
        ["compare", program, trays, seed, first] => print_comparison(program, trays, seed, first),
        _ => refuse(),
    }
}
