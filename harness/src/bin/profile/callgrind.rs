//! valgrind's callgrind, and the files that it writes.

use std::collections::{BTreeMap, HashMap};
use std::env;
use std::fs;
use std::process::{Command, Stdio};

use yarnspire::implementations::Implementation;

/// Instructions by the function that they stand in.
pub type Instructions = BTreeMap<String, i64>;

const FILES: &str = "target/bench/callgrind";

/// Those of two calls without those of one: what comes before the first call and after the last is in both.
pub fn instructions_of_a_call(implementation: Implementation, input: &str) -> Instructions {
    let mut difference = instructions_of(implementation, input, 2);
    for (function, count) in instructions_of(implementation, input, 1) {
        *difference.entry(function).or_insert(0) -= count;
    }
    difference.retain(|_, count| *count != 0);
    difference
}

/// The instructions of this program while it makes so many calls.
fn instructions_of(implementation: Implementation, input: &str, calls: u32) -> Instructions {
    fs::create_dir_all(FILES).expect("the folder for what callgrind writes");
    let file = format!("{FILES}/{}-{input}-{calls}", implementation.name().replace(' ', "-"));
    let own = env::current_exe().expect("this program has a name");
    let mut command = Command::new("valgrind");
    command.args(["--quiet", "--tool=callgrind", &format!("--callgrind-out-file={file}")]);
    command.arg(own).args([implementation.name(), input, &calls.to_string()]);
    let status = command.stdout(Stdio::null()).status().expect("valgrind runs");
    assert!(status.success(), "valgrind did not end well: {command:?}");
    own_instructions(&fs::read_to_string(file).expect("callgrind wrote its file"))
}

/// What each function executes itself, from a file in callgrind's format.
///
/// A function's name stands beside its number where the number comes first, be it as the function at hand (`fn`) or as one that it calls (`cfn`); one
/// that calls itself has a second name for these calls, with `'2` at its end. A line that begins with a place has instructions of the function at
/// hand; behind a `calls` line it has those of the called one, which are found there again.
fn own_instructions(file: &str) -> Instructions {
    let mut names: HashMap<&str, &str> = HashMap::new();
    let mut instructions = Instructions::new();
    let mut at_hand = "";
    let mut of_called = false;
    for line in file.lines() {
        if let Some((key, value)) = line.split_once('=') {
            if key == "fn" || key == "cfn" {
                let (number, name) = value.split_once(' ').unwrap_or((value, ""));
                let name = *names.entry(number).or_insert_with(|| name.trim_end_matches("'2"));
                if key == "fn" {
                    at_hand = name;
                }
            }
            of_called = key == "calls";
        } else if line.starts_with(|c: char| c.is_ascii_digit() || "+-*".contains(c)) {
            if !of_called {
                let count = line.split(' ').nth(1).expect("a count stands behind the place");
                *instructions.entry(at_hand.to_string()).or_insert(0) += count.parse::<i64>().expect("a count");
            }
            of_called = false;
        }
    }
    instructions
}

#[cfg(test)]
mod tests {
    use super::own_instructions;

    #[test]
    fn a_function_has_its_own_instructions_alone() {
        let file = "cmd: profile --of=all\nevents: Ir\n\n\
                    fn=(1) outer\n0 5\ncfn=(2) inner\ncalls=1 0\n0 40\n+1 7\n\n\
                    fn=(2)\n0 30\ncfn=(3) inner'2\ncalls=1 0\n* 10\n\n\
                    fn=(3)\n0 10\n\ntotals: 52\n";
        let counted: Vec<(String, i64)> = own_instructions(file).into_iter().collect();
        assert_eq!(counted, [("inner".to_string(), 40), ("outer".to_string(), 12)]);
    }
}
