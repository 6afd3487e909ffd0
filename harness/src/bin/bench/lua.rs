//! LPeg, in a process of its own.

use std::io::{BufRead, BufReader, Write};
use std::process::{Child, ChildStdin, ChildStdout, Command, Stdio};

/// Lua in a process of its own, which matches when asked.
pub struct Lua {
    _process: Child,
    orders: ChildStdin,
    answers: BufReader<ChildStdout>,
}

impl Lua {
    pub fn start() -> Lua {
        let mut command = Command::new("lua5.4");
        command.arg("harness/bench/serve.lua").stdin(Stdio::piped()).stdout(Stdio::piped());
        let mut process = command.spawn().expect("lua5.4 runs");
        let orders = process.stdin.take().expect("its input is a pipe");
        let answers = BufReader::new(process.stdout.take().expect("its output is a pipe"));
        Lua { _process: process, orders, answers }
    }

    fn ask(&mut self, words: &[&str]) -> String {
        writeln!(self.orders, "{}", words.join("\t")).expect("Lua takes an order");
        let mut line = String::new();
        self.answers.read_line(&mut line).expect("Lua answers");
        assert!(line.ends_with('\n'), "Lua ended at {words:?}");
        line.trim_end().to_string()
    }

    pub fn version(&mut self) -> String {
        self.ask(&["version"])
    }

    pub fn accepts(&mut self, grammar: &str, file: &str) -> bool {
        self.ask(&["accepts", grammar, file]) == "yes"
    }

    pub fn time(&mut self, grammar: &str, file: &str, count: usize, fails: bool) -> f64 {
        let order = if fails { "time_failing" } else { "time" };
        self.ask(&[order, grammar, file, &count.to_string()]).parse().expect("a number of nanoseconds")
    }
}
