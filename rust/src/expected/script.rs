//! A script of calls for a program of crates/run_*, and what the program prints as it runs it.

use std::fmt::Write;

#[derive(Default)]
pub struct Script {
    pub commands: String,
    pub text: String,
}

impl Script {
    /// A line of the script: a command and its operands, at most 16 numbers.
    pub fn command(&mut self, numbers: &[usize]) {
        assert!(numbers.len() <= 16);
        let words: Vec<String> = numbers.iter().map(usize::to_string).collect();
        writeln!(self.commands, "{}", words.join(" ")).unwrap();
    }

    /// What the last command prints.
    pub fn print(&mut self, text: &str) {
        self.text += text;
    }

    /// The line of a call: its name, its operands, and what it answers and leaves.
    pub fn line(&mut self, name: &str, operands: &[usize], left: &str) {
        let operands: String = operands.iter().map(|x| format!(" {x}")).collect();
        self.print(&format!("{name}{operands} {left}\n"));
    }

    /// A text that is printed as it is.
    pub fn text(&mut self, text: &str) {
        for bytes in text.as_bytes().chunks(15) {
            self.command(&[&[0], bytes.iter().map(|&byte| byte as usize).collect::<Vec<_>>().as_slice()].concat());
        }
        self.print(text);
    }
}
