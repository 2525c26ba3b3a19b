// Scripts, as words and as text. A script is a row of calls `op n a1 .. an` in 64-bit little-endian words; its text has one call a line: number, name, arguments.

use crate::table;
use std::io::{Read, Result, Write};

#[derive(Clone, Debug)]
pub struct Step {
    pub op: i64,
    pub args: Vec<i64>,
}

impl Step {
    pub fn text(&self) -> String {
        let name = table::find(self.op).map_or("unknown", |call| call.name);
        let args: String = self.args.iter().map(|a| format!(" {a}")).collect();
        format!("{} {name}{args}", self.op)
    }

    /// The arguments without a list that ends them, and that list. A list that is not as long as it says ends the run.
    pub fn parts(&self) -> (&[i64], &[i64]) {
        let Some(call) = table::find(self.op) else { return (&self.args, &[]) };
        let listed = call.args.last().is_some_and(|arg| arg.is_list());
        let fixed = call.args.len() - usize::from(listed);
        assert!(self.args.len() >= fixed + usize::from(listed), "too few arguments: {}", self.text());
        let rest = &self.args[fixed..];
        let list = if listed { &rest[1..] } else { rest };
        let said = if listed { rest[0] } else { 0 };
        assert!(said == list.len() as i64, "wrong number of arguments: {}", self.text());
        (&self.args[..fixed], list)
    }
}

pub fn read(input: &mut impl Read) -> Result<Vec<Step>> {
    let mut bytes = vec![];
    input.read_to_end(&mut bytes)?;
    let mut words = bytes.chunks_exact(8).map(|word| i64::from_le_bytes(word.try_into().unwrap()));
    let mut steps = vec![];
    while let Some(op) = words.next() {
        let count = words.next().expect("a script that ends inside a call");
        assert!((0..=4096).contains(&count), "{count} arguments of call {op}");
        let args: Vec<i64> = words.by_ref().take(count as usize).collect();
        assert!(args.len() as i64 == count, "a script that ends inside a call");
        steps.push(Step { op, args });
    }
    Ok(steps)
}

pub fn write(steps: &[Step], output: &mut impl Write) -> Result<()> {
    for step in steps {
        for word in [step.op, step.args.len() as i64].iter().chain(&step.args) {
            output.write_all(&word.to_le_bytes())?;
        }
    }
    Ok(())
}

/// Reads the text form: lines of a number, a name that is passed over, and arguments. Empty lines and lines that begin with # are passed over too.
pub fn from_text(text: &str) -> Vec<Step> {
    let lines = text.lines().map(str::trim).filter(|line| !line.is_empty() && !line.starts_with('#'));
    lines
        .map(|line| {
            let mut words = line.split_whitespace();
            let op = words.next().unwrap().parse().unwrap_or_else(|_| panic!("no call: {line}"));
            let args = words.filter(|word| !word.starts_with(|c: char| c.is_ascii_alphabetic()));
            let args = args.map(|word| word.parse().unwrap_or_else(|_| panic!("no number: {word}"))).collect();
            Step { op, args }
        })
        .collect()
}
