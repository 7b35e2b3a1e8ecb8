//! A replay program, fed through pipes.

use cases::{write_case, Case};
use std::io::{self, BufWriter, Read};
use std::path::PathBuf;
use std::process::{Child, ChildStdin, Command, Stdio};
use std::thread;

/// No answer to a batch is longer than this; a program that writes on without end is stopped there.
const MOST_OUTPUT: u64 = 256 * 1024 * 1024;

#[derive(Debug, Clone)]
pub struct External {
    pub path: PathBuf,
}

/// The program's input.
pub type Input = BufWriter<ChildStdin>;

impl External {
    /// One answer for each case, in order; an empty one where the program gave none.
    pub fn answers(&self, cases: &[Case]) -> io::Result<Vec<String>> {
        self.answers_to(cases, write_case)
    }

    /// The answer to one case alone.
    pub fn answer(&self, case: &Case) -> String {
        self.answer_to(case, write_case)
    }

    /// The answer to one line alone, which `write` writes.
    pub fn answer_to<L: Sync>(&self, line: &L, write: fn(&mut Input, &L) -> io::Result<()>) -> String {
        match self.answers_to(std::slice::from_ref(line), write) {
            Ok(mut answers) => answers.pop().unwrap_or_default(),
            Err(error) => format!("{error}\n"),
        }
    }

    /// One answer for each of these lines, in order. One process for each call, so that memory is bounded by the batch.
    pub fn answers_to<L: Sync>(&self, lines: &[L], write: fn(&mut Input, &L) -> io::Result<()>) -> io::Result<Vec<String>> {
        let mut child = Command::new(&self.path).stdin(Stdio::piped()).stdout(Stdio::piped()).spawn()?;
        let output = exchange(&mut child, |input| lines.iter().try_for_each(|line| write(input, line)));
        if output.is_err() {
            let _ = child.kill();
        }
        child.wait()?;
        Ok(split_answers(&String::from_utf8_lossy(&output?), lines.len()))
    }
}

/// Writes the input on a thread of its own while the output is read, so that neither pipe can fill up and stop both.
fn exchange(child: &mut Child, write: impl FnOnce(&mut Input) -> io::Result<()> + Send) -> io::Result<Vec<u8>> {
    let (Some(input), Some(output)) = (child.stdin.take(), child.stdout.take()) else {
        return Err(io::Error::other("the replay program has no pipes"));
    };
    thread::scope(|scope| {
        scope.spawn(move || {
            // A program that stops reading shows in its answers, so a broken pipe needs no word here.
            let mut input = BufWriter::new(input);
            let _ = write(&mut input);
        });
        let mut bytes = Vec::new();
        let length = output.take(MOST_OUTPUT).read_to_end(&mut bytes)? as u64;
        if length == MOST_OUTPUT { Err(io::Error::other("the replay program writes without end")) } else { Ok(bytes) }
    })
}

/// The output cut before each line `case ID`, as exactly `count` answers. Whatever stands before the first belongs to
/// it, and what is left over to the last, so that nothing of the output goes uncompared.
pub fn split_answers(output: &str, count: usize) -> Vec<String> {
    let mut answers: Vec<String> = Vec::with_capacity(count);
    for line in output.split_inclusive('\n') {
        if answers.is_empty() || line.starts_with("case ") && answers.len() < count {
            answers.push(String::new());
        }
        answers.last_mut().expect("one was pushed").push_str(line);
    }
    answers.resize(count, String::new());
    answers
}
