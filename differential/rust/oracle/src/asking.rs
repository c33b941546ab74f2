//! Another program beside the Rust: started, read line by line, and asked one case.

use std::{
    io::{self, BufRead, BufReader, Write},
    process::{Child, Command, Stdio},
    thread,
};

use crate::{
    cases::make::Case,
    forgets::is_same,
    oracle::{Oracle, outside},
};

const NO_ANSWER: &str = "(no answer)";

/// A case up to the line that differs, and both answers to that line.
pub struct Difference {
    pub case: Case,
    pub rust: String,
    pub ours: String,
}

/// PROGRAM is a shell command.
pub fn start(program: &str) -> io::Result<Child> {
    Command::new("sh").args(["-c", program]).stdin(Stdio::piped()).stdout(Stdio::piped()).spawn()
}

/// The next line of answers without its end, and whether there was one.
pub fn next_answer(from: &mut impl BufRead, into: &mut String) -> io::Result<bool> {
    into.clear();
    let read = from.read_line(into)?;
    if into.ends_with('\n') {
        into.pop();
    }
    Ok(read > 0)
}

/// The first line of a case on which the two sides differ, both asked anew.
pub fn differ(program: &str, case: &[String]) -> io::Result<Option<Difference>> {
    let mut child = start(program)?;
    let mut stdin = child.stdin.take().expect("piped");
    let text: String = case.iter().flat_map(|line| [line.as_str(), "\n"]).collect();
    let feeder = thread::spawn(move || {
        // A program that ends early is seen by its missing answers.
        let _ = stdin.write_all(text.as_bytes());
    });
    let mut answers = BufReader::new(child.stdout.take().expect("piped"));
    let mut oracle = Oracle::quiet();
    let mut ours = String::new();
    let mut found = None;
    for (i, line) in case.iter().enumerate() {
        let rust = oracle.answer(line);
        let answered = next_answer(&mut answers, &mut ours)?;
        if !answered {
            ours = NO_ANSWER.into();
        }
        if found.is_none() && (!answered || (outside(&rust).is_none() && !is_same(line, &rust, &ours))) {
            found = Some(Difference { case: case[..=i].to_vec(), rust, ours: ours.clone() });
        }
    }
    drop(answers);
    feeder.join().expect("the feeder does not panic");
    child.wait()?;
    Ok(found)
}
