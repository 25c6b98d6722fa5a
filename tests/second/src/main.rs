//! The second program: document 01 and requests E1 to E4 by value, for comparison with the proved one.

mod calls_bad;
mod calls_choose;
mod calls_ids;
mod calls_large;
mod calls_machine;
mod calls_refused;
mod calls_roles;
mod calls_titles;
mod calls_user;
mod calls_value;
mod choose;
mod contents;
mod coverage;
mod fields;
mod generate;
mod given;
mod ids;
mod items;
mod judge;
mod machine;
mod make;
mod marks;
mod names;
mod pdus;
mod random;
mod refused;
mod replay;
mod script;
mod subitems;
#[cfg(test)]
mod tests;
#[cfg(test)]
mod tests_choose;
#[cfg(test)]
mod tests_ids;
#[cfg(test)]
mod tests_ids_wrong;
#[cfg(test)]
mod tests_refused;
#[cfg(test)]
mod tests_titles;
#[cfg(test)]
mod tests_user;
#[cfg(test)]
mod tests_user_wrong;
mod twists;
mod user;
mod valid;
mod write;
#[cfg(test)]
mod wrong_ids;
#[cfg(test)]
mod wrong_reading;
#[cfg(test)]
mod wrong_sending;

use std::fs::File;
use std::io::{self, BufRead, BufWriter, Read, Write};
use std::process::exit;

const HELP: &str = "second: document 01 and requests E1 to E4 written a second time, by value

second answer                                  answers the call lines of standard input
second generate SEED COUNT                     prints COUNT call lines
second generate-both SEED COUNT CALLS ANSWERS  writes call lines and their answers to two files
second generate-stored SEED COUNT CALLS ANSWERS  the same with the weights of the calls stored for replay
second coverage SEED COUNT                     tells what COUNT generated calls reach
second judge                                   frames and reads one direction of an association from standard input
second help                                    prints this
";

fn main() {
    let words: Vec<String> = std::env::args().skip(1).collect();
    let words: Vec<&str> = words.iter().map(|word| word.as_str()).collect();
    let done = match words.as_slice() {
        ["answer"] => answer(),
        ["generate", seed, count] => generate(number(seed), number(count)),
        ["generate-both", seed, count, calls, answers] => {
            generate_both(generate::Generator::new(number(seed)), number(count), calls, answers)
        }
        ["generate-stored", seed, count, calls, answers] => {
            generate_both(generate::Generator::of_stored(number(seed)), number(count), calls, answers)
        }
        ["coverage", seed, count] => print_text(&coverage::report(number(seed), number(count) as usize)),
        ["judge"] => judge_stream(),
        ["help"] => print_text(HELP),
        _ => wrong_usage("no such command, or words missing"),
    };
    if let Err(error) = done {
        if error.kind() != io::ErrorKind::BrokenPipe {
            eprintln!("second: {}", error);
            exit(1);
        }
    }
}

fn wrong_usage(what: &str) -> ! {
    eprint!("second: {}\n\n{}", what, HELP);
    exit(2)
}

fn number(word: &str) -> u64 {
    match word.parse() {
        Ok(number) => number,
        Err(_) => wrong_usage("a number was wanted"),
    }
}

fn print_text(text: &str) -> io::Result<()> {
    io::stdout().write_all(text.as_bytes())
}

/// Answers each line, up to the end of input.
fn answer() -> io::Result<()> {
    let (stdin, stdout) = (io::stdin(), io::stdout());
    let mut input = stdin.lock();
    let mut output = BufWriter::new(stdout.lock());
    let mut replay = replay::Replay::new();
    let mut line = Vec::new();
    while input.read_until(b'\n', &mut line)? > 0 {
        if line.last() == Some(&b'\n') {
            line.pop();
        }
        writeln!(output, "{}", replay.answer(&String::from_utf8_lossy(&line)))?;
        line.clear();
    }
    output.flush()
}

fn generate(seed: u64, count: u64) -> io::Result<()> {
    let stdout = io::stdout();
    let mut output = BufWriter::new(stdout.lock());
    let mut generator = generate::Generator::new(seed);
    for _ in 0..count {
        writeln!(output, "{}", generator.next().line)?;
    }
    output.flush()
}

fn generate_both(mut generator: generate::Generator, count: u64, calls: &str, answers: &str) -> io::Result<()> {
    let mut calls = BufWriter::new(File::create(calls)?);
    let mut answers = BufWriter::new(File::create(answers)?);
    for _ in 0..count {
        let call = generator.next();
        writeln!(calls, "{}", call.line)?;
        writeln!(answers, "{}", call.answer)?;
    }
    calls.flush()?;
    answers.flush()
}

fn judge_stream() -> io::Result<()> {
    let mut stream = Vec::new();
    io::stdin().read_to_end(&mut stream)?;
    let mut text = judge::lines(&stream).join("\n");
    if !text.is_empty() {
        text.push('\n');
    }
    print_text(&text)
}
