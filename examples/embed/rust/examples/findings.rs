//! Prints the findings of a file beside its lines, or what the match of one function does with a value. It has no
//! `unsafe` of its own.
//!
//!     findings FILE
//!     findings FILE FUNCTION VALUE [ANSWERS]
#![forbid(unsafe_code)]

use matchcheck::{Command, Options, Verdict, explain, report};
use std::io::Write;
use std::process::ExitCode;
use std::{env, error::Error, fs, io};

fn main() -> Result<ExitCode, Box<dyn Error>> {
    let words: Vec<String> = env::args().skip(1).collect();
    let words: Vec<&str> = words.iter().map(String::as_str).collect();
    let (file, command) = match words[..] {
        [file] => (file, Command::Check),
        [file, function, value] => (file, Command::Eval { function, value, answers: "" }),
        [file, function, value, answers] => (file, Command::Eval { function, value, answers }),
        _ => return Err("findings FILE [FUNCTION VALUE [ANSWERS]]".into()),
    };
    let source = fs::read(file)?;
    let report = report(command, Options::default(), &source)?;
    let text = match command {
        Command::Check => explain(file, &source, &report.text, None)?.text,
        _ => report.text,
    };
    io::stdout().write_all(&text)?;
    Ok(ExitCode::from(match report.verdict {
        Verdict::Clean => 0,
        Verdict::Found => 1,
        Verdict::Refused => 3,
    }))
}
