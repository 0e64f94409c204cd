//! The proved checker of Rust `match` expressions, for programs in Rust.
//!
//! [`report`] has the text and the verdict that the program `matchcheck` has for the bytes of a source. [`explain`] has
//! the text that `matchexplain` prints of a report beside its source. Both are total: any bytes may be given. Nothing
//! is kept between calls, and any number of threads may call at once. A thread needs 1 MiB of stack.
//!
//! `report` and `explain` are calls of a static library, of which the contract is proved. What stands in this crate is
//! not: it hands slices over, tells statuses apart, and gives the library memory from the program's global allocator.
//!
//! ```
//! use matchcheck::{Command, Options, Verdict, explain, report};
//!
//! let source = b"fn f(x: bool) -> u8 { match x { true => 1 } }";
//! let report = report(Command::Check, Options::default(), source)?;
//! assert_eq!(report.verdict, Verdict::Found);
//! let text = explain("f.rs", source, &report.text, None)?;
//! assert!(text.text.starts_with(b"error: non-exhaustive patterns: `false` not covered\n"));
//! # Ok::<(), matchcheck::Fault>(())
//! ```

mod calls;
mod heap;

use calls::{NO_FORM, NO_MEMORY, NO_ROOM, Question, Told};
use std::fmt;

/// What is asked of a source.
#[derive(Clone, Copy, Debug, PartialEq, Eq)]
pub enum Command<'w> {
    /// The report on each function.
    Check,
    /// The report with decision trees.
    Trees,
    /// The arms to add to each match.
    Arms,
    /// What the match of one function does with one value.
    Eval {
        /// The name of the function.
        function: &'w str,
        /// A value of its scrutinee, as text.
        value: &'w str,
        /// The answers of the guards, in the order in which they are asked: `t` or `f` each.
        answers: &'w str,
    },
}

/// The bits of `usize` and `isize`.
#[derive(Clone, Copy, Debug, Default, PartialEq, Eq)]
pub enum Width {
    /// They are not known, so no list of literals exhausts the types.
    #[default]
    Unknown,
    /// 16 bits.
    Bits16,
    /// 32 bits.
    Bits32,
    /// 64 bits.
    Bits64,
}

/// The edition by which binding modes are written.
#[derive(Clone, Copy, Debug, Default, PartialEq, Eq)]
pub enum Edition {
    /// Edition 2021.
    E2021,
    /// Edition 2024.
    #[default]
    E2024,
}

/// By what a source is read.
#[derive(Clone, Copy, Debug, Default, PartialEq, Eq)]
pub struct Options {
    /// The bits of `usize` and `isize`.
    pub width: Width,
    /// The edition.
    pub edition: Edition,
}

/// How a report ends.
#[derive(Clone, Copy, Debug, PartialEq, Eq)]
pub enum Verdict {
    /// Every function is judged and exhaustive; of `Eval`: an arm takes the value.
    Clean,
    /// A function is refused, or not exhaustive; of `Eval`: no arm takes the value.
    Found,
    /// The source is refused as a whole; of `Eval`: also the function or the value.
    Refused,
}

/// A report: one line of JSON, with its verdict.
#[derive(Clone, Debug, PartialEq, Eq)]
pub struct Report {
    /// The line.
    pub text: Vec<u8>,
    /// The verdict.
    pub verdict: Verdict,
}

/// Findings beside the lines of their source.
#[derive(Clone, Debug, PartialEq, Eq)]
pub struct Explained {
    /// The text, in UTF-8; empty where there is no finding.
    pub text: Vec<u8>,
    /// Whether a match is not exhaustive, or a rule is broken.
    pub breaks: bool,
}

/// Why there is no text.
#[derive(Clone, Copy, Debug, PartialEq, Eq)]
pub enum Fault {
    /// Of [`report`]: an answer is neither `t` nor `f`. Of [`explain`]: the report is none, or is of another source.
    NoForm,
    /// Memory was refused.
    NoMemory,
}

impl fmt::Display for Fault {
    fn fmt(&self, f: &mut fmt::Formatter<'_>) -> fmt::Result {
        f.write_str(match self {
            Fault::NoForm => "the question or the report has no form",
            Fault::NoMemory => "memory is refused",
        })
    }
}

impl std::error::Error for Fault {}

/// The report on a source.
///
/// # Errors
///
/// [`Fault::NoForm`] where an answer of `Eval` is neither `t` nor `f`, [`Fault::NoMemory`] where memory is refused.
pub fn report(command: Command<'_>, options: Options, source: &[u8]) -> Result<Report, Fault> {
    let (text, status) = text_of(|room| report_into(command, options, source, room))?;
    let verdict = match status {
        0 => Verdict::Clean,
        1 => Verdict::Found,
        _ => Verdict::Refused,
    };
    Ok(Report { text, verdict })
}

/// The text of a report of [`Command::Check`] beside its source, in which the source has this name. The arms of a report of
/// [`Command::Arms`] are shown in place of missing cases.
///
/// # Errors
///
/// [`Fault::NoForm`] where a report is none or is of another source, [`Fault::NoMemory`] where memory is refused.
pub fn explain(name: &str, source: &[u8], report: &[u8], arms: Option<&[u8]>) -> Result<Explained, Fault> {
    let arms = arms.unwrap_or_default();
    let (text, status) = text_of(|room| calls::explain(name.as_bytes(), source, report, arms, room))?;
    Ok(Explained { text, breaks: status == 1 })
}

/// What the library tells of a call on this room.
fn report_into(command: Command<'_>, options: Options, source: &[u8], room: &mut [u8]) -> Told {
    let (number, [function, value, answers]) = match command {
        Command::Check => (0, [""; 3]),
        Command::Trees => (1, [""; 3]),
        Command::Arms => (2, [""; 3]),
        Command::Eval { function, value, answers } => (3, [function, value, answers]),
    };
    let width = match options.width {
        Width::Unknown => 0,
        Width::Bits16 => 16,
        Width::Bits32 => 32,
        Width::Bits64 => 64,
    };
    let edition = match options.edition {
        Edition::E2021 => 2021,
        Edition::E2024 => 2024,
    };
    calls::report(&Question::new(number, width, edition, function, value, answers), source, room)
}

/// The text and the status of a call, which is made again where the first room is too small.
fn text_of(mut call: impl FnMut(&mut [u8]) -> Told) -> Result<(Vec<u8>, u8), Fault> {
    let mut room = Vec::new();
    let mut length = 1024;
    loop {
        room.try_reserve_exact(length).map_err(|_| Fault::NoMemory)?;
        room.resize(length, 0);
        let told = call(&mut room);
        match told.status {
            NO_ROOM => length = told.length,
            NO_FORM => return Err(Fault::NoForm),
            NO_MEMORY => return Err(Fault::NoMemory),
            status => {
                room.truncate(told.length);
                return Ok((room, status));
            }
        }
        room.clear();
    }
}
