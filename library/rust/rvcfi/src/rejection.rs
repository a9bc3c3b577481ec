//! Why an image and a graph are not accepted. Each is told in the words of `rvcfi verify`.

use crate::ffi::Verdict;
use std::error::Error;
use std::fmt::{Display, Formatter, Result};

/// Why an image and a graph are not accepted: the first fault of the image, else the first of the graph, else the first rule that
/// fails. `Display` gives the line that `rvcfi verify` prints.
#[non_exhaustive]
#[derive(Clone, Copy, Debug, PartialEq, Eq, Hash)]
pub enum Rejection {
    /// The first text is no image.
    Image(BadImage),
    /// The second text is no graph.
    Graph {
        /// The first line that fails, from 1.
        line: u64,
        /// What is wrong with it.
        reason: Reason,
    },
    /// The code has another length than the graph says.
    Length {
        /// The bytes of code that the image has.
        code: u64,
        /// The bytes of code that the graph gives.
        graph: u64,
    },
    /// A rule fails.
    Rule {
        /// The first rule that fails.
        rule: Rule,
        /// The least address at which it does.
        address: u64,
    },
    /// There was no memory: nothing is said of the texts.
    NoMemory,
}

/// Why a text is no image.
#[non_exhaustive]
#[derive(Clone, Copy, Debug, PartialEq, Eq, Hash)]
pub enum BadImage {
    /// It ends before its headers or its data do; how many bytes it has.
    Short(u64),
    /// A field or a byte of padding is wrong; its offset.
    Byte(u64),
    /// It goes on behind its data; how many bytes it has.
    Long(u64),
}

/// What is wrong with a line of a graph.
#[non_exhaustive]
#[derive(Clone, Copy, Debug, PartialEq, Eq, Hash)]
pub enum Reason {
    /// It is none that may stand there, or has no newline.
    Form,
    /// A number in it is not allowed.
    Range,
    /// It does not rise above the line before it, or its own numbers do not rise.
    Order,
}

/// A rule that may fail at an address; `docs/FORMATS.md`, "What `verify` asks", has them all.
#[non_exhaustive]
#[derive(Clone, Copy, Debug, PartialEq, Eq, Hash)]
pub enum Rule {
    /// A word before the first unit is missing or another one.
    Prologue,
    /// No unit fits.
    Unit,
    /// A transfer leads to no unit's start, or to one of another kind.
    Target,
    /// A transfer has no line in the graph.
    Unlisted,
    /// A line of the graph has no transfer.
    Unused,
    /// A computed transfer and the graph's line for it do not go together.
    Site,
    /// A target of a class is no gate of it.
    Gate,
    /// A gate of a class is no target of it.
    Astray,
    /// The last unit is no stop.
    End,
    /// A leaf does not begin or end at a unit's start, or a unit goes on to one of another kind.
    Leaf,
}

/// The rules in the order of their numbers, from 2.
const RULES: [Rule; 10] = [
    Rule::Prologue,
    Rule::Unit,
    Rule::Target,
    Rule::Unlisted,
    Rule::Unused,
    Rule::Site,
    Rule::Gate,
    Rule::Astray,
    Rule::End,
    Rule::Leaf,
];

impl Rejection {
    /// What a verdict says; `None` where the pair is accepted. A number that `rvcfi.h` does not have is another library's.
    pub(crate) fn of(verdict: &Verdict) -> Option<Rejection> {
        let Verdict {
            outcome,
            reason,
            first,
            second,
        } = *verdict;
        match (outcome, reason) {
            (0, 0) => None,
            (1, 1) => Some(Rejection::Image(BadImage::Short(first))),
            (1, 2) => Some(Rejection::Image(BadImage::Byte(first))),
            (1, 3) => Some(Rejection::Image(BadImage::Long(first))),
            (2, 1) => Some(line(first, Reason::Form)),
            (2, 2) => Some(line(first, Reason::Range)),
            (2, 3) => Some(line(first, Reason::Order)),
            (3, 1) => Some(Rejection::Length {
                code: first,
                graph: second,
            }),
            (3, 2..=11) => Some(Rejection::Rule {
                rule: RULES[reason as usize - 2],
                address: first,
            }),
            (4, 0) => Some(Rejection::NoMemory),
            _ => panic!("librvcfi_c.a is not the library of this crate: verdict {verdict:?}"),
        }
    }
}

fn line(line: u64, reason: Reason) -> Rejection {
    Rejection::Graph { line, reason }
}

impl Display for Rejection {
    fn fmt(&self, f: &mut Formatter<'_>) -> Result {
        match self {
            Rejection::Image(BadImage::Short(length)) => write!(f, "refused 22 Short {length}"),
            Rejection::Image(BadImage::Byte(offset)) => write!(f, "refused 22 Byte {offset}"),
            Rejection::Image(BadImage::Long(length)) => write!(f, "refused 22 Long {length}"),
            Rejection::Graph { line, reason } => write!(f, "refused 23 Graph {line} {reason:?}"),
            Rejection::Length { code, graph } => write!(f, "rejected Length {code} {graph}"),
            Rejection::Rule { rule, address } => write!(f, "rejected {rule:?} {address:08x}"),
            Rejection::NoMemory => write!(f, "no memory"),
        }
    }
}

impl Error for Rejection {}
