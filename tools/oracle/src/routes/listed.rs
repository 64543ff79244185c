//! The listing's route: "defined from its lines alone; an opened if is entered when its branch is not taken".

#[cfg(test)]
pub mod wrong;

use super::{Route, Stop, Walk};
use crate::model::TokenKind::{Keyword, Punct, Symbol};
use crate::rows::{Row, Token};

/// What a line says, read from its tokens.
#[derive(Clone, Copy, Debug, PartialEq, Eq)]
pub enum Says<'a> {
    Label(&'a [u8]),
    /// `do {`
    Do,
    /// `if (..) {`
    If,
    /// `}`
    Brace,
    /// `} while (..);`
    While,
    /// `if (..) goto X;`
    BranchTo(&'a [u8]),
    /// `goto X;`
    Goto(&'a [u8]),
    /// `return;`, `return rax;`
    Return,
    /// `return f(..);`, `goto *rax;`
    Leave,
    /// Any other line, a conditional move's too.
    Plain,
}

fn is(token: Option<&Token>, kind: crate::model::TokenKind, text: &str) -> bool {
    token.is_some_and(|t| t.kind == kind as u8 && t.text == text.as_bytes())
}

pub fn says(line: &Row) -> Says<'_> {
    let tokens = &line.tokens[..];
    let [first, rest @ ..] = tokens else { return Says::Plain };
    let keyword = |word: &str| is(Some(first), Keyword, word);
    if is_label(tokens) {
        Says::Label(&first.text)
    } else if is(Some(first), Punct, "}") {
        Says::Brace
    } else if is(Some(first), Punct, "} ") && is(rest.first(), Keyword, "while") {
        Says::While
    } else if keyword("do") && is(rest.first(), Punct, " {") {
        Says::Do
    } else if keyword("if") {
        of_if(rest)
    } else if keyword("goto") {
        of_goto(rest)
    } else if keyword("return") {
        if rest.iter().any(|t| t.text.contains(&b'(')) {
            Says::Leave
        } else {
            Says::Return
        }
    } else {
        Says::Plain
    }
}

/// Behind `goto`: ` *` and an operand, or a space and a name.
fn of_goto(tokens: &[Token]) -> Says<'_> {
    match tokens {
        [star, ..] if star.kind == Punct as u8 && star.text.starts_with(b" *") => Says::Leave,
        _ => named(tokens).map_or(Says::Plain, Says::Goto),
    }
}

/// Symbol `loc_..` and `:`, and nothing behind.
fn is_label(tokens: &[Token]) -> bool {
    let [name, colon] = tokens else { return false };
    name.kind == Symbol as u8 && name.text.starts_with(b"loc_") && is(Some(colon), Punct, ":")
}

/// Behind `if`: a brace at the end, a `goto`, or a conditional move's assignment.
fn of_if(tokens: &[Token]) -> Says<'_> {
    // Punctuation that stands together is one token.
    if tokens.last().is_some_and(|t| t.kind == Punct as u8 && t.text.ends_with(b") {")) {
        return Says::If;
    }
    let goto = tokens.iter().position(|t| is(Some(t), Keyword, "goto"));
    goto.and_then(|at| named(&tokens[at + 1..])).map_or(Says::Plain, Says::BranchTo)
}

/// The name behind `goto` and a space.
fn named(tokens: &[Token]) -> Option<&[u8]> {
    tokens.get(1).map(|t| &t.text[..])
}

/// A listing as a reader has it: what each line says, and for each brace the line that it belongs to.
pub struct Reader<'a> {
    lines: &'a [Row],
    says: Vec<Says<'a>>,
    /// Of an opened if its brace, of a while-line its do-line.
    partner: Vec<Option<usize>>,
}

impl<'a> Reader<'a> {
    pub fn new(lines: &'a [Row]) -> Reader<'a> {
        let says: Vec<Says> = lines.iter().map(says).collect();
        let partner = partners(&says);
        Reader { lines, says, partner }
    }

    /// "the first n instruction lines met from the listing's top"
    pub fn route(&self, outcomes: &[bool], most: usize) -> Route {
        let mut walk = Walk::new(outcomes, most);
        let mut at = Some(0);
        let stop = loop {
            match at.ok_or(Stop::Lost).and_then(|at| self.step(at, &mut walk)) {
                Ok(next) => at = next,
                Err(stop) => break stop,
            }
        };
        walk.ended(stop)
    }

    /// The line behind line `at`. Labels, do-lines and lone braces are passed, any other line is met.
    fn step(&self, at: usize, walk: &mut Walk) -> Result<Option<usize>, Stop> {
        let (line, says) = (self.lines.get(at).ok_or(Stop::Lost)?, self.says[at]);
        let next = Some(at + 1);
        if matches!(says, Says::Label(_) | Says::Do | Says::Brace) {
            return Ok(next);
        }
        walk.meet(line.place.into(), line.address.unwrap_or(0))?;
        match says {
            Says::Return => Err(Stop::Returned),
            Says::Leave => Err(Stop::Left),
            Says::Goto(name) => Ok(self.label(name)),
            Says::BranchTo(name) => Ok(if walk.taken()? { self.label(name) } else { next }),
            // Taken it leads behind its brace, or back behind its do-line.
            Says::If | Says::While => Ok(if walk.taken()? { self.partner[at].map(|p| p + 1) } else { next }),
            _ => Ok(next),
        }
    }

    /// The line of a label by its name.
    pub fn label(&self, name: &[u8]) -> Option<usize> {
        self.says.iter().position(|s| *s == Says::Label(name))
    }

    /// The names that gotos have, those of branches too.
    pub fn gotos(&self) -> impl Iterator<Item = &'a [u8]> + '_ {
        self.says.iter().filter_map(|s| match s {
            Says::Goto(name) | Says::BranchTo(name) => Some(*name),
            _ => None,
        })
    }
}

/// Braces by depth, from the listing's top.
fn partners(says: &[Says]) -> Vec<Option<usize>> {
    let mut partner = vec![None; says.len()];
    let mut open = Vec::new();
    for (at, what) in says.iter().enumerate() {
        match what {
            Says::Do | Says::If => open.push(at),
            Says::Brace => {
                if let Some(opened) = open.pop() {
                    partner[opened] = Some(at);
                }
            }
            Says::While => partner[at] = open.pop(),
            _ => {}
        }
    }
    partner
}
