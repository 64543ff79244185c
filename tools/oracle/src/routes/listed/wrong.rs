//! Wrong readings of a listing, each with one thing done otherwise, for the comparison to notice.

use super::{Reader, Says};
use crate::routes::{Route, Stop, Walk};

/// What is done otherwise.
#[derive(Clone, Copy, Debug, PartialEq, Eq)]
pub enum Wrong {
    Nothing,
    /// An opened if is entered when its branch is taken.
    IfEnteredWhenTaken,
    /// A taken if leads behind the next lone brace, of whatever depth.
    IfToNextBrace,
    /// A while-line goes back when its branch is not taken.
    WhileBackWhenNot,
    /// A taken while-line leads behind the latest do-line's next line.
    WhileTooFar,
    /// A goto, a branch's goto, leads to the next line.
    GotoOn,
    BranchOn,
    /// A branch's goto is taken when its branch is not.
    BranchWhenNot,
    /// These lines are met.
    LabelsMet,
    DosMet,
    BracesMet,
    /// A conditional move decides an outcome.
    MovesDecide,
    /// A call behind `return` is followed by the next line.
    CallsReturn,
}

use Wrong::*;

/// The route so read.
pub fn route(reader: &Reader, outcomes: &[bool], most: usize, wrong: Wrong) -> Route {
    let mut walk = Walk::new(outcomes, most);
    let mut at = Some(0);
    let stop = loop {
        match at.ok_or(Stop::Lost).and_then(|at| step(reader, at, &mut walk, wrong)) {
            Ok(next) => at = next,
            Err(stop) => break stop,
        }
    };
    walk.ended(stop)
}

fn step(reader: &Reader, at: usize, walk: &mut Walk, wrong: Wrong) -> Result<Option<usize>, Stop> {
    let line = reader.lines.get(at).ok_or(Stop::Lost)?;
    let next = Some(at + 1);
    let meet = |walk: &mut Walk| walk.meet(line.place.into(), line.address.unwrap_or(0));
    match (reader.says[at], wrong) {
        (Says::Label(_), LabelsMet) | (Says::Do, DosMet) | (Says::Brace, BracesMet) => meet(walk).map(|()| next),
        (Says::If, IfEnteredWhenTaken | IfToNextBrace) => {
            meet(walk)?;
            Ok(if walk.taken()? == (wrong != IfEnteredWhenTaken) { behind(reader, at, wrong) } else { next })
        }
        (Says::While, WhileBackWhenNot | WhileTooFar) => {
            meet(walk)?;
            let back = reader.partner[at].map(|p| p + if wrong == WhileTooFar { 2 } else { 1 });
            Ok(if walk.taken()? == (wrong == WhileTooFar) { back } else { next })
        }
        (Says::Goto(_), GotoOn) => meet(walk).map(|()| next),
        (Says::BranchTo(name), BranchOn | BranchWhenNot) => {
            meet(walk)?;
            Ok(if !walk.taken()? && wrong == BranchWhenNot { reader.label(name) } else { next })
        }
        (Says::Plain, MovesDecide) if line.tokens[0].text == b"if" => {
            meet(walk)?;
            walk.taken().map(|_| next)
        }
        (Says::Leave, CallsReturn) => meet(walk).map(|()| next),
        _ => reader.step(at, walk),
    }
}

fn behind(reader: &Reader, at: usize, wrong: Wrong) -> Option<usize> {
    match wrong {
        IfToNextBrace => (at..reader.says.len()).find(|k| reader.says[*k] == Says::Brace).map(|k| k + 1),
        _ => reader.partner[at].map(|p| p + 1),
    }
}
