//! Moves, values, and what a move leads to.

use crate::error::Error;
use crate::raw::{RawMove, RawValue, DRAW, NONE, WON};
use std::cmp::Ordering;
use std::fmt;
use std::str::FromStr;

/// A move of a stone from a point to another. It is read and written as `3-2`, and with a capture
/// as `3-2x22`.
#[derive(Clone, Copy, PartialEq, Eq, PartialOrd, Ord, Hash, Debug)]
pub struct Move {
    /// The point that the stone leaves.
    pub from: u8,
    /// The point that it goes to.
    pub to: u8,
    /// The point of the opponent's stone that is taken, if any.
    pub taken: Option<u8>,
}

impl Move {
    pub(crate) fn of(raw: &RawMove) -> Move {
        let taken = (raw.taken != NONE).then_some(raw.taken);
        Move { from: raw.from, to: raw.to, taken }
    }

    /// The move for the library. None has a stone taken on the point that stands for no stone.
    pub(crate) fn raw(self) -> Option<RawMove> {
        if self.taken == Some(NONE) {
            return None;
        }
        let taken = self.taken.unwrap_or(NONE);
        Some(RawMove { from: self.from, to: self.to, taken, ..RawMove::default() })
    }
}

fn point(digits: &str) -> Result<u8, Error> {
    let well = matches!(digits.len(), 1 | 2) && digits.bytes().all(|it| it.is_ascii_digit());
    digits.parse().ok().filter(|_| well).ok_or(Error::MoveText)
}

impl FromStr for Move {
    type Err = Error;

    fn from_str(text: &str) -> Result<Move, Error> {
        let (from, rest) = text.split_once('-').ok_or(Error::MoveText)?;
        let (to, taken) = match rest.split_once('x') {
            Some((to, taken)) => (to, Some(point(taken)?)),
            None => (rest, None),
        };
        Ok(Move { from: point(from)?, to: point(to)?, taken })
    }
}

impl fmt::Display for Move {
    fn fmt(&self, f: &mut fmt::Formatter<'_>) -> fmt::Result {
        write!(f, "{}-{}", self.from, self.to)?;
        self.taken.map_or(Ok(()), |taken| write!(f, "x{taken}"))
    }
}

/// The value of a position for the player to move, or of a move for the player who makes it: what
/// best play of both players leads to, and in how many plies. Of two values the better one is the
/// greater: sooner wins, then later ones, draws, later losses, sooner ones.
#[derive(Clone, Copy, PartialEq, Eq, Hash, Debug)]
pub enum Value {
    /// Neither player can force a win.
    Draw,
    /// The player wins in so many plies.
    Won(u16),
    /// The player has lost in so many plies.
    Lost(u16),
}

impl Value {
    pub(crate) fn of(raw: RawValue) -> Value {
        match raw.kind {
            DRAW => Value::Draw,
            WON => Value::Won(raw.depth),
            _ => Value::Lost(raw.depth),
        }
    }

    fn score(self) -> i32 {
        let most = i32::from(u16::MAX) + 1;
        match self {
            Value::Draw => 0,
            Value::Won(depth) => most - i32::from(depth),
            Value::Lost(depth) => i32::from(depth) - most,
        }
    }
}

impl Ord for Value {
    fn cmp(&self, other: &Value) -> Ordering {
        self.score().cmp(&other.score())
    }
}

impl PartialOrd for Value {
    fn partial_cmp(&self, other: &Value) -> Option<Ordering> {
        Some(self.cmp(other))
    }
}

impl fmt::Display for Value {
    fn fmt(&self, f: &mut fmt::Formatter<'_>) -> fmt::Result {
        match self {
            Value::Draw => f.write_str("draw"),
            Value::Won(depth) => write!(f, "won in {depth}"),
            Value::Lost(depth) => write!(f, "lost in {depth}"),
        }
    }
}

/// A legal move and the value that it leads to, for the player who makes it.
#[derive(Clone, Copy, PartialEq, Eq, Hash, Debug)]
pub struct Outcome {
    /// The move.
    pub played: Move,
    /// What it leads to.
    pub value: Value,
}

impl Outcome {
    pub(crate) fn of(raw: &RawMove) -> Outcome {
        Outcome { played: Move::of(raw), value: Value::of(raw.value) }
    }
}
