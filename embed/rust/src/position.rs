//! Boards and positions.

use crate::error::{done, Error, Status};
use crate::moves::Move;
use crate::raw::{morris_legal_moves, morris_play, RawMove, MOST_MOVES};
use std::fmt;
use std::str::FromStr;

/// A board.
#[derive(Clone, Copy, PartialEq, Eq, Hash, Debug)]
pub enum Board {
    /// The usual board, with 24 points: three rings of eight, outer, middle and inner, where point
    /// `8 * r + k` is place `k` of ring `r`, clockwise from the top left corner.
    Nine,
    /// A board of three rows and three columns, for trials.
    Grid,
}

impl Board {
    /// How many points the board has.
    pub fn points(self) -> u32 {
        match self {
            Board::Nine => 24,
            Board::Grid => 9,
        }
    }

    /// The number that the library has for the board.
    pub(crate) fn number(self) -> u32 {
        match self {
            Board::Nine => 0,
            Board::Grid => 1,
        }
    }
}

/// The stones of the player to move and of the opponent, all of them on the board.
///
/// It is read from a string with a character for each point, in order, and written as one: `X` for
/// a stone of the player to move, `O` for one of the opponent, `.` for a vacant point.
#[derive(Clone, Copy, PartialEq, Eq, Hash, Debug)]
pub struct Position {
    board: Board,
    own: u32,
    other: u32,
}

impl Position {
    /// The position with these sets of stones, in which bit p stands for point p.
    ///
    /// # Errors
    /// [`Error::Refused`] with `OffBoard`, `Overlap` or `Stones`.
    pub fn new(board: Board, own: u32, other: u32) -> Result<Position, Error> {
        let position = Position { board, own, other };
        // No move leaves this point, so a position refuses it for that alone.
        let nowhere = Move { from: u8::MAX, to: 0, taken: None };
        match position.play(nowhere) {
            Err(Error::Refused(Status::Illegal)) => Ok(position),
            Err(why) => Err(why),
            Ok(_) => Err(Error::Refused(Status::OffBoard)),
        }
    }

    /// The board.
    pub fn board(&self) -> Board {
        self.board
    }

    /// The points of the player to move.
    pub fn own(&self) -> u32 {
        self.own
    }

    /// The points of the opponent.
    pub fn other(&self) -> u32 {
        self.other
    }

    /// The legal moves, in order of `from`, `to` and `taken`: none where the game is over.
    pub fn legal_moves(&self) -> Vec<Move> {
        let mut out = [RawMove::default(); MOST_MOVES];
        let (room, mut count) = (out.len(), 0);
        let number = self.board.number();
        // SAFETY: `out` has as many places as are named, and the pointers are those of values of
        // this function.
        let status = unsafe {
            morris_legal_moves(number, self.own, self.other, out.as_mut_ptr(), room, &mut count)
        };
        // Of a position none is refused, and there is room for all.
        debug_assert_eq!(status, 0);
        out[..count].iter().map(Move::of).collect()
    }

    /// The position after a legal move, in which the other player is to move.
    ///
    /// # Errors
    /// [`Error::Refused`] with `Illegal` where the move isn't legal.
    pub fn play(&self, played: Move) -> Result<Position, Error> {
        let raw = played.raw().ok_or(Error::Refused(Status::Illegal))?;
        let (mut own, mut other) = (0, 0);
        // SAFETY: the pointers are those of values of this function.
        done(unsafe {
            morris_play(self.board.number(), self.own, self.other, &raw, &mut own, &mut other)
        })?;
        Ok(Position { board: self.board, own, other })
    }
}

impl FromStr for Position {
    type Err = Error;

    /// Reads a position string: with 24 characters on the usual board, with 9 on the grid.
    fn from_str(text: &str) -> Result<Position, Error> {
        let board = match text.len() {
            24 => Board::Nine,
            9 => Board::Grid,
            _ => return Err(Error::PositionText),
        };
        if !text.bytes().all(|it| b"XO.".contains(&it)) {
            return Err(Error::PositionText);
        }
        let places = || (0..).zip(text.bytes());
        let mask = |stone| places().filter(|it| it.1 == stone).map(|it| 1u32 << it.0).sum();
        Position::new(board, mask(b'X'), mask(b'O'))
    }
}

impl fmt::Display for Position {
    fn fmt(&self, f: &mut fmt::Formatter<'_>) -> fmt::Result {
        let character = |point: u32| match (self.own >> point & 1, self.other >> point & 1) {
            (1, _) => 'X',
            (_, 1) => 'O',
            _ => '.',
        };
        f.pad(&(0..self.board.points()).map(character).collect::<String>())
    }
}
