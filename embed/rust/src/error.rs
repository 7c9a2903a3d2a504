//! What can't be done, and why.

use crate::raw::{error_text, last_fault};
use std::fmt;
use std::io;
use std::path::PathBuf;

/// Why a call of the library did nothing: the statuses of `morris.h`.
#[derive(Clone, Copy, PartialEq, Eq, Hash, Debug)]
#[non_exhaustive]
#[repr(i32)]
pub enum Status {
    /// There is no board with this number.
    NoBoard = 1,
    /// A mask has a point that the board doesn't have.
    OffBoard = 2,
    /// Two stones stand on a point.
    Overlap = 3,
    /// A player has a number of stones that no position has.
    Stones = 4,
    /// No file has the pair of a position that is asked for.
    NoTable = 5,
    /// A file of version 2 needs prepared words. The tables prepare theirs.
    NotPrepared = 6,
    /// There is too little room for the results. The tables take enough.
    Room = 7,
    /// A file has fewer bytes than its header says, or than a header has.
    Short = 8,
    /// A file doesn't begin with `NMMT`: it is no table file.
    Magic = 9,
    /// The version of a file is neither 1 nor 2.
    Version = 10,
    /// A file is of another board.
    OtherBoard = 11,
    /// A number of stones in a header isn't 3 to 9, or they are swapped.
    Counts = 12,
    /// A header has more stones than the board has points.
    Crowded = 13,
    /// A header states a wrong number of entries.
    Entries = 14,
    /// A file has more bytes than its header says.
    Trailing = 15,
    /// The digest at the end of a file isn't the digest of its bytes.
    Digest = 16,
    /// The move isn't legal in the position.
    Illegal = 19,
    /// The game is over: there is no move.
    Over = 20,
    /// What the files say of a position and of its moves disagree.
    Disagree = 21,
    /// A file has the table of another pair than its name says.
    OtherPair = 22,
    /// The system refused a file or memory.
    System = 100,
}

impl Status {
    const ALL: [Status; 21] = [
        Status::NoBoard,
        Status::OffBoard,
        Status::Overlap,
        Status::Stones,
        Status::NoTable,
        Status::NotPrepared,
        Status::Room,
        Status::Short,
        Status::Magic,
        Status::Version,
        Status::OtherBoard,
        Status::Counts,
        Status::Crowded,
        Status::Entries,
        Status::Trailing,
        Status::Digest,
        Status::Illegal,
        Status::Over,
        Status::Disagree,
        Status::OtherPair,
        Status::System,
    ];

    /// The status of a number that isn't 0. A library newer than this crate may have others.
    fn of(number: i32) -> Option<Status> {
        Status::ALL.into_iter().find(|it| *it as i32 == number)
    }
}

impl fmt::Display for Status {
    fn fmt(&self, f: &mut fmt::Formatter<'_>) -> fmt::Result {
        f.write_str(error_text(*self as i32))
    }
}

/// Why something can't be done.
#[derive(Debug)]
#[non_exhaustive]
pub enum Error {
    /// The library refused a position or a move, or the files disagree.
    Refused(Status),
    /// No file has the pair of a position that is asked for, or that a move leads to.
    #[non_exhaustive]
    MissingTable {
        /// The pair of numbers of stones, the greater one first.
        pair: (u32, u32),
    },
    /// A file isn't the table of the pair that its name says.
    #[non_exhaustive]
    Damaged {
        /// The path of the file.
        path: PathBuf,
        /// The pair, the greater number of stones first.
        pair: (u32, u32),
        /// Why it isn't.
        status: Status,
    },
    /// The library refused for a reason that is newer than this crate.
    Unknown(i32),
    /// There are no tables to open, or the system refused a folder, a file or memory.
    Open {
        /// The path of what was to be opened: of a file, where one is asked for that was refused.
        path: PathBuf,
        /// Why: of the kind `NotFound` where there is no table file.
        why: io::Error,
    },
    /// The string shows no position: it hasn't 24 or 9 characters `X`, `O` and `.`.
    PositionText,
    /// The string shows no move, such as `3-2` or `3-2x22`.
    MoveText,
    /// The position is one of another board than the tables.
    Board,
}

impl Error {
    /// The status that the library refused with, where it did.
    pub fn status(&self) -> Option<Status> {
        match self {
            Error::Refused(status) | Error::Damaged { status, .. } => Some(*status),
            Error::MissingTable { .. } => Some(Status::NoTable),
            _ => None,
        }
    }
}

impl fmt::Display for Error {
    fn fmt(&self, f: &mut fmt::Formatter<'_>) -> fmt::Result {
        match self {
            Error::Refused(status) => status.fmt(f),
            Error::Unknown(number) => f.write_str(error_text(*number)),
            Error::MissingTable { pair } => write!(f, "no table of {}-{}", pair.0, pair.1),
            Error::Damaged { path, status, .. } => write!(f, "{}: {status}", path.display()),
            Error::Open { path, why } => write!(f, "{}: {why}", path.display()),
            Error::PositionText => f.write_str("a position is 24 or 9 characters X, O and ."),
            Error::MoveText => f.write_str("a move is a text such as 3-2 or 3-2x22"),
            Error::Board => f.write_str("the position is one of another board than the tables"),
        }
    }
}

/// Two errors of the system are equal where they are of the same kind and number.
impl PartialEq for Error {
    fn eq(&self, other: &Error) -> bool {
        match (self, other) {
            (Error::Refused(a), Error::Refused(b)) => a == b,
            (Error::Unknown(a), Error::Unknown(b)) => a == b,
            (Error::MissingTable { pair: a }, Error::MissingTable { pair: b }) => a == b,
            (
                Error::Damaged { path, pair, status },
                Error::Damaged { path: other_path, pair: other_pair, status: other_status },
            ) => (path, pair, status) == (other_path, other_pair, other_status),
            (Error::Open { path: a, why }, Error::Open { path: b, why: other_why }) => {
                let reason = |it: &io::Error| (it.kind(), it.raw_os_error());
                a == b && reason(why) == reason(other_why)
            }
            (Error::PositionText, Error::PositionText) => true,
            (Error::MoveText, Error::MoveText) => true,
            (Error::Board, Error::Board) => true,
            _ => false,
        }
    }
}

impl Eq for Error {}

impl std::error::Error for Error {
    fn source(&self) -> Option<&(dyn std::error::Error + 'static)> {
        match self {
            Error::Open { why, .. } => Some(why),
            _ => None,
        }
    }
}

/// What a status of the library is here.
pub(crate) fn done(status: i32) -> Result<(), Error> {
    match (status, Status::of(status)) {
        (0, _) => Ok(()),
        (_, Some(known)) => Err(Error::Refused(known)),
        (number, None) => Err(Error::Unknown(number)),
    }
}

/// What a status is of a call over tables, of which the library noted the file.
pub(crate) fn answered(status: i32) -> Result<(), Error> {
    if status == 0 {
        return Ok(());
    }
    let fault = last_fault();
    let (Some(pair), true) = (fault.pair, fault.status == status) else {
        return done(status);
    };
    match (fault.path, Status::of(status)) {
        (None, _) => Err(Error::MissingTable { pair }),
        (Some(path), Some(Status::System)) => {
            Err(Error::Open { path, why: io::Error::from_raw_os_error(fault.system) })
        }
        (Some(path), Some(status)) => Err(Error::Damaged { path, pair, status }),
        (Some(_), None) => Err(Error::Unknown(status)),
    }
}
