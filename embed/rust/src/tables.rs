//! Open tables.

use crate::error::{answered, Error, Status};
use crate::moves::{Move, Outcome, Value};
use crate::position::{Board, Position};
use crate::raw::{self, Handle, RawMove, RawValue, MOST_MOVES};
use std::ffi::CString;
use std::io;
use std::os::unix::ffi::OsStrExt;
use std::path::Path;
use std::ptr::NonNull;

/// The open table files of one board. Any threads may ask them at once. They are closed where they
/// are dropped.
///
/// The values are those that the files state: `morris verify BOARD --from FOLDER`, run once before,
/// says whether they are right. Files are mapped: to replace one, put another under its name by
/// renaming, as `morris build` does. One that is cut short or changed while it is open may end the
/// program, or give wrong values.
#[derive(Debug)]
pub struct Tables {
    handle: NonNull<Handle>,
    board: Board,
}

// SAFETY: every call but `morris_close` may be made from any thread at any time with the same
// handle, and `morris_close` is called once, where nobody has the tables any more.
unsafe impl Send for Tables {}
unsafe impl Sync for Tables {}

impl Tables {
    /// Opens the table files of the usual board that lie in a folder, under the names that
    /// `morris build` gives them. A path that names nothing that is there is divided at its colons,
    /// as in `tables:/usr/share/morris`: of each pair the first folder that has its file gives it.
    /// A file that is damaged, or that the system refuses, is refused where its pair is asked for.
    ///
    /// The files are mapped into memory until the tables are dropped. As long as nobody changes
    /// them no call does more than Rust's rules allow. But if another program cuts a file short
    /// meanwhile, a call that needs what was cut off ends the program by the signal SIGBUS, which
    /// can't be caught as an error; and if it overwrites bytes, calls may give wrong values. So
    /// replace a file by renaming another to its name, as `morris build` does: the tables stay with
    /// the file that they opened. Where others may write to the files, copy them first.
    ///
    /// # Errors
    /// [`Error::Open`] where there are none, and where the system refuses a folder or each of the
    /// files.
    pub fn open(path: impl AsRef<Path>) -> Result<Tables, Error> {
        Tables::open_board(path, Board::Nine)
    }

    /// Opens the table files of a board, as [`Tables::open`] does.
    ///
    /// # Errors
    /// Those of [`Tables::open`].
    pub fn open_board(path: impl AsRef<Path>, board: Board) -> Result<Tables, Error> {
        let path = path.as_ref();
        let handle = open_handle(path, board)?;
        Ok(Tables { handle, board })
    }

    /// The board of the tables.
    pub fn board(&self) -> Board {
        self.board
    }

    /// Whether there is a file with the name of this pair of numbers of stones, in either order.
    pub fn has(&self, greater: u32, lesser: u32) -> bool {
        // SAFETY: the tables are open, and any numbers may be handed in.
        unsafe { raw::morris_has(self.handle.as_ptr(), greater, lesser) == 1 }
    }

    /// The pairs of numbers of stones whose name a file has, the greater one first, in order. What
    /// is in a file isn't looked at.
    pub fn pairs(&self) -> Vec<(u32, u32)> {
        let all = (3..=9).flat_map(|greater| (3..=greater).map(move |lesser| (greater, lesser)));
        all.filter(|pair| self.has(pair.0, pair.1)).collect()
    }

    /// The value of a position, for the player to move.
    ///
    /// # Errors
    /// [`Error::Board`]; [`Error::MissingTable`] where no file has its pair; [`Error::Damaged`]
    /// where what has the name of that file isn't its table, with `Short`, `Magic`, `Version`,
    /// `OtherBoard`, `Counts`, `Crowded`, `Entries`, `Trailing` or `OtherPair`; [`Error::Open`]
    /// where the system refused that file.
    pub fn value(&self, position: &Position) -> Result<Value, Error> {
        let (own, other) = self.masks(position)?;
        let mut out = RawValue::default();
        // SAFETY: the tables are open, and the pointers are those of values of this function.
        answered(unsafe { raw::morris_value_of(self.handle.as_ptr(), own, other, &mut out) })?;
        Ok(Value::of(out))
    }

    /// The legal moves of a position, in order of `from`, `to` and `taken`, each with the value
    /// that it leads to for the player who makes it.
    ///
    /// # Errors
    /// Those of [`Tables::value`], for a position that a move leads to.
    pub fn moves(&self, position: &Position) -> Result<Vec<Outcome>, Error> {
        let (own, other) = self.masks(position)?;
        let mut out = [RawMove::default(); MOST_MOVES];
        let (room, mut count) = (out.len(), 0);
        let handle = self.handle.as_ptr();
        // SAFETY: the tables are open, `out` has as many places as are named, and the pointers are
        // those of values of this function.
        answered(unsafe {
            raw::morris_moves_of(handle, own, other, out.as_mut_ptr(), room, &mut count)
        })?;
        Ok(out[..count].iter().map(Outcome::of).collect())
    }

    /// One of the best moves, or none where the game is over. Of several that win or lose it is the
    /// first; of several that keep a draw the first of those after which the opponent has the
    /// fewest moves that keep it too. A table doesn't rank draws: this is a rule of thumb.
    ///
    /// # Errors
    /// Those of [`Tables::value`] and [`Tables::moves`], for the position and for those that
    /// drawing moves lead to; [`Error::Refused`] with `Disagree` where the files say of the
    /// position what doesn't follow from what they say of its moves.
    pub fn best(&self, position: &Position) -> Result<Option<Outcome>, Error> {
        let (own, other) = self.masks(position)?;
        let mut out = RawMove::default();
        // SAFETY: the tables are open, and the pointers are those of values of this function.
        let status = unsafe { raw::morris_best(self.handle.as_ptr(), own, other, &mut out) };
        if status == Status::Over as i32 {
            return Ok(None);
        }
        answered(status)?;
        Ok(Some(Outcome::of(&out)))
    }

    /// A line of best play: at each ply the first best move, with the position after it, to the end
    /// of the game. At a draw it is empty.
    ///
    /// # Errors
    /// Those of [`Tables::best`], for any position of the line.
    pub fn line(&self, position: &Position) -> Result<Vec<(Move, Position)>, Error> {
        let mut line = Vec::new();
        let mut now = *position;
        if self.value(&now)? == Value::Draw {
            return Ok(line);
        }
        // Each best move leads to a value that is nearer to the end by a ply.
        while let Some(best) = self.best(&now)? {
            now = now.play(best.played)?;
            line.push((best.played, now));
        }
        Ok(line)
    }

    /// The position after a legal move, in which the other player is to move.
    ///
    /// # Errors
    /// [`Error::Board`]; [`Error::Refused`] with `Illegal` where the move isn't legal.
    pub fn play(&self, position: &Position, played: Move) -> Result<Position, Error> {
        self.masks(position)?;
        position.play(played)
    }

    /// Reads all files, and says whether each is whole: by its header, its length and its digest.
    /// Only `morris verify` says whether its values are right.
    ///
    /// # Errors
    /// [`Error::Damaged`] for the first file that isn't whole; [`Error::Open`] for one that the
    /// system refused.
    pub fn check_digests(&self) -> Result<(), Error> {
        // SAFETY: the tables are open.
        answered(unsafe { raw::morris_check_tables(self.handle.as_ptr()) })
    }

    /// The masks of a position of this board.
    fn masks(&self, position: &Position) -> Result<(u32, u32), Error> {
        if position.board() != self.board {
            return Err(Error::Board);
        }
        Ok((position.own(), position.other()))
    }
}

fn open_handle(path: &Path, board: Board) -> Result<NonNull<Handle>, Error> {
    let refused = |why| Error::Open { path: path.to_owned(), why };
    let text = CString::new(path.as_os_str().as_bytes()).map_err(|it| refused(it.into()))?;
    let mut status = 0;
    // SAFETY: the path ends with a zero, and the pointers are those of values of this function.
    let handle = unsafe { raw::morris_open(text.as_ptr(), board.number(), &mut status) };
    NonNull::new(handle).ok_or_else(|| {
        if status == Status::System as i32 {
            let fault = raw::last_fault();
            let why = io::Error::from_raw_os_error(fault.system);
            Error::Open { path: fault.path.unwrap_or_else(|| path.to_owned()), why }
        } else {
            refused(io::Error::new(io::ErrorKind::NotFound, "no table files of the board"))
        }
    })
}

impl Drop for Tables {
    fn drop(&mut self) {
        // SAFETY: the tables are open, and nobody has them any more.
        unsafe { raw::morris_close(self.handle.as_ptr()) }
    }
}
