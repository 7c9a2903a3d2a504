//! Prints the value of a position and its first best move: best FOLDER POSITION.
use morris_tables::{Error, Position, Tables};
use std::ffi::OsStr;
use std::process::ExitCode;

fn print_best(folder: &OsStr, text: &str) -> Result<(), Error> {
    let position: Position = text.parse()?;
    let tables = Tables::open_board(folder, position.board())?;
    let value = tables.value(&position)?;
    println!("{value}");
    let moves = tables.moves(&position)?;
    if let Some(best) = moves.iter().find(|it| it.value == value) {
        println!("{}", best.played);
    }
    Ok(())
}

fn main() -> ExitCode {
    let arguments: Vec<_> = std::env::args_os().skip(1).collect();
    let answer = match arguments.as_slice() {
        [folder, text] => print_best(folder, &text.to_string_lossy()),
        _ => Err(Error::PositionText),
    };
    match answer {
        Ok(()) => ExitCode::SUCCESS,
        Err(Error::PositionText) => {
            eprintln!("best FOLDER POSITION, which is 24 or 9 characters X, O and .");
            ExitCode::from(2)
        }
        Err(why) => {
            eprintln!("{why}");
            ExitCode::FAILURE
        }
    }
}
