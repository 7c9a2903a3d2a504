//! Answers positions as `morris lookup --moves` does, so that the two can be compared: answers
//! FOLDER reads positions of one board from standard input, one a line.
use morris_tables::{Error, Position, Tables};
use std::io::{self, BufRead, Write};

fn answer(tables: &Tables, position: &Position, out: &mut impl Write) -> Result<(), Error> {
    let (value, moves) = (tables.value(position)?, tables.moves(position)?);
    let best: Vec<_> = moves.iter().filter(|it| it.value == value).collect();
    let best: Vec<_> = best.iter().map(|it| it.played.to_string()).collect();
    let before = if best.is_empty() { "" } else { ": " };
    writeln!(out, "{position} {value}{before}{}", best.join(" ")).expect("no output");
    for outcome in moves {
        writeln!(out, "  {} {}", outcome.played, outcome.value).expect("no output");
    }
    Ok(())
}

fn main() -> Result<(), Error> {
    let folder = std::env::args_os().nth(1).expect("no folder");
    let (mut tables, mut out) = (None, io::stdout().lock());
    for line in io::stdin().lock().lines() {
        let position: Position = line.expect("no text").parse()?;
        if tables.is_none() {
            tables = Some(Tables::open_board(&folder, position.board())?);
        }
        if let Some(tables) = &tables {
            answer(tables, &position, &mut out)?;
        }
    }
    Ok(())
}
