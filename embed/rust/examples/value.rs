//! Prints the value of a position, a best move and the position after it.
use morris_tables::{Error, Position, Tables};

fn main() -> Result<(), Error> {
    let tables = Tables::open("tables")?;
    let position: Position = "OXO.OXO.XX..............".parse()?;
    println!("{}", tables.value(&position)?);
    if let Some(best) = tables.best(&position)? {
        println!("{} {}", best.played, tables.play(&position, best.played)?);
    }
    Ok(())
}
