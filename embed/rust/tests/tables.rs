//! The crate over the tables of Grid. Where the environment variable `MORRIS_TEST_TABLES` names a
//! folder that has those of all pairs, as `morris build grid 5-4 --into` and `morris build grid 6-3
//! --into` write them, all positions are gone through: `cargo test -- --include-ignored`.

use morris_tables::{Board, Error, Move, Outcome, Position, Status, Tables, Value};
use std::collections::HashSet;
use std::path::PathBuf;
use std::sync::Arc;
use std::{env, fs, io, process, thread};

/// The file of 6-3 that docs/FILE_FORMAT.md shows whole: whoever is to move has lost.
const DIGEST: &str = "c491af013a973fce72e766d3a64399e607e422ce3d60579cb30e8043b5ba340b";

fn full_board() -> Vec<u8> {
    let mut bytes = b"NMMT\x01\x01\x06\x03\0\0\0\0\0\0\0\xa8".to_vec();
    bytes.extend([0u8, 1].repeat(168));
    bytes.extend((0..32).map(|i| u8::from_str_radix(&DIGEST[2 * i..2 * i + 2], 16).unwrap()));
    bytes
}

/// A folder with one file, which is removed where this is dropped.
struct Room(PathBuf);

impl Room {
    fn with(name: &str, bytes: &[u8]) -> Room {
        let room = env::temp_dir().join(format!("morris-tables-{name}-{}", process::id()));
        fs::create_dir_all(&room).unwrap();
        fs::write(room.join("grid-6-3.nmmt"), bytes).unwrap();
        Room(room)
    }

    fn open(&self) -> Result<Tables, Error> {
        Tables::open_board(&self.0, Board::Grid)
    }
}

impl Drop for Room {
    fn drop(&mut self) {
        fs::remove_dir_all(&self.0).unwrap();
    }
}

fn position(text: &str) -> Position {
    text.parse().unwrap()
}

fn status<T>(answer: Result<T, Error>) -> Option<Status> {
    answer.err().and_then(|it| it.status())
}

#[test]
fn a_full_board_is_lost() {
    let room = Room::with("lost", &full_board());
    let tables = room.open().unwrap();
    let full = position("XXXXXXOOO");
    assert_eq!(tables.value(&full).unwrap(), Value::Lost(0));
    assert_eq!(tables.moves(&full).unwrap(), []);
    assert_eq!(tables.best(&full).unwrap(), None);
    assert_eq!(tables.line(&full).unwrap(), []);
    assert_eq!(tables.pairs(), [(6, 3)]);
    assert!(tables.has(3, 6) && tables.has(6, 3) && !tables.has(3, 3));
    tables.check_digests().unwrap();
    assert_eq!(status(tables.value(&position("XXXOOO..."))), Some(Status::NoTable));
    assert!(matches!(tables.value(&position("XXXOOO..................")), Err(Error::Board)));
}

/// Checks that the file in a room is refused for this, by all that need it.
fn is_damaged(room: &Room, status: Status) {
    let tables = room.open().unwrap();
    let full = position("XXXXXXOOO");
    let file = room.0.join("grid-6-3.nmmt");
    let answers =
        [tables.value(&full).err(), tables.best(&full).err(), tables.check_digests().err()];
    for answer in answers {
        let why = answer.unwrap();
        assert_eq!(why.status(), Some(status));
        assert_eq!(why.to_string(), format!("{}: {status}", file.display()));
        let Error::Damaged { path, pair, .. } = why else { panic!("{why:?}") };
        assert_eq!((path, pair), (file.clone(), (6, 3)));
    }
    assert!(tables.has(6, 3));
}

#[test]
fn a_damaged_file_is_refused() {
    let mut bytes = full_board();
    bytes[20] ^= 1;
    let room = Room::with("damaged", &bytes);
    assert_eq!(status(room.open().unwrap().check_digests()), Some(Status::Digest));
    bytes.pop();
    for length in [0, 15, 16, bytes.len()] {
        is_damaged(&Room::with(&format!("short-{length}"), &bytes[..length]), Status::Short);
    }
    is_damaged(&Room::with("zeros", &[0; 400]), Status::Magic);
    // A file of 5-4, which has 2 * 9! / (5! 4!) positions.
    let mut bytes = b"NMMT\x01\x01\x05\x04\0\0\0\0\0\0\0\xfc".to_vec();
    bytes.extend([0; 2 * 252 + 32]);
    is_damaged(&Room::with("other", &bytes), Status::OtherPair);
}

#[test]
fn a_missing_table_and_a_refused_file_are_named() {
    let room = Room::with("named", &full_board());
    fs::create_dir(room.0.join("grid-3-3.nmmt")).unwrap();
    let tables = room.open().unwrap();
    let (missing, refused) = (position("XXXXOOO.."), position("XXXOOO..."));
    let why = tables.value(&missing).unwrap_err();
    assert!(matches!(why, Error::MissingTable { pair: (4, 3), .. }), "{why:?}");
    assert_eq!((why.status(), &*why.to_string()), (Some(Status::NoTable), "no table of 4-3"));
    assert_eq!(why, tables.best(&missing).unwrap_err());
    let why = tables.moves(&refused).unwrap_err();
    let path = room.0.join("grid-3-3.nmmt");
    assert_eq!(why, Error::Open { path, why: io::Error::from_raw_os_error(22) });
    assert_ne!(why, tables.value(&missing).unwrap_err());
    assert_eq!(tables.check_digests(), Err(why));
    assert_eq!(tables.pairs(), [(3, 3), (6, 3)]);
    tables.value(&position("XXXXXXOOO")).unwrap();
}

#[test]
fn what_is_no_folder_is_not_opened() {
    let why = |path: &str| match Tables::open(path) {
        Err(Error::Open { path: told, why }) if told == *path => why.kind(),
        other => panic!("{other:?}"),
    };
    assert_eq!(why("/nowhere"), io::ErrorKind::NotFound);
    assert_eq!(why(""), io::ErrorKind::NotFound);
    assert_eq!(why("a\0b"), io::ErrorKind::InvalidInput);
    let room = Room::with("list", &full_board());
    let list = format!("/nowhere:{}", room.0.display());
    assert!(Tables::open_board(list, Board::Grid).unwrap().has(6, 3));
    assert!(Tables::open(&room.0).unwrap_err().to_string().contains("no table files"));
}

#[test]
fn texts_are_read_and_written() {
    for text in ["XXXOOO...", "OXO.OXO.XX..............", "XX.OOO..."] {
        assert_eq!(position(text).to_string(), text);
    }
    for text in ["", "XXXOOO..", "XXXOOO....", "xxxooo...", "XXXOOO..\u{425}", "XXXOOO..\n"] {
        assert!(matches!(text.parse::<Position>(), Err(Error::PositionText)), "{text:?}");
    }
    assert_eq!(status("X..OOO...".parse::<Position>()), Some(Status::Stones));
    for text in ["3-2", "3-2x22", "0-0x0"] {
        assert_eq!(text.parse::<Move>().unwrap().to_string(), text);
    }
    for text in ["", "3", "3-", "-2", "3-2x", "3-2x2x2", "3-+2", " 3-2", "3-2 ", "300-2", "003-2"] {
        assert!(matches!(text.parse::<Move>(), Err(Error::MoveText)), "{text:?}");
    }
    assert_eq!(format!("[{:>11}]", position("XXXOOO...")), "[  XXXOOO...]");
}

#[test]
fn masks_that_are_no_position_are_refused() {
    let new = |own, other| status(Position::new(Board::Grid, own, other));
    assert_eq!(new(7, 0x38), None);
    assert_eq!(new(0x207, 0x38), Some(Status::OffBoard));
    assert_eq!(new(7, 0x1c), Some(Status::Overlap));
    assert_eq!(new(1, 0x38), Some(Status::Stones));
    assert_eq!(new(3, 0x38), None);
}

#[test]
fn moves_are_played_by_the_rules() {
    let now = position("XX..OO.OX");
    let after = now.play("8-2x5".parse().unwrap()).unwrap();
    assert_eq!(after.to_string(), "OOO.X..X.");
    for wrong in ["8-2", "0-2x4", "2-3", "0-1", "8-2x7x", "9-2", "8-2x0"] {
        let answer = wrong.parse().and_then(|it| now.play(it));
        assert!(answer.is_err(), "{wrong}");
    }
    let none = Move { from: 0, to: 2, taken: Some(255) };
    assert_eq!(status(now.play(none)), Some(Status::Illegal));
    assert_eq!(position("XX.OOO...").legal_moves(), []);
}

#[test]
fn the_better_value_is_the_greater() {
    let wanted = [Value::Lost(0), Value::Lost(6), Value::Draw, Value::Won(65534), Value::Won(1)];
    let mut sorted = wanted;
    sorted.reverse();
    sorted.sort();
    assert_eq!(sorted, wanted);
    assert_eq!(wanted.map(|it| it.to_string())[1..4], ["lost in 6", "draw", "won in 65534"]);
}

#[test]
fn errors_are_errors() {
    fn is_error<T: std::error::Error + Send + Sync + 'static>() {}
    fn is_shared<T: Send + Sync>() {}
    is_error::<Error>();
    is_shared::<Tables>();
    assert_eq!(Status::Illegal.to_string(), "move isn't legal");
    assert_eq!(morris_tables::version(), env!("CARGO_PKG_VERSION"));
}

// ---- all positions of Grid

fn all_tables() -> Tables {
    let folder = env::var_os("MORRIS_TEST_TABLES").expect("MORRIS_TEST_TABLES names no folder");
    Tables::open_board(folder, Board::Grid).unwrap()
}

fn all_positions() -> Vec<Position> {
    let masks = || 0..1u32 << 9;
    let pairs = masks().flat_map(|own| masks().map(move |other| (own, other)));
    pairs.filter_map(|it| Position::new(Board::Grid, it.0, it.1).ok()).collect()
}

/// How many moves that keep a draw the opponent has after a move.
fn replies(tables: &Tables, now: &Position, outcome: &Outcome) -> usize {
    let after = now.play(outcome.played).unwrap();
    tables.moves(&after).unwrap().iter().filter(|it| it.value == Value::Draw).count()
}

fn is_consistent(tables: &Tables, now: &Position) {
    let (value, moves) = (tables.value(now).unwrap(), tables.moves(now).unwrap());
    assert_eq!(now.legal_moves(), moves.iter().map(|it| it.played).collect::<Vec<_>>());
    assert_eq!(moves.iter().map(|it| it.value).max().unwrap_or(Value::Lost(0)), value);
    let best: Vec<_> = moves.iter().filter(|it| it.value == value).collect();
    let chosen = tables.best(now).unwrap();
    if value == Value::Draw {
        let least = best.iter().map(|it| replies(tables, now, it)).min();
        let first = best.iter().find(|it| Some(replies(tables, now, it)) == least);
        assert_eq!(chosen.as_ref(), first.copied());
        assert_eq!(tables.line(now).unwrap(), []);
    } else {
        assert_eq!(chosen.as_ref(), best.first().copied());
        let line = tables.line(now).unwrap();
        assert!(matches!(value, Value::Won(it) | Value::Lost(it) if usize::from(it) == line.len()));
        let end = line.last().map_or(*now, |it| it.1);
        assert_eq!(tables.value(&end).unwrap(), Value::Lost(0));
    }
}

#[test]
#[ignore = "needs the tables that MORRIS_TEST_TABLES names"]
fn all_positions_are_consistent() {
    let tables = all_tables();
    let positions = all_positions();
    let different: HashSet<_> = positions.iter().map(Position::to_string).collect();
    // The sum of 9! / (a! b! (9 - a - b)!) over 2 to 9 and 3 to 9 stones.
    assert_eq!(different.len(), 9822);
    positions.iter().for_each(|it| is_consistent(&tables, it));
}

#[test]
#[ignore = "needs the tables that MORRIS_TEST_TABLES names"]
fn threads_share_tables() {
    let (tables, positions) = (Arc::new(all_tables()), Arc::new(all_positions()));
    let values = |tables: &Tables, positions: &[Position]| -> Vec<Value> {
        positions.iter().map(|it| tables.value(it).unwrap()).collect()
    };
    let wanted = values(&tables, &positions);
    let ask = || {
        let (tables, positions) = (Arc::clone(&tables), Arc::clone(&positions));
        thread::spawn(move || values(&tables, &positions))
    };
    let asked: Vec<_> = (0..8).map(|_| ask()).collect();
    asked.into_iter().for_each(|it| assert_eq!(it.join().unwrap(), wanted));
}
