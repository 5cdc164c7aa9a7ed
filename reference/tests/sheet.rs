//! Reading a route sheet: what is one, and where a text stops being one.

use reference::sheet::{can_begin, longest_beginning, read, render, report, SheetRefusal};

/// The bytes of a text in which each / is a line end.
fn text(lines: &str) -> Vec<u8> {
    lines.replace('/', "\n").into_bytes()
}

#[test]
fn what_was_rendered_is_read_back() {
    for (sets, moves) in [(1, 2), (9, 10), (16, 256)] {
        let set = "9999999999999999999 0 7 10/".repeat(sets);
        let pair = format!("9223372036854775807 1/-9223372036854775807 {sets}/");
        let whole = text(&format!("{sets}/{set}{moves}/{}", pair.repeat(moves / 2)));
        assert_eq!(read(&whole).map(|sheet| render(&sheet)), Ok(whole));
    }
}

/// Each set has another zero, and what the planner refuses is no malformation.
#[test]
fn every_number_is_read_at_its_place() {
    let sheet = "4/0 1 1 1/1 0 1 1/1 1 0 1/1 1 1 0/4/8 4/8 3/8 2/8 1/";
    let printed = "move 1 refused 6/move 2 refused 5/move 3 refused 4/move 4 refused 3/";
    assert_eq!(report(&text(sheet)), text(printed));
}

/// Lines, and after a colon the malformed ways to go on, parted by commas. A bar
/// stands before the first byte, or the end, that cannot go on.
const MALFORMED: [&str; 9] = [
    // A count from 1 to 16.
    ":|,1|,|0/,|01/,1|7/,2|0/,10|0/,|-1/,|+1/,| 1/,1| /,1|\r/,|/1/",
    // A set: four numbers of at most 19 digits.
    "1/:|,5 6 7|/,5 6 7 |/,5 6 7 8| 9/,5 6 7 8| /,5 | 6 7 8/,5|\t6 7 8/,0|0 6 7 8/,5 0|6 7 8/",
    "1/:5 6 |-7 8/,5 6 7 9999999999999999999|9/,1000000000000000000|0 6 7 8/",
    "2/5 6 7 8/:1|/9 1/",
    // A count from 1 to 256.
    "1/5 6 7 8/:|,5| 6 7 8/,|0/,|01/,25|7/,26|0/,30|0/,100|0/,|-1/",
    // A move: X up to 2^63-1 in size, and the number of a set.
    "1/5 6 7 8/1/:|,-|0 1/,-|-9 1/,-| 1/,0|9 1/,|+9 1/,9|/,9 |/,9 |0/,9 |01/,9 |-1/,9 |2/",
    "1/5 6 7 8/1/:922337203685477580|8 1/,-922337203685477580|8 1/,9 1|1/,9 1| 1/,9 1|",
    "1/5 6 7 8/3/9 1/9 1/:|",
    // Nothing follows the last line.
    "1/5 6 7 8/1/9 1/:|/,| ,|9 1/,|\0",
];

#[test]
fn where_a_malformed_sheet_cannot_go_on() {
    for row in MALFORMED {
        let (first, others) = row.split_once(':').expect("a colon");
        for other in others.split(',') {
            let (more, after) = other.split_once('|').expect("a bar");
            let beginning = text(&format!("{first}{more}"));
            let whole = text(&format!("{first}{more}{after}"));
            assert_eq!(longest_beginning(&whole), beginning, "{first}{other}");
            for length in 0..=whole.len() {
                let begins = can_begin(&whole[..length]);
                assert_eq!(begins, length <= beginning.len(), "{first}{other}");
            }
            let line = 1 + first.matches('/').count() as u64;
            assert_eq!(read(&whole), Err(SheetRefusal::Malformed { line }));
        }
    }
}

#[test]
fn at_most_65535_bytes() {
    let mut long = text("1/5 6 7 8/1/9 1/");
    long.resize(65_535, b' ');
    assert_eq!(read(&long), Err(SheetRefusal::Malformed { line: 5 }));
    long.push(b' ');
    assert_eq!(read(&long), Err(SheetRefusal::TooLong));
}
