//! Texts: sheets, nearly sheets, and nothing like one.

use super::{moves, paper, Random};
use crate::planner::{Move, Order};
use crate::sheet::{render, Sheet, SheetMove, LARGEST_TEXT, MOST_MOVES, MOST_SETS};

pub type Text = Vec<u8>;

/// A sheet in few bytes, as its numbers and what follows each.
const SMALL: [&str; 8] = ["1", "5", "6", "7", "8", "1", "9", "1"];
const SEPARATORS: [&str; 8] = ["\n", " ", " ", " ", "\n", "\n", " ", "\n"];
const SMALL_BYTES: usize = 16;

/// Numbers of every form and size, the first one empty. Where one wraps at 8, 16,
/// 32 or 64 bits it comes out as 1, so that a count is right.
const NUMBERS: &str = "|0|2|01|-1|-0|+1|-01|-|--1|1.0|:|1/|1 1|16|17|256|257|65537|4294967297|\
    1125899906842625|9223372036854775807|9223372036854775808|-9223372036854775807|\
    -9223372036854775808|9999999999999999999|10000000000000000000|0000000000000000001|\
    18446744073709551617|-18446744073709551615|100000000000000000001";

/// Bytes of sheets, and such as are taken for them: other line ends, spaces and
/// signs, the neighbours of the digits, used bytes with the highest bit.
const BYTES: &[u8] = b"0 \n\r\t-\0/1+:9\x0B\xFF,._a\x8A\xA0\xB1";

/// Any text; two in three are sheets.
pub fn any(random: &mut Random) -> Text {
    match random.below(16) {
        0 => paper::SHEET.to_vec(),
        1..=8 => sheet(random),
        9 => counted(random),
        10 => largest(random),
        11 => filled(random),
        12 => any_bytes(random),
        _ => damaged(random),
    }
}

/// The small sheet with one thing wrong, or none: a number of every form at every
/// place; one of the likeliest bytes put in or changed, or a byte taken out.
pub fn edited() -> Vec<Text> {
    let mut texts = Vec::new();
    for place in 0..8 {
        texts.extend(NUMBERS.split('|').map(|number| with_number(place, number)));
    }
    for place in 0..=SMALL_BYTES {
        for byte in BYTES.chunks(1).take(12) {
            texts.extend([0, 1].map(|taken| with_bytes(place, taken, byte)));
        }
        texts.push(with_bytes(place, 1, b""));
    }
    texts.sort();
    texts.dedup();
    texts
}

/// A small sheet of any moves.
fn sheet(random: &mut Random) -> Text {
    let sets = 1 + random.log_uniform(3);
    let bases: Vec<Move> = (0..sets).map(|_| written(random)).collect();
    let count = 1 + random.log_uniform(7);
    let moves = (0..count).map(|_| {
        let set = random.between(1, sets);
        let own = bases[set as usize - 1].displacement;
        let any = random.log_uniform(i64::MAX as u64) as i64;
        let displacement = random.pick(&[own, own, own, own / 2, -own, any, -any]);
        SheetMove { displacement, set }
    });
    let moves = moves.collect();
    let sets = bases.iter().map(Move::bounds).collect();
    render(&Sheet { sets, moves })
}

/// A move whose numbers can stand in a sheet: they have at most 19 digits.
fn written(random: &mut Random) -> Move {
    loop {
        let motion = moves::any(Order::Fourth, random);
        let few = motion.bounds().iter().all(|bound| *bound < 10_u64.pow(19));
        if few && motion.displacement != i64::MIN {
            return motion;
        }
    }
}

/// The shortest lines for counts up to the largest and beyond; one line too few
/// or too many now and then.
fn counted(random: &mut Random) -> Text {
    let few = 1 + random.log_uniform(20);
    let sets = random.pick(&[0, 1, few, MOST_SETS - 1, MOST_SETS, MOST_SETS + 1]);
    let moves = random.pick(&[0, 1, few, MOST_MOVES - 1, MOST_MOVES, MOST_MOVES + 1]);
    let [set_lines, move_lines] = [sets, moves].map(|count| match random.below(8) {
        0 => count.saturating_sub(1),
        1 => count + 1,
        _ => count,
    });
    let set_line = "0 0 0 0\n".repeat(set_lines as usize);
    let last = sets + random.below(2);
    let move_line = format!("0 {}\n", random.pick(&[1, 1, sets.max(1), last]));
    let move_line = move_line.repeat(move_lines as usize);
    format!("{sets}\n{set_line}{moves}\n{move_line}").into_bytes()
}

/// All sets and moves: with 19 digits in every bound and displacement, or all of
/// them planned, which makes the longest report.
fn largest(random: &mut Random) -> Text {
    let digits = 10_u64.pow(18);
    let longest = random.once_in(2);
    let base = |_| match longest {
        true => {
            let size = random.between(digits, i64::MAX as u64) as i64;
            let bounds = [0; 4].map(|_| random.between(digits, 10 * digits - 1));
            Move::new(-size, bounds)
        }
        false => moves::planned(random),
    };
    let bases: Vec<Move> = (0..MOST_SETS).map(base).collect();
    let a_move = |_| {
        let set = random.between(1, MOST_SETS);
        let displacement = bases[set as usize - 1].displacement;
        SheetMove { displacement, set }
    };
    let moves = (0..MOST_MOVES).map(a_move).collect();
    let sets = bases.iter().map(Move::bounds).collect();
    render(&Sheet { sets, moves })
}

/// More bytes after a text: a few, or up to the longest that is read and beyond.
fn filled(random: &mut Random) -> Text {
    let mut text = sheet(random);
    text.truncate(random.pick(&[0, 1, text.len(), text.len()]));
    let few = text.len() + random.between(1, 3) as usize;
    let longest = [few, LARGEST_TEXT, LARGEST_TEXT + 1, LARGEST_TEXT + 5_000];
    text.resize(random.pick(&longest), random.pick(b"\0\0\n 019"));
    text
}

fn any_bytes(random: &mut Random) -> Text {
    let length = random.log_uniform(40);
    (0..length).map(|_| random.pick(BYTES)).collect()
}

/// The small sheet with this number at one of its eight places.
fn with_number(place: usize, number: &str) -> Text {
    let mut numbers = SMALL;
    numbers[place] = number;
    let pairs = numbers.into_iter().zip(SEPARATORS);
    let parts: Vec<&str> = pairs.flat_map(|(number, after)| [number, after]).collect();
    parts.concat().into_bytes()
}

/// The small sheet with these bytes in place of some others, as far as it has them.
fn with_bytes(place: usize, taken: usize, bytes: &[u8]) -> Text {
    let text = with_number(0, SMALL[0]);
    let end = (place + taken).min(SMALL_BYTES);
    [&text[..place], bytes, &text[end..]].concat()
}

/// A sheet after one or two changes; it can still be one.
fn damaged(random: &mut Random) -> Text {
    let mut text = sheet(random);
    for _ in 0..random.between(1, 2) {
        let place = random.below(text.len() as u64 + 1) as usize;
        match random.below(5) {
            0 => text.truncate(place),
            1 => text.insert(place, random.pick(BYTES)),
            2 if place < text.len() => drop(text.remove(place)),
            3 if place < text.len() => text[place] = random.pick(BYTES),
            _ => text = with_line_changed(&text, random),
        }
    }
    text
}

/// A line dropped, doubled, or exchanged with another.
fn with_line_changed(text: &[u8], random: &mut Random) -> Text {
    let mut lines: Vec<&[u8]> = text.split_inclusive(|byte| *byte == b'\n').collect();
    if lines.is_empty() {
        return Text::new();
    }
    let [place, other] = [0; 2].map(|_| random.below(lines.len() as u64) as usize);
    match random.below(3) {
        0 => drop(lines.remove(place)),
        1 => lines.insert(place, lines[place]),
        _ => lines.swap(place, other),
    }
    lines.concat()
}
