//! Sections as Markdown tables.

use super::contest::BATCH;
use super::figures::Line;
use super::Section;

const HEAD: [&str; 9] = [
    "Timed",
    "Against",
    "Archive, ns",
    "Other, ns",
    "Ratio",
    "Quartiles",
    "Archive, ns a sample",
    "Aim",
    "Met",
];

/// How the figures below it were taken.
pub fn preface(repeats: usize) -> String {
    format!(
        "Times are of a call, in the best of {repeats} batches of each side, which took turns; a batch takes about \
         {} ms or more. The ratio is the archive's time over the other's: below 1 the archive is faster. The \
         quartiles (lower, median, upper) are those of the ratios in each round.\n\
         Tables and reports go to one buffer for all sides, which is warm and is not cleared before a call; only \
         the reference's reports are new lists.\n\n",
        BATCH.as_millis()
    )
}

/// A heading, a table and an empty line.
pub fn section(section: &Section) -> String {
    let lines = section.contests.iter().flat_map(|contest| contest.lines());
    let rows: String = lines.map(|line| row(&cells(&line))).collect();
    let rule = HEAD.map(|_| "---".into());
    let head = row(&HEAD.map(String::from)) + &row(&rule).replace(' ', "");
    format!("### {}\n\n{head}{rows}\n", section.title)
}

fn row(cells: &[String; 9]) -> String {
    format!("| {} |\n", cells.join(" | "))
}

fn cells(line: &Line) -> [String; 9] {
    let ratio = two_digits(line.archive / line.rival);
    let quartiles = line.quartiles.map(|ratio| format!("{ratio:.2}"));
    let a_sample = line.samples.map(|n| time(line.archive / n as f64));
    let met = line.aim.map(|aim| if ratio <= aim { "yes" } else { "no" });
    [
        line.what.clone(),
        line.against.into(),
        time(line.archive),
        time(line.rival),
        format!("{ratio:.2}"),
        quartiles.join(" "),
        a_sample.unwrap_or_default(),
        line.aim.map(|aim| format!("{aim:?}")).unwrap_or_default(),
        met.unwrap_or_default().into(),
    ]
}

/// An aim is met by the ratio as it is printed: less is below the noise.
fn two_digits(ratio: f64) -> f64 {
    (ratio * 100.0).round() / 100.0
}

/// Three digits are as much as the clock is good for.
fn time(nanoseconds: f64) -> String {
    match nanoseconds {
        x if x < 10.0 => format!("{x:.2}"),
        x if x < 100.0 => format!("{x:.1}"),
        x => format!("{x:.0}"),
    }
}
