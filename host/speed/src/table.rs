//! What is printed, as markdown: a table of the sides, one of the growth, and what the proved run's cost includes.
use speed::Shape;

/// A list and what was measured on it; the sides as instructions of one run.
pub struct Row {
    pub shape: Shape,
    pub size: usize,
    pub tokens: usize,
    pub events: usize,
    pub proved: u64,
    pub rust_owned: u64,
    pub rust_lean: u64,
    pub feeder_owned: u64,
    pub checks_and_zeroing: u64,
    pub checks: u64,
    /// The proved run's time as a part of the Rust's, behind each feeder; none under an emulator.
    pub time: Option<[f64; 2]>,
}

pub fn head() -> String {
    heading(
        "shape | tokens | events | proved | Rust, owned | Rust, lean | feeder, owned \
        | proved : owned | proved : lean | time : owned | time : lean",
    )
}

pub fn growth_head() -> String {
    heading("shape | from tokens | to tokens | proved | Rust, owned | Rust, lean")
}

impl Row {
    pub fn line(&self) -> String {
        let sides = [self.proved, self.rust_owned, self.rust_lean, self.feeder_owned];
        let ratio = |other: u64| two_places(self.proved as f64 / other as f64);
        let time = match self.time {
            Some(ratios) => ratios.map(two_places),
            None => [(); 2].map(|()| "-".to_owned()),
        };
        let mut cells = vec![self.label(), thousands(self.tokens), thousands(self.events)];
        cells.extend(sides.map(|count| one_place(self.each(count))));
        cells.extend([self.rust_owned, self.rust_lean].map(ratio));
        cells.extend(time);
        line(&cells)
    }

    /// How often the cost of a token of this list goes into that of a longer one.
    pub fn growth(&self, longer: &Row) -> String {
        let sides: [fn(&Row) -> u64; 3] = [|r| r.proved, |r| r.rust_owned, |r| r.rust_lean];
        let grown = sides.map(|side| longer.each(side(longer)) / self.each(side(self)));
        let name = self.shape.name.to_owned();
        let mut cells = vec![name, thousands(self.tokens), thousands(longer.tokens)];
        cells.extend(grown.map(two_places));
        line(&cells)
    }

    fn each(&self, count: u64) -> f64 {
        count as f64 / self.tokens as f64
    }

    fn label(&self) -> String {
        match self.shape.of_tokens {
            true => self.shape.name.to_owned(),
            false => format!("{}, {}", self.shape.name, thousands(self.size)),
        }
    }
}

/// The parts of the proved run's cost that do not hang on what the tokens say. Both calls without events end with the
/// first step, which is one of many.
pub fn included(rows: &[Row]) -> String {
    let checks = span(rows, |row| row.checks);
    let zeroing = span(rows, |row| row.checks_and_zeroing.saturating_sub(row.checks));
    format!(
        "Included in the proved run's: {checks} for the first checks, {zeroing} for zeroing the work memory twice.\n"
    )
}

/// The least and the most instructions for a token.
fn span(rows: &[Row], part: fn(&Row) -> u64) -> String {
    let each = || rows.iter().map(|row| row.each(part(row)));
    let [least, most] = [each().fold(f64::MAX, f64::min), each().fold(0.0, f64::max)];
    format!("{} to {}", one_place(least), one_place(most))
}

/// The first column is words, the others are numbers.
fn heading(names: &str) -> String {
    let numbers = names.matches('|').count();
    format!("| {names} |\n|---|{}\n", "---:|".repeat(numbers))
}

fn two_places(number: f64) -> String {
    format!("{number:.2}")
}

fn line(cells: &[String]) -> String {
    format!("| {} |\n", cells.join(" | "))
}

/// With commas, also before the point.
fn one_place(number: f64) -> String {
    let tenths = (number * 10.0).round() as usize;
    format!("{}.{}", thousands(tenths / 10), tenths % 10)
}

fn thousands(number: usize) -> String {
    let digits = number.to_string();
    let groups = digits.as_bytes().rchunks(3).rev();
    let groups: Vec<&str> =
        groups.map(|group| std::str::from_utf8(group).expect("digits")).collect();
    groups.join(",")
}

#[cfg(test)]
mod tests {
    use super::*;

    #[test]
    fn numbers() {
        let shown = [0, 999, 1_000, 65_536, 1_048_576].map(thousands);
        assert_eq!(shown, ["0", "999", "1,000", "65,536", "1,048,576"]);
        let shown = [0.04, 9.96, 123.45, 70_001.0].map(one_place);
        assert_eq!(shown, ["0.0", "10.0", "123.5", "70,001.0"]);
    }
}
