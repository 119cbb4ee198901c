//! What was measured, as it is printed.

use crate::measure::{measure, Call, Times};

const LONG: f64 = 50.0; // microseconds from which on a call of the library counts as long in the summary

/// What the library is compared with: its name, and the ratio that is wanted at most, where one is.
pub struct Yardstick {
    pub name: &'static str,
    pub wanted: Option<f64>,
}

pub const OPENFST: Yardstick = Yardstick { name: "OpenFst", wanted: Some(1.0) };
pub const FLOOR: Yardstick = Yardstick { name: "floor", wanted: Some(3.0) };
pub const RESIDUE: Yardstick = Yardstick { name: "residue.rs", wanted: Some(8.0) };

pub fn plain(name: &'static str) -> Yardstick {
    Yardstick { name, wanted: None }
}

/// One table: the library's time, and that of each yardstick of the section, None where it was not measured.
pub struct Row {
    name: String,
    facts: [String; 2],
    ours: Times,
    others: Vec<Option<Times>>,
}

impl Row {
    /// Measures the library's call and those of each yardstick: several ways of one, of which the fastest counts, or none.
    pub fn measured(name: &str, facts: [String; 2], repetitions: usize, ours: Call, others: Vec<Vec<Call>>) -> Row {
        let sides = std::iter::once(vec![ours]).chain(others).collect();
        let mut times = measure(name, repetitions, sides);
        let ours = times.remove(0).unwrap();
        Row { name: name.to_string(), facts, ours, others: times }
    }

    fn ratio(&self, yardstick: usize) -> Option<f64> {
        Some(self.ours.smallest / self.others[yardstick]?.smallest)
    }

    /// The row as it is printed: for each yardstick the ratio and that of the medians first.
    fn cells(&self) -> Vec<String> {
        let times = |times: &Option<Times>| times.map_or([NONE; 2].map(String::from), |times| [times.smallest, times.median].map(digits));
        let ratios = self.others.iter().flat_map(|other| {
            let ratio = |other: Times| [format!("**{}**", digits(self.ours.smallest / other.smallest)), digits(self.ours.median / other.median)];
            other.map_or([NONE; 2].map(String::from), ratio)
        });
        let ours = times(&Some(self.ours));
        std::iter::once(self.name.clone()).chain(ratios).chain(self.facts.clone()).chain(ours).chain(self.others.iter().flat_map(times)).collect()
    }
}

const NONE: &str = "-";

/// All that is measured of one call.
pub struct Section {
    title: &'static str,
    library: &'static str,
    yardsticks: Vec<Yardstick>,
    facts: [&'static str; 2],
    groups: Vec<(&'static str, Vec<Row>)>,
}

impl Section {
    pub fn new(title: &'static str, library: &'static str, yardsticks: Vec<Yardstick>, facts: [&'static str; 2]) -> Section {
        Section { title, library, yardsticks, facts, groups: Vec::new() }
    }

    pub fn add(&mut self, title: &'static str, rows: impl Iterator<Item = Row>) {
        self.groups.push((title, rows.collect()));
    }

    pub fn print(&self) {
        println!("\n## {}", self.title);
        let names = self.yardsticks.iter().map(|yardstick| yardstick.name);
        let ratios: String = names.clone().map(|name| format!("ratio to {name} | of medians | ")).collect();
        let times: String = names.map(|name| format!(" | {name} µs | median")).collect();
        let head = format!("table | {ratios}{} | library µs | median{times}", self.facts.join(" | "));
        for (title, rows) in &self.groups {
            println!("\n### {title}\n\n| {head} |\n{}|", "|---".repeat(head.split('|').count()));
            rows.iter().for_each(|row| println!("| {} |", row.cells().join(" | ")));
        }
    }

    fn rows(&self) -> impl Iterator<Item = &Row> {
        self.groups.iter().flat_map(|(_, rows)| rows)
    }

    fn named(&self, row: &Row) -> String {
        format!("{} ({}: {}, {}: {})", row.name, self.facts[0], row.facts[0], self.facts[1], row.facts[1])
    }

    /// The range of the ratios to each yardstick, what is wanted, how many tables are above it, and the table with the largest ratio: over all tables,
    /// and over those on which the call is long.
    pub fn print_ratios(&self) {
        for (place, yardstick) in self.yardsticks.iter().enumerate() {
            for (tables, least_time) in [("all".to_string(), 0.0), (format!("{LONG} µs or more"), LONG)] {
                let rows = self.rows().filter(|row| row.ours.smallest >= least_time);
                let mut found: Vec<(f64, &Row)> = rows.filter_map(|row| Some((row.ratio(place)?, row))).collect();
                found.sort_by(|a, b| a.0.total_cmp(&b.0));
                let (Some((least, _)), Some((largest, worst))) = (found.first(), found.last()) else { continue };
                let [least, most] = [*least, *largest].map(digits);
                let above = |wanted: f64| format!("{} | {}", digits(wanted), found.iter().filter(|(ratio, _)| *ratio > wanted).count());
                let wanted = yardstick.wanted.map_or(format!("{NONE} | {NONE}"), above);
                let (library, count) = (self.library, found.len());
                println!("| `{library}` / {} | {tables}: {count} | {least} | **{most}** | {wanted} | {} |", yardstick.name, self.named(worst));
            }
        }
    }

    /// Each table whose ratio is above what is wanted; beside it the floor's own ratio to the same yardstick.
    pub fn print_missed(&self) {
        let floor = self.yardsticks.iter().position(|yardstick| yardstick.name == FLOOR.name);
        for (place, yardstick) in self.yardsticks.iter().enumerate() {
            let Some(wanted) = yardstick.wanted else { continue };
            for (row, ratio) in self.rows().filter_map(|row| Some((row, row.ratio(place)?))).filter(|(_, ratio)| *ratio > wanted) {
                let times = |place: usize| row.others[place].map(|times| times.smallest);
                let floor = floor.filter(|&floor| floor != place).and_then(|floor| Some(times(floor)? / times(place)?));
                let [ratio, wanted, floor] = [Some(ratio), Some(wanted), floor].map(|number| number.map_or(NONE.into(), digits));
                println!("| `{}` / {} | {} | **{ratio}** | {wanted} | {floor} |", self.library, yardstick.name, self.named(row));
            }
        }
    }

    /// The tables on which the call takes the least and the most time.
    pub fn print_times(&self) {
        let by_time = |a: &&Row, b: &&Row| a.ours.smallest.total_cmp(&b.ours.smallest);
        let (least, most) = (self.rows().min_by(by_time).unwrap(), self.rows().max_by(by_time).unwrap());
        let [shortest, longest] = [least, most].map(|row| digits(row.ours.smallest));
        println!("| `{}` | {shortest} | {} | {longest} | {} |", self.library, self.named(least), self.named(most));
    }
}

pub fn grouped(number: usize) -> String {
    if number < 1_000 {
        return number.to_string();
    }
    format!("{},{:03}", grouped(number / 1_000), number % 1_000)
}

/// Three digits, or all before the point.
fn digits(number: f64) -> String {
    match number {
        n if n < 0.0995 => format!("{n:.3}"),
        n if n < 9.995 => format!("{n:.2}"),
        n if n < 99.95 => format!("{n:.1}"),
        n => grouped(n.round() as usize),
    }
}
