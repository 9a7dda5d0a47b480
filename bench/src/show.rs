//! The table of times and ratios, the worst ratios, the quick planners' times by size, the growth of
//! level and best, the table of the leader sheets, and the worst ratios of film and of prices.

use crate::load::{Load, DOUBLES, MOST_NODES, SIZES};
use crate::measure::{FilmTimes, Form, Growth, Plan, Step, Times, STEPS};
use crate::planner::{Kind, KINDS};
use std::time::Duration;

const NOTES: &str = "\
Processor times in milliseconds, the median of several rounds in which the forms take turns.
clear: the clearing of the scratch alone. lib: the proved library. Rust: the same steps in plain
Rust. DHW: the report's algorithm with every start, as published. memo: the same with entries on
demand. Every form but clear reads and checks the table and judges its plan. Buffers are touched
before the first round; marks are not cleared before a call, and the scratch is as the form before
left it, all zero. lib and Rust clear the scratch within their time, and DHW makes its own tables
within its time.
";

/// In the order of the times.
const NAMES: [&str; 5] = ["clear", "lib", "Rust", "DHW", "memo"];

struct Ratio {
    name: &'static str,
    forms: [Form; 2],
    high_is_worse: bool,
}

const RATIOS: [Ratio; 5] = [
    Ratio {
        name: "lib/Rust",
        forms: [Form::Library, Form::Plain],
        high_is_worse: true,
    },
    Ratio {
        name: "DHW/lib",
        forms: [Form::Dhw, Form::Library],
        high_is_worse: false,
    },
    Ratio {
        name: "memo/lib",
        forms: [Form::DhwOnDemand, Form::Library],
        high_is_worse: false,
    },
    Ratio {
        name: "DHW/Rust",
        forms: [Form::Dhw, Form::Plain],
        high_is_worse: false,
    },
    Ratio {
        name: "memo/Rust",
        forms: [Form::DhwOnDemand, Form::Plain],
        high_is_worse: false,
    },
];

impl Ratio {
    fn of(&self, times: &Times) -> Option<f64> {
        quotient(self.forms.map(|form| times[form as usize]))
    }
}

fn quotient([one, other]: [Option<Duration>; 2]) -> Option<f64> {
    Some(one?.as_secs_f64() / other?.as_secs_f64())
}

/// The heads of the columns that `print_name` fills.
fn print_names(what: &str) {
    print!("{:<7}{:>8}{:>6}  {what:<11}", "tree", "weights", "K");
}

/// The tree, and what is done with it.
fn print_name(load: &Load, what: &str) {
    let (shape, weights) = (load.shape.name(), load.weights());
    print!("{shape:<7}{weights:>8}{:>6}  {what:<11}", load.limit);
}

pub fn print_head() {
    println!("{NOTES}");
    print_names("planner");
    for name in NAMES.into_iter().chain(RATIOS.map(|ratio| ratio.name)) {
        print!("{name:>10}");
    }
    println!();
}

pub struct Row<'a> {
    pub load: &'a Load,
    pub kind: Kind,
    pub times: Times,
}

impl Row<'_> {
    pub fn print(&self) {
        print_name(self.load, self.kind.name());
        for time in self.times {
            print_figure(time.map(|time| 1000.0 * time.as_secs_f64()), 3);
        }
        for ratio in &RATIOS {
            print_figure(ratio.of(&self.times), 2);
        }
        println!();
    }
}

fn print_figure(figure: Option<f64>, digits: usize) {
    match figure {
        Some(figure) => print!("{figure:>10.digits$}"),
        None => print!("{:>10}", "-"),
    }
}

pub fn print_head_of_most() {
    println!("\nThe worst with {MOST_NODES} nodes, of the same forms of tree, weights and limits:");
}

/// The worst of each ratio for each planner, with its tree, and the best beside it.
pub fn print_worst(rows: &[Row]) {
    println!();
    for ratio in &RATIOS {
        for kind in KINDS {
            let of_kind = rows.iter().filter(|row| row.kind == kind);
            let figures = of_kind.filter_map(|row| Some((ratio.of(&row.times)?, row.load)));
            let name = format!("{:<10} {:<11}", ratio.name, kind.name());
            print_ends(&name, figures.collect(), ratio.high_is_worse);
        }
    }
}

/// The worst of some figures, with its tree, and the best beside it; nothing where there is none.
fn print_ends(name: &str, mut figures: Vec<(f64, &Load)>, high_is_worse: bool) {
    figures.sort_by(|one, other| one.0.total_cmp(&other.0));
    if high_is_worse {
        figures.reverse();
    }
    if let [(worst, load), .., (best, _)] = &figures[..] {
        println!("{name} worst {worst:.2} ({}), best {best:.2}", load.name());
    }
}

const NOTES_BY_SIZE: &str = "\
The quick planners by the number of nodes N, with the same form of tree, weights and limit: lib in
milliseconds, then lib and clear in nanoseconds a node. Where these stay as they are, the time is
linear in the nodes.
";

/// The columns, each for all sizes: name, what is timed, and whether it is given by node.
const BY_SIZE: [(&str, Form, bool); 3] = [
    ("lib", Form::Library, false),
    ("lib/N", Form::Library, true),
    ("clear/N", Form::Clearing, true),
];

pub fn print_head_by_size() {
    println!("\n{NOTES_BY_SIZE}");
    // A name stands above the last of its sizes.
    print!("{:34}", "");
    for (name, _, _) in BY_SIZE {
        print!("{name:>0$}", 10 * SIZES.len());
    }
    println!();
    print_names("planner");
    for _ in BY_SIZE {
        for nodes in SIZES {
            print!("{nodes:>10}");
        }
    }
    println!();
}

/// The rows of one tree and planner in all sizes, as one line.
pub fn print_by_size(rows: &[Row; SIZES.len()]) {
    print_name(rows[0].load, rows[0].kind.name());
    for (_, form, is_by_node) in BY_SIZE {
        for row in rows {
            let time = row.times[form as usize].map(|time| time.as_secs_f64());
            match is_by_node {
                false => print_figure(time.map(|time| 1e3 * time), 3),
                true => print_figure(time.map(|time| 1e9 * time / row.load.nodes as f64), 0),
            }
        }
    }
    println!();
}

const NOTES_OF_GROWTH: &str = "\
Level and best with 512, 1,024 and 2,048 nodes, with the same form of tree, weights and limit: lib in
milliseconds; how many times as long lib and Rust take for twice the nodes; and lib/Rust for the most
nodes. All of a line take turns. Where the time is linear in the nodes, it is 2 for twice the nodes;
while a page has room for more siblings than there are, runs grow with the tree, and it is up to 4.
";

pub fn print_head_of_growth() {
    println!("\n{NOTES_OF_GROWTH}");
    print_names("planner");
    for nodes in DOUBLES {
        print!("{nodes:>10}");
    }
    for form in ["lib", "Rust"] {
        for two in DOUBLES.windows(2) {
            print!("{:>16}", format!("{form} {}/{}", two[1], two[0]));
        }
    }
    println!("{:>10}", "lib/Rust");
}

pub struct GrowthRow<'a> {
    pub load: &'a Load,
    pub kind: Kind,
    pub times: Growth,
}

impl GrowthRow<'_> {
    /// How many times as long each form takes for twice the nodes.
    fn ratios(&self) -> [[Option<f64>; DOUBLES.len() - 1]; 2] {
        let of_form = |[one, two, four]: [_; 3]| [quotient([two, one]), quotient([four, two])];
        self.times.map(of_form)
    }

    /// lib/Rust for the most nodes.
    fn ratio(&self) -> Option<f64> {
        let [library, plain] = self.times;
        quotient([library[2], plain[2]])
    }

    pub fn print(&self) {
        print_name(self.load, self.kind.name());
        for time in self.times[0] {
            print_figure(time.map(|time| 1e3 * time.as_secs_f64()), 3);
        }
        for ratio in self.ratios().as_flattened() {
            print!("{:6}", "");
            print_figure(*ratio, 2);
        }
        print_figure(self.ratio(), 2);
        println!();
    }
}

/// The largest growth for each planner and doubling, with its tree, and the smallest beside it, and
/// the worst lib/Rust for the most nodes.
pub fn print_worst_growth(rows: &[GrowthRow], kinds: [Kind; 2]) {
    println!();
    for kind in kinds {
        let of_kind = rows.iter().filter(|row| row.kind == kind);
        let figures = of_kind.filter_map(|row| Some((row.ratio()?, row.load)));
        let name = format!("{:<5} lib/Rust {MOST_NODES:>5}", kind.name());
        print_ends(&name, figures.collect(), true);
        for (form, name) in ["lib", "Rust"].into_iter().enumerate() {
            for (step, two) in DOUBLES.windows(2).enumerate() {
                let of_kind = rows.iter().filter(|row| row.kind == kind);
                let figures = of_kind.filter_map(|row| Some((row.ratios()[form][step]?, row.load)));
                let name = format!("{:<5} {name:<4} {:>4}/{:<4}", kind.name(), two[1], two[0]);
                print_ends(&name, figures.collect(), true);
            }
        }
    }
}

const NOTES_OF_SHEETS: &str = "\
The leader sheets of a plan with a page for each node, and of best's plan: times in microseconds.
lib: the proved library. Rust: the same in plain Rust. Both read and check the table, judge the plan
and write every byte of the sheets.
";

pub fn print_head_of_sheets() {
    println!("\n{NOTES_OF_SHEETS}");
    print_names("plan");
    for name in ["pages", "lib", "Rust", "lib/Rust"] {
        print!("{name:>10}");
    }
    println!();
}

pub struct SheetRow<'a> {
    pub load: &'a Load,
    pub plan: Plan,
    /// Of the library, and of plain Rust.
    pub times: [Option<Duration>; 2],
}

impl SheetRow<'_> {
    pub fn print(&self) {
        print_name(self.load, self.plan.name);
        print!("{:>10}", self.plan.pages);
        for time in self.times {
            print_figure(time.map(|time| 1e6 * time.as_secs_f64()), 1);
        }
        print_figure(quotient(self.times), 2);
        println!();
    }
}

/// The worst ratio for each plan.
pub fn print_worst_of_sheets(rows: &[[SheetRow; 2]]) {
    println!();
    for index in 0..2 {
        let of_plan = rows.iter().map(|rows| &rows[index]);
        let figures = of_plan.filter_map(|row| Some((quotient(row.times)?, row.load)));
        let name = format!("lib/Rust   sheets, {:<11}", rows[0][index].plan.name);
        print_ends(&name, figures.collect(), true);
    }
}

const NOTES_OF_FILM: &str = "\
Film of the same plans, in the first edition and in edition 2: writing, reading, and converting to
the other edition. To write, both forms read and check the table and judge the plan; what is read is
written again and compared. In brackets the longest time of lib in microseconds.
";

pub fn print_head_of_film() {
    print!("\n{NOTES_OF_FILM}");
}

pub struct FilmRow<'a> {
    pub load: &'a Load,
    pub plan: Plan,
    pub times: FilmTimes,
}

impl Step {
    fn name(self) -> String {
        match self {
            Step::Write(edition) => format!("write {}", edition + 1),
            Step::Read(edition) => format!("read {}", edition + 1),
            Step::Convert(edition) => format!("to {}", 2 - edition),
        }
    }
}

/// The worst ratio for each step and plan.
pub fn print_worst_of_film(rows: &[[FilmRow; 2]]) {
    println!();
    for (step, name) in STEPS.map(Step::name).into_iter().enumerate() {
        for index in 0..2 {
            let of_plan = rows.iter().map(|rows| &rows[index]);
            let times = of_plan.map(|row| (row.times[step], row.load)).collect();
            let plan = rows[0][index].plan.name;
            print_worst_times(&format!("{name:<8} {plan:<11}"), times);
        }
    }
}

/// The worst ratio of the times of lib and Rust, with the longest time of lib.
fn print_worst_times(what: &str, times: Vec<([Option<Duration>; 2], &Load)>) {
    let longest = times.iter().filter_map(|(times, _)| times[0]).max();
    let micros = 1e6 * longest.unwrap_or_default().as_secs_f64();
    let figures = times.into_iter();
    let figures = figures.filter_map(|(times, load)| Some((quotient(times)?, load)));
    let name = format!("lib/Rust   {what} ({micros:>8.1})");
    print_ends(&name, figures.collect(), true);
}

const NOTES_OF_PRICES: &str = "\
The price of the same plans, and the saving of best's plan against single's. Both forms read and
check the table, and judge each plan whose pages they price; for the saving they make both plans and
clear the scratch. In brackets the longest time of lib in microseconds.
";

pub fn print_head_of_prices() {
    print!("\n{NOTES_OF_PRICES}");
}

pub struct PriceRow<'a> {
    pub load: &'a Load,
    /// Of the library and of plain Rust, for each plan.
    pub prices: [(Plan, [Option<Duration>; 2]); 2],
    pub saving: [Option<Duration>; 2],
}

/// The worst ratio of the price of each plan, and of the saving.
pub fn print_worst_of_prices(rows: &[PriceRow]) {
    println!();
    for index in 0..2 {
        let times = rows.iter().map(|row| (row.prices[index].1, row.load));
        let plan = rows[0].prices[index].0.name;
        print_worst_times(&format!("{:<8} {plan:<11}", "price"), times.collect());
    }
    let times = rows.iter().map(|row| (row.saving, row.load)).collect();
    print_worst_times(&format!("{:<20}", "saving"), times);
}
