//! Runs all forms of a planner on a tree, both forms of the leader sheets, of the film and of the
//! price of a plan, and both of the saving: first they must agree, then they are timed.

use crate::archive::{archive_bytes, most_nodes, Film, PLAIN};
use crate::clock::time;
use crate::dhw::{self, Entries};
use crate::load::{Load, DOUBLES, NODES};
use crate::planner::{Answer, Kind, Planner};
use crate::price::{self, Pricer, Saver};
use crate::sheets::{self, sheets_bytes, Printer};
use crate::{library, plain};
use balduqen::scratch_length;
use std::hint::black_box;
use std::time::Duration;

/// What is timed.
#[derive(Clone, Copy)]
pub enum Form {
    /// The clearing of the scratch by itself.
    Clearing,
    Library,
    Plain,
    Dhw,
    DhwOnDemand,
}

pub const FORMS: [Form; 5] = [
    Form::Clearing,
    Form::Library,
    Form::Plain,
    Form::Dhw,
    Form::DhwOnDemand,
];

impl Form {
    fn is_tried(self, load: &Load, kind: Kind) -> bool {
        match self {
            Form::Clearing | Form::Library | Form::Plain => true,
            Form::Dhw | Form::DhwOnDemand => has_dhw(load, kind),
        }
    }

    fn run(self, load: &Load, kind: Kind, buffers: &mut Buffers) -> Option<Answer> {
        let mut dhw = |entries| dhw::plan(&load.table, &mut buffers.marks, entries);
        match self {
            Form::Clearing => {
                black_box(&mut buffers.scratch).fill(0);
                None
            }
            Form::Library => Some(buffers.run(library::planner(kind), load)),
            Form::Plain => Some(buffers.run(plain::planner(kind), load)),
            Form::Dhw => Some(dhw(Entries::All)),
            Form::DhwOnDemand => Some(dhw(Entries::OnDemand)),
        }
    }
}

/// Whether the report's DHW is tried. With light weights and a high limit its intervals are long,
/// and each is ordered anew for each start: that takes minutes. Nor is it tried on longer trees.
fn has_dhw(load: &Load, kind: Kind) -> bool {
    kind == Kind::Best && load.nodes <= NODES && 32 * load.heaviest > load.limit
}

/// The buffers that a planner is lent.
struct Buffers {
    marks: Vec<u8>,
    scratch: Vec<u32>,
}

impl Buffers {
    /// Filled with what no planner leaves behind.
    fn soiled(load: &Load) -> Buffers {
        Buffers {
            marks: vec![0xa5; load.nodes],
            scratch: vec![0xa5a5_a5a5; scratch_length(load.nodes, load.limit)],
        }
    }

    fn run(&mut self, planner: Planner, load: &Load) -> Answer {
        planner(&load.table, &mut self.marks, &mut self.scratch)
    }
}

/// Panics unless all forms of a planner make the same of a tree.
pub fn check_agreement(load: &Load, kind: Kind) {
    let place = format!("{}: {}", load.name(), kind.name());
    let mut buffers = Buffers::soiled(load);
    let answer = buffers.run(plain::planner(kind), load);
    assert_eq!(answer.number, 0, "{place}: the tree is refused");
    let mut lent = Buffers::soiled(load);
    let library = lent.run(library::planner(kind), load);
    assert_eq!(library, answer, "{place}: the library's answer differs");
    assert!(lent.marks == buffers.marks, "{place}: the marks differ");
    assert!(
        lent.scratch == buffers.scratch,
        "{place}: the scratch differs"
    );
    if has_dhw(load, kind) {
        // The report leaves open which of equal plans is given, so the figures are compared.
        for form in [Form::Dhw, Form::DhwOnDemand] {
            let figures = form.run(load, kind, &mut buffers);
            assert_eq!(figures, Some(answer), "{place}: DHW's figures differ");
        }
    }
}

/// The time of each form, in the order of `FORMS`; none where it is not tried.
pub type Times = [Option<Duration>; FORMS.len()];

/// Each form is lent the buffers as the one before left them, with the scratch cleared.
pub fn times(load: &Load, kind: Kind) -> Times {
    let mut buffers = Buffers::soiled(load);
    buffers.scratch.fill(0);
    let is_tried = |form: Form| form.is_tried(load, kind);
    in_turns(FORMS, is_tried, |form| form.run(load, kind, &mut buffers))
}

/// The times of the library and of plain Rust in each of the sizes.
pub type Growth = [[Option<Duration>; DOUBLES.len()]; 2];

/// Who takes turns with whom, so that the ratios are of the same time: forms by size.
const TURNS: [(usize, Form); 2 * DOUBLES.len()] = [
    (0, Form::Library),
    (0, Form::Plain),
    (1, Form::Library),
    (1, Form::Plain),
    (2, Form::Library),
    (2, Form::Plain),
];

pub fn growth(loads: &[Load; DOUBLES.len()], kind: Kind) -> Growth {
    let mut buffers = loads.each_ref().map(Buffers::soiled);
    for buffers in &mut buffers {
        buffers.scratch.fill(0);
    }
    let run = |(size, form): (usize, Form)| form.run(&loads[size], kind, &mut buffers[size]);
    let times = in_turns(TURNS, |_| true, run);
    [0, 1].map(|form| [0, 1, 2].map(|size| times[2 * size + form]))
}

/// The time of each form; none where it is not tried. The forms take turns, so that a change in the
/// machine's speed falls on all of them.
fn in_turns<F: Copy, T, const N: usize>(
    forms: [F; N],
    is_tried: impl Fn(F) -> bool,
    mut run: impl FnMut(F) -> T,
) -> [Option<Duration>; N] {
    let mut samples = forms.map(|_| Samples::default());
    for _ in 0..MOST {
        for (form, samples) in forms.into_iter().zip(&mut samples) {
            if is_tried(form) && samples.are_few() {
                samples.0.push(time(|| run(form)));
            }
        }
    }
    samples.map(Samples::median)
}

const FEWEST: usize = 3;
const MOST: usize = 25;
/// Once the samples have taken so long, the fewest are enough.
const ENOUGH: Duration = Duration::from_millis(25);

#[derive(Default)]
struct Samples(Vec<Duration>);

impl Samples {
    fn are_few(&self) -> bool {
        self.0.len() < FEWEST || self.0.iter().sum::<Duration>() < ENOUGH
    }

    /// Not the least: where the machine is shared, its clock of processor time can fall short.
    fn median(mut self) -> Option<Duration> {
        self.0.sort();
        self.0.get(self.0.len() / 2).copied()
    }
}

/// The library's sheets, and those in plain Rust.
const PRINTERS: [Printer; 2] = [library::PRINT_SHEETS, sheets::print];

/// A plan that is printed, written on film and priced.
pub struct Plan {
    pub name: &'static str,
    pub marks: Vec<u8>,
    pub pages: usize,
}

/// The plan with the most pages, and the one with the fewest.
pub fn plans(load: &Load) -> [Plan; 2] {
    let mut buffers = Buffers::soiled(load);
    let best = buffers.run(plain::planner(Kind::Best), load);
    [
        Plan {
            name: "a node each",
            marks: vec![1; load.nodes],
            pages: load.nodes,
        },
        Plan {
            name: "best",
            marks: buffers.marks,
            pages: best.pages as usize,
        },
    ]
}

/// Panics unless both forms print the same.
pub fn check_sheets(load: &Load, plan: &Plan) {
    let place = format!("{}: sheets of {}", load.name(), plan.name);
    let [library, plain] = PRINTERS.map(|print| {
        let mut sheets = vec![0xa5; sheets_bytes(plan.pages)];
        let answer = print(&load.table, &plan.marks, &mut sheets);
        assert_eq!(answer.number, 0, "{place}: the plan is refused");
        (answer, sheets)
    });
    assert!(library == plain, "{place}: the sheets differ");
}

/// The time of the library's sheets, and of those in plain Rust.
pub fn sheet_times(load: &Load, plan: &Plan) -> [Option<Duration>; 2] {
    let mut sheets = vec![0xa5; sheets_bytes(plan.pages)];
    in_turns(
        PRINTERS,
        |_| true,
        |print| print(&load.table, &plan.marks, &mut sheets),
    )
}

/// What is done with film: of an edition, from 0 on.
#[derive(Clone, Copy)]
pub enum Step {
    Write(usize),
    Read(usize),
    /// To the other edition.
    Convert(usize),
}

pub const STEPS: [Step; 6] = [
    Step::Write(0),
    Step::Read(0),
    Step::Convert(0),
    Step::Write(1),
    Step::Read(1),
    Step::Convert(1),
];

/// What the entries of film are lent: a table and a plan, their film by edition, and outputs.
struct Lent<'a> {
    table: &'a [u8],
    marks: &'a [u8],
    films: [Vec<u8>; 2],
    new_table: Vec<u8>,
    new_marks: Vec<u8>,
    new_films: [Vec<u8>; 2],
}

impl Step {
    fn is_tried(self, nodes: usize) -> bool {
        match self {
            Step::Write(edition) | Step::Read(edition) => nodes <= most_nodes(edition),
            Step::Convert(_) => (0..2).all(|edition| nodes <= most_nodes(edition)),
        }
    }

    fn run(self, film: &[Film; 2], lent: &mut Lent) -> Answer {
        let [first, second] = &mut lent.new_films;
        match self {
            Step::Write(0) => (film[0].write)(lent.table, lent.marks, first),
            Step::Write(_) => (film[1].write)(lent.table, lent.marks, second),
            Step::Read(edition) => (film[edition].read)(
                &lent.films[edition],
                &mut lent.new_table,
                &mut lent.new_marks,
            ),
            Step::Convert(0) => (film[0].convert)(&lent.films[0], second),
            Step::Convert(_) => (film[1].convert)(&lent.films[1], first),
        }
    }
}

/// The library's film, and that in plain Rust.
const FILM: [&[Film; 2]; 2] = [&library::FILM, &PLAIN];

/// The times of the library and of plain Rust, in the order of `STEPS`; none where a step is not
/// tried.
pub type FilmTimes = [[Option<Duration>; 2]; STEPS.len()];

/// Before it is timed, each step must leave the same in both forms.
pub fn film_times(load: &Load, plan: &Plan) -> FilmTimes {
    let soiled = [0, 1].map(|edition| vec![0xa5; archive_bytes(edition, plan.pages, load.nodes)]);
    let mut lent = Lent {
        table: &load.table,
        marks: &plan.marks,
        films: soiled.clone(),
        new_table: vec![0xa5; load.table.len()],
        new_marks: vec![0xa5; load.nodes],
        new_films: soiled,
    };
    for (film, plain) in lent.films.iter_mut().zip(&PLAIN) {
        // The first edition refuses a longer tree, on which its steps are not tried.
        let _ = (plain.write)(lent.table, lent.marks, film);
    }
    STEPS.map(|step| {
        let is_tried = step.is_tried(load.nodes);
        for film in FILM.into_iter().filter(|_| is_tried) {
            check_film(load, plan, step.run(film, &mut lent), &lent, step);
        }
        in_turns(FILM, |_| is_tried, |film| step.run(film, &mut lent))
    })
}

/// Panics unless a step is accepted and has left what it should.
fn check_film(load: &Load, plan: &Plan, answer: Answer, lent: &Lent, step: Step) {
    let is_left = match step {
        Step::Write(edition) => lent.new_films[edition] == lent.films[edition],
        Step::Convert(edition) => lent.new_films[1 - edition] == lent.films[1 - edition],
        Step::Read(_) => lent.new_table == lent.table && lent.new_marks == lent.marks,
    };
    let place = format!("{}: film of {}", load.name(), plan.name);
    assert!(answer.number == 0 && is_left, "{place}: {answer:?}");
}

/// The library's price of a plan, and that in plain Rust.
const PRICERS: [Pricer; 2] = [library::PRICE, price::price];

/// The library's saving, and that in plain Rust.
const SAVERS: [Saver; 2] = [library::SAVING, price::saving];

/// The times of both forms of a plan's price, which must be the same.
pub fn price_times(load: &Load, plan: &Plan) -> [Option<Duration>; 2] {
    let [library, plain] = PRICERS.map(|price| price(&load.table, &plan.marks));
    let place = format!("{}: price of {}", load.name(), plan.name);
    assert_eq!(plain.number, 0, "{place}: the plan is refused");
    assert_eq!(library, plain, "{place}: the prices differ");
    let run = |price: Pricer| price(&load.table, &plan.marks);
    in_turns(PRICERS, |_| true, run)
}

/// The times of both forms of the saving, which must leave the same.
pub fn saving_times(load: &Load) -> [Option<Duration>; 2] {
    let [library, plain] = SAVERS.map(|saving| {
        let mut lent = Buffers::soiled(load);
        let saved = saving(&load.table, &mut lent.marks, &mut lent.scratch);
        (saved, lent.marks, lent.scratch)
    });
    let place = format!("{}: saving", load.name());
    assert_eq!(plain.0.number, 0, "{place}: the tree is refused");
    assert!(library == plain, "{place}: the forms differ");
    let mut lent = Buffers::soiled(load);
    lent.scratch.fill(0);
    let run = |saving: Saver| saving(&load.table, &mut lent.marks, &mut lent.scratch);
    in_turns(SAVERS, |_| true, run)
}
