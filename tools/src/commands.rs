//! The commands: what each makes of what it is given.

use crate::film::{self, Film};
use crate::input::{read_film, read_marks, read_tree, FilmFile, MarksFile, TreeFile};
use crate::list::{help_of_all, Run, COMMANDS};
use crate::output::Output;
use crate::plan::{self, Plan};
use crate::quote::short;
use crate::rule_sheet;
use crate::same_file::is_standard_output;
use crate::stop::Stop;
use crate::svg;
use crate::table;
use crate::text;
use crate::tree::Tree;
use crate::usage::{near, Asked, Given, Usage};
use crate::words::Lent;
use balduqen::{Cause, Edition, Planner, Refusal, UnknownEdition, MAX_NODES};

/// What a command makes: a report for standard output, and files.
#[derive(Debug, Default, PartialEq, Eq)]
pub struct Made {
    pub report: Vec<u8>,
    pub files: Vec<Output>,
}

/// Runs the command that the words name.
pub fn run(words: &[String]) -> Result<Made, Stop> {
    let words: Vec<&str> = words.iter().map(String::as_str).collect();
    match words[..] {
        [] => Err(Stop::trouble(format!(
            "a command is missing\n\n{}",
            help_of_all()
        ))),
        ["help" | "--help" | "-h"] | ["help", "help" | "--help" | "-h"] => {
            Ok(report(help_of_all()))
        }
        ["help" | "--help" | "-h", name] => Ok(report(command(name)?.0.help_text())),
        ["--version" | "-V"] => Ok(report(format!("balduqen {}\n", balduqen::VERSION))),
        ["help" | "--help" | "-h" | "--version" | "-V", .., more] => {
            let more = short(more);
            Err(Stop::trouble(format!("one word too many: '{more}'")))
        }
        [name, ref rest @ ..] => {
            let (usage, run) = command(name)?;
            match usage.read(rest)? {
                Asked::Help => Ok(report(usage.help_text())),
                Asked::Run(given) => run(usage, &given),
            }
        }
    }
}

/// The command of this name.
fn command(name: &str) -> Result<&'static (Usage, Run), Stop> {
    let found = COMMANDS.iter().find(|command| command.0.name == name);
    found.ok_or_else(|| {
        let names: Vec<&str> = COMMANDS.iter().map(|command| command.0.name).collect();
        Stop::trouble(format!(
            "unknown command '{}'{}\n    'balduqen --help' lists the commands.",
            short(name),
            near(name, &names)
        ))
    })
}

fn report(text: impl Into<Vec<u8>>) -> Made {
    Made {
        report: text.into(),
        files: vec![],
    }
}

impl Made {
    /// Adds a file, where one was asked for. Standard output has it in place of the report.
    fn and(mut self, file: Option<&str>, bytes: impl FnOnce() -> Vec<u8>) -> Made {
        match file {
            None => {}
            Some(file) if is_standard_output(file) => self.report = bytes(),
            Some(file) => self.files.push(Output {
                file: file.to_string(),
                bytes: bytes(),
            }),
        }
        self
    }
}

/// What is made for a file, or without one for standard output.
fn to_file(file: Option<&str>, bytes: Vec<u8>) -> Made {
    Made::default().and(Some(file.unwrap_or("-")), || bytes)
}

/// A tree of sound form, any weights and labels, and its file.
fn read_form(file: &str) -> Result<(TreeFile, Tree), Stop> {
    let file = read_tree(file)?;
    match table::read(&file.table) {
        Ok(tree) => Ok((file, tree)),
        Err(fault) => Err(match balduqen::read_tree(&file.table) {
            Err(refusal) => of_tree(&file)(refusal),
            Ok(()) => Stop::bad_form(&file.name, fault, text::FORM),
        }),
    }
}

fn of_tree(tree: &TreeFile) -> impl Fn(Refusal) -> Stop + '_ {
    let lent = Lent {
        tree: Some(tree),
        ..Lent::default()
    };
    move |refusal| lent.stop(refusal)
}

fn of_plan<'a>(tree: &'a TreeFile, marks: &'a MarksFile) -> impl Fn(Refusal) -> Stop + 'a {
    let lent = Lent {
        tree: Some(tree),
        marks: Some(marks),
        ..Lent::default()
    };
    move |refusal| lent.stop(refusal)
}

fn of_film(film: &FilmFile) -> impl Fn(Refusal) -> Stop + '_ {
    let lent = Lent {
        film: Some(film),
        ..Lent::default()
    };
    move |refusal| lent.stop(refusal)
}

/// A tree that is accepted, and marks for it.
struct Planned {
    file: TreeFile,
    tree: Tree,
    marks: MarksFile,
}

impl Planned {
    /// The marks are those of a file or, without one, a planner's.
    fn new(tree: &str, marks: Option<&str>, planner: Planner) -> Result<Planned, Stop> {
        let file = read_tree(tree)?;
        balduqen::read_tree(&file.table).map_err(of_tree(&file))?;
        let tree = sound(&file.table);
        let marks = match marks {
            Some(name) => read_marks(&tree, name)?,
            None => {
                let plan = balduqen::plan(planner, &file.table).map_err(of_tree(&file))?;
                MarksFile {
                    name: file.name.clone(),
                    marks: plan.marks,
                    lines: vec![],
                }
            }
        };
        Ok(Planned { file, tree, marks })
    }

    /// The marks that were chosen or, without any, those of the best plan.
    fn chosen(given: &Given) -> Result<Planned, Stop> {
        Planned::new(given.operand(0), given.chosen("--marks"), Planner::Best)
    }

    /// Has the library make something of table and marks.
    fn made<T>(&self, make: impl FnOnce(&[u8], &[u8]) -> Result<T, Refusal>) -> Result<T, Stop> {
        make(&self.file.table, &self.marks.marks).map_err(of_plan(&self.file, &self.marks))
    }
}

/// The tree of a table that the library accepts.
fn sound(table: &[u8]) -> Tree {
    table::read(table).expect("an accepted table has the form of one")
}

pub fn plan_tree(usage: &Usage, given: &Given) -> Result<Made, Stop> {
    let planner = chosen_planner(usage, given)?;
    if given.chosen("--page").is_some() && given.chosen("--svg").is_none() {
        return Err(usage.trouble("--page is for a picture: --svg FILE".to_string()));
    }
    let page = page_number(usage, given)?;
    let planned = Planned::new(given.operand(0), given.chosen("--marks"), planner)?;
    let list = planned.made(film::listing_of_plan)?;
    let picture = match given.chosen("--svg") {
        None => vec![],
        Some(_) => picture(usage, &planned, page)?,
    };
    Ok(report(list)
        .and(given.chosen("--marks-out"), || {
            plan::write_marks(&planned.marks.marks).into()
        })
        .and(given.chosen("--svg"), || picture))
}

fn chosen_planner(usage: &Usage, given: &Given) -> Result<Planner, Stop> {
    match (given.chosen("--planner"), given.chosen("--marks")) {
        (Some(_), Some(_)) => {
            let fault = "--planner makes a plan, and --marks has one; take one of the two";
            Err(usage.trouble(fault.to_string()))
        }
        (None, _) => Ok(Planner::Best),
        (Some(named), None) => named.parse().map_err(|fault| {
            let names = Planner::ALL.map(Planner::name);
            let hint = match near(named, &names) {
                none if none.is_empty() => format!("; there are {}", names.join(", ")),
                near => near,
            };
            usage.trouble(format!("{fault}{hint}"))
        }),
    }
}

fn page_number(usage: &Usage, given: &Given) -> Result<Option<usize>, Stop> {
    let number = given
        .chosen("--page")
        .map(|page| text::read_number("page", page, 1..=MAX_NODES as u32));
    let number = number.transpose().map_err(|fault| usage.trouble(fault))?;
    Ok(number.map(|page| page as usize))
}

/// The picture of a plan, whole or of one page.
fn picture(usage: &Usage, planned: &Planned, page: Option<usize>) -> Result<Vec<u8>, Stop> {
    let Planned { file, tree, marks } = planned;
    let plan = Plan::new(tree, marks.marks.clone()).map_err(|fault| {
        match balduqen::judge(&file.table, &marks.marks) {
            Err(refusal) if [Cause::BadMarks, Cause::BadMark].contains(&refusal.cause) => {
                of_plan(file, marks)(refusal)
            }
            _ => Stop::bad_form(&marks.name, fault, plan::FORM),
        }
    })?;
    match page {
        None => Ok(svg::draw(tree, &plan).into()),
        Some(page) if page >= 1 && page <= plan.pages.len() => {
            Ok(svg::draw_page(tree, &plan, page).into())
        }
        Some(page) => {
            let pages = plan.pages.len();
            Err(usage.trouble(format!("there is no page {page}; the plan has {pages}")))
        }
    }
}

pub fn judge(_: &Usage, given: &Given) -> Result<Made, Stop> {
    let planned = Planned::new(given.operand(0), Some(given.operand(1)), Planner::Best)?;
    Ok(report(planned.made(film::listing_of_plan)?))
}

pub fn write(usage: &Usage, given: &Given) -> Result<Made, Stop> {
    let edition = given.chosen("--edition").unwrap_or("1").parse();
    let edition = edition.map_err(|fault: UnknownEdition| usage.trouble(fault.to_string()))?;
    let planned = Planned::chosen(given)?;
    let archive = planned.made(|table, marks| balduqen::write_archive(edition, table, marks))?;
    Ok(report(told(&archive)).and(given.chosen("-o"), || archive))
}

/// The verdict that an archive tells, its edition and its length.
fn told(archive: &[u8]) -> String {
    let list = film::listing(archive);
    let verdict = list.lines().next().unwrap_or_default();
    let edition = film::edition(Edition::of(archive));
    format!("{verdict}\n{edition}, {} bytes\n", archive.len())
}

pub fn read(_: &Usage, given: &Given) -> Result<Made, Stop> {
    let file = read_film(given.operand(0))?;
    let archive = &file.archive;
    let film = balduqen::read_archive(archive).map_err(of_film(&file))?;
    let tree = sound(&film.table);
    let mut list = film::listing(archive);
    list += &film::told(film.edition, tree.count(), film.verdict.pages);
    list += "\n";
    list += &film::told_of_labels(&tree);
    let to = given.chosen("-o");
    Ok(report(list)
        .and(to, || {
            match to.is_some_and(|name| name.ends_with(".table")) {
                true => film.table.clone(),
                false => text::write(&tree).into(),
            }
        })
        .and(given.chosen("--marks-out"), || {
            plan::write_marks(&film.marks).into()
        }))
}

pub fn convert(_: &Usage, given: &Given) -> Result<Made, Stop> {
    let film = read_film(given.operand(0))?;
    let out = balduqen::convert(&film.archive).map_err(of_film(&film))?;
    Ok(report(told(&out)).and(given.chosen("-o"), || out))
}

pub fn sheet(_: &Usage, given: &Given) -> Result<Made, Stop> {
    let sheets = Planned::chosen(given)?.made(balduqen::print_sheets)?;
    Ok(to_file(given.chosen("-o"), sheets))
}

pub fn price(_: &Usage, given: &Given) -> Result<Made, Stop> {
    let priced = Planned::chosen(given)?.made(balduqen::price)?;
    Ok(report(format!("price {} cents\n", priced.cents)))
}

pub fn saving(_: &Usage, given: &Given) -> Result<Made, Stop> {
    let tree = read_tree(given.operand(0))?;
    let refused = of_tree(&tree);
    let saving = balduqen::saving(&tree.table).map_err(&refused)?.saving;
    let cents = |planner| {
        let plan = balduqen::plan(planner, &tree.table)?;
        balduqen::price(&tree.table, &plan.marks).map(|priced| priced.cents)
    };
    let best = cents(Planner::Best).map_err(&refused)?;
    let single = cents(Planner::Single).map_err(&refused)?;
    Ok(report(format!(
        "saving {saving} cents, best {best}, single {single}\n"
    )))
}

/// What the checks of the rule sheet do not cover, as its sections 11 and 18 tell it.
const UNSEEN: &str = "\
A label, K or a parent can be wrong and all checks hold, and several wrong words can make up for
one another. Read K, the labels and the parents twice, and compare another copy if there is one:
sections 11 and 18 of docs/RULE-SHEET.txt.
";

pub fn verify(_: &Usage, given: &Given) -> Result<Made, Stop> {
    let film = read_film(given.operand(0))?;
    let walk = rule_sheet::walk(&film.archive);
    let mut found = walk.found.join("\n") + "\n";
    match walk.end {
        Err(_) => Err(no_archive(&film).with(found)),
        Ok(rebuilt) => {
            let checks = walk.found.len() - 1;
            let marks: Vec<u8> = rebuilt.nodes.iter().map(|node| node.mark).collect();
            let marks = plan::write_marks(&marks).replace('\n', "\n      ");
            found += &format!("marks {}\n", marks.trim_end());
            found += &format!("all {checks} checks hold: the archive is sound\n");
            Ok(report(found + UNSEEN))
        }
    }
}

/// Film that the rule sheet finds not sound.
fn no_archive(film: &FilmFile) -> Stop {
    of_film(film)(Refusal {
        cause: Cause::NoArchive,
        place: 0,
    })
}

pub fn dump(_: &Usage, given: &Given) -> Result<Made, Stop> {
    let film = read_film(given.operand(0))?;
    let dump = Film::new(&film.archive).dump();
    match rule_sheet::walk(&film.archive).end {
        // The words' meanings rest on the head and the length, which are the first five checks.
        Err((failed, _)) if failed.check <= 5 => Err(no_archive(&film).with(dump)),
        _ => Ok(report(dump)),
    }
}

pub fn make_text(_: &Usage, given: &Given) -> Result<Made, Stop> {
    let (_, tree) = read_form(given.operand(0))?;
    Ok(to_file(given.chosen("-o"), text::write(&tree).into()))
}

pub fn make_table(_: &Usage, given: &Given) -> Result<Made, Stop> {
    let (file, _) = read_form(given.operand(0))?;
    Ok(to_file(given.chosen("-o"), file.table))
}

pub fn make_svg(usage: &Usage, given: &Given) -> Result<Made, Stop> {
    let page = page_number(usage, given)?;
    let (file, tree) = read_form(given.operand(0))?;
    let marks = read_marks(&tree, given.operand(1))?;
    let picture = picture(usage, &Planned { file, tree, marks }, page)?;
    Ok(to_file(given.chosen("-o"), picture))
}
