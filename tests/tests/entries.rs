//! What is asked of all entries alike, of the model's and of the library's: that they take trees of
//! up to 2,048 nodes, and those of the archive's first edition up to 1,024, that a tree of sound form
//! is refused with 7 exactly where no set of sibling runs holds it within the limit, that a label 0
//! is refused with 14 by all but the archive's readers, of which the first edition's opens film with
//! it as before and the second's finds none, that a weight of 0 is taken by all, at any node, that
//! film of either edition is converted as it is, and that a plan costs what the film maker's price
//! list says of its pages.

use balduqen_tests::cases::{
    archive_of_note_between, case_e, dear_best, even_chain, even_run, film_of_e, long_case_e, made,
    note_between, once_refused_tables, price_of, priced, Kind, KINDS, MARKS_OF_E,
};
use balduqen_tests::check::{first_unfiled, show, with_copy, Lent, Seen, RETIRED};
use balduqen_tests::entries::{Entries, Writer};
use balduqen_tests::exhaustive::{
    best_of_run_sets, for_each_plan, for_each_table_and_best, page_sizes, page_weights, Score,
};
use balduqen_tests::film::set_word;
use balduqen_tests::gen::*;
use balduqen_tests::kept::{by_hand, kept, kept_filed};
use balduqen_tests::model::{
    read, read_sound, scratch_length, sheets_length, word, Answer, Edition, Price, Saving,
    ARCHIVE_NODES, EDITIONS, FIRST, MAX_LIMIT, MAX_NODES, SECOND,
};
use balduqen_tests::price_list::{cents_of_page, cheapest_by_pages, price_of_pages, PRICE_LIST};
use balduqen_tests::sheet_reader::read_sheets;
use balduqen_tests::tests_of_both_sides;
use balduqen_tools::rule_sheet::rebuild;
use std::collections::{BTreeMap, BTreeSet};
use std::io::Write;
use std::process::{Command, Stdio};

const HEADER: &str = include_str!("../../include/balduqen.h");

/// The answers of all entries that take a table. A refusal must leave every buffer as it was.
struct Asked {
    read_tree: Answer,
    judge: Answer,
    /// In the order of `KINDS`.
    planners: [Answer; KINDS.len()],
    /// By edition.
    write: [Answer; 2],
    print_sheets: Answer,
    price: Price,
    saving: Saving,
}

/// The lengths of the buffers that the entries fill, marks apart: words of a scratch, bytes of an
/// archive by edition, and of sheets.
#[derive(Clone, Copy)]
struct Lengths {
    scratch: usize,
    archives: [usize; 2],
    sheets: usize,
}

impl Lengths {
    /// What is right for the table's count and limit, with a page for each node.
    fn of(table: &[u8]) -> Lengths {
        let (count, limit) = (word(table, 0), word(table, 1));
        Lengths {
            scratch: scratch_length(count, limit),
            archives: EDITIONS.map(|edition| edition.length(count, count)),
            sheets: sheets_length(count),
        }
    }
}

impl Asked {
    /// Each gets buffers that are right for the table's count and limit, and the plan with a page
    /// for each node where it asks for one.
    fn of(entries: &Entries, table: &[u8]) -> Asked {
        let plan = vec![1; word(table, 0)];
        Asked::with(entries, table, &plan, &Lengths::of(table))
    }

    /// Each gets this plan where it asks for one, as many marks to fill, and other buffers of these
    /// lengths.
    fn with(entries: &Entries, table: &[u8], plan: &[u8], lengths: &Lengths) -> Asked {
        let marks = plan.len();
        Asked {
            read_tree: with_copy(table, entries.read_tree),
            judge: with_copy(table, |table| {
                with_copy(plan, |plan| (entries.judge)(table, plan))
            }),
            planners: KINDS.map(|kind| make_plan(entries, kind, table, marks, lengths.scratch)),
            write: EDITIONS.map(|edition| {
                let length = lengths.archives[edition.number - 1];
                fill(entries.film(edition).write, table, plan, length)
            }),
            print_sheets: fill(entries.print_sheets, table, plan, lengths.sheets),
            price: price(entries, table, plan),
            saving: saving(entries, table, marks, lengths.scratch),
        }
    }

    /// Of prices and savings, all but the amounts.
    fn all(&self) -> Vec<Answer> {
        let [first, second] = self.write;
        let of_plan = [self.judge, first, second, self.print_sheets];
        let of_cents = [self.price.answer(), self.saving.answer()];
        [&[self.read_tree][..], &of_plan, &self.planners, &of_cents].concat()
    }

    fn expect_refused(&self, table: &[u8], number: u32, place: usize) {
        let refusal = Answer::refused(number, place);
        assert_eq!(self.all(), [refusal; 7 + KINDS.len()], "{}", show(table));
    }

    /// The verdicts of the planners are not looked at; the saving's is best's. The archive's first
    /// edition has no more than 1,024 nodes.
    fn expect_accepted(&self, table: &[u8]) {
        let count = word(table, 0);
        let of_ones = Answer::accepted(count, word(table, 2) as u32);
        let written = match count <= 1024 {
            true => of_ones,
            false => Answer::refused(15, count),
        };
        assert_eq!(self.read_tree, Answer::ACCEPTED, "{}", show(table));
        assert_eq!(self.judge, of_ones, "{}", show(table));
        assert_eq!(self.write, [written, of_ones], "{}", show(table));
        assert_eq!(self.print_sheets, of_ones, "{}", show(table));
        assert_eq!(self.price, price_of_ones(table), "{}", show(table));
        let planned = self.planners.iter().all(Answer::is_accepted);
        assert!(planned, "{:?}: {}", self.planners, show(table));
        assert_eq!(KINDS[0], Kind::Best);
        assert_eq!(self.saving.answer(), self.planners[0], "{}", show(table));
    }
}

fn make_plan(entries: &Entries, kind: Kind, table: &[u8], marks: usize, scratch: usize) -> Answer {
    let mut marks = Lent::new(&vec![7; marks], 0xa5);
    let mut scratch = Lent::new(&vec![7; scratch], 0xa5a5_a5a5);
    let planner = (entries.planner)(kind);
    let answer = with_copy(table, |table| {
        planner(table, marks.slice(), scratch.slice())
    });
    // A plan has no mark 7, and leaves no scratch.
    let kept = !answer.is_accepted();
    assert!(marks.content().iter().all(|&mark| (mark == 7) == kept));
    assert!(scratch.content().iter().all(|&word| (word == 7) == kept));
    answer
}

/// What a plan with a page for each node of a good table costs by the price list.
fn price_of_ones(table: &[u8]) -> Price {
    let weights = table[4..].chunks(8).map(|record| word(record, 0) as u32);
    let weights: Vec<u32> = weights.collect();
    price_of_pages(&weights, word(table, 1) as u32)
}

/// What a plan costs. Where it is refused there are no pages and no cents.
fn price(entries: &Entries, table: &[u8], plan: &[u8]) -> Price {
    let price = with_copy(table, |table| {
        with_copy(plan, |plan| (entries.price)(table, plan))
    });
    match price.number {
        0 => assert!(price.cents > 0, "{price:?}"),
        number => assert_eq!(price, Price::refused(number, price.place as usize)),
    }
    price
}

/// What the best plan saves, with the buffers of a planner. Where it is refused all is kept, and
/// there are no pages and no saving.
fn saving(entries: &Entries, table: &[u8], marks: usize, scratch: usize) -> Saving {
    let mut marks = Lent::new(&vec![7; marks], 0xa5);
    let mut scratch = Lent::new(&vec![7; scratch], 0xa5a5_a5a5);
    let saving = with_copy(table, |table| {
        (entries.saving)(table, marks.slice(), scratch.slice())
    });
    let kept = saving.number != 0;
    assert!(marks.content().iter().all(|&mark| (mark == 7) == kept));
    assert!(scratch.content().iter().all(|&word| (word == 7) == kept));
    let refusal = Saving::refused(saving.number, saving.place as usize);
    assert!(!kept || saving == refusal, "{saving:?}");
    saving
}

/// What a writer of the archive or the printer of sheets answers.
fn fill(entry: Writer, table: &[u8], plan: &[u8], length: usize) -> Answer {
    let on_entry = vec![7; length];
    let mut lent = Lent::new(&on_entry, 0xa5);
    let answer = with_copy(table, |table| {
        with_copy(plan, |plan| entry(table, plan, lent.slice()))
    });
    assert_eq!(lent.content() == on_entry, !answer.is_accepted());
    answer
}

/// A tree of so many nodes, well-formed but for their number: its table, and the archives of its plan
/// with a page for each node, by edition. They are made here by hand, without the model.
struct Ones {
    table: Vec<u8>,
    films: [Vec<u8>; 2],
    verdict: Answer,
}

impl Ones {
    fn new(random: &mut Random, form: Form, count: usize, limit: usize) -> Ones {
        let parents = random_parents(random, form, count);
        let weights: Vec<u16> = (0..count)
            .map(|_| random.between(0, limit) as u16)
            .collect();
        let table = Table::new(limit as u16, &parents, &weights);
        let film = |opening: &[u16], nodes_of_page: &[u16]| {
            let mut words = opening.to_vec();
            words.extend([count, limit, count].map(|word| word as u16));
            for (page, &weight) in (1..).zip(&weights) {
                let next = if usize::from(page) < count {
                    page + 1
                } else {
                    0
                };
                words.extend([page, page, weight, next]);
                words.extend(nodes_of_page);
            }
            for (record, &parent) in table.records.iter().zip(&parents) {
                words.extend([record.weight, record.label, parent as u16, 0]);
            }
            words.iter().flat_map(|word| word.to_be_bytes()).collect()
        };
        Ones {
            films: [film(&[], &[]), film(&[8194], &[1])],
            table: table.bytes(),
            verdict: Answer::accepted(count, weights[0].into()),
        }
    }

    /// The plan has as many marks as nodes.
    fn marks(&self) -> Vec<u8> {
        vec![1; self.verdict.pages as usize]
    }

    fn film(&self, edition: Edition) -> &[u8] {
        &self.films[edition.number - 1]
    }
}

/// What an archive's reader answers, with buffers of the lengths of this table and plan, and what it
/// leaves in them: these, or the bytes of before.
fn read_archive(
    entries: &Entries,
    edition: Edition,
    archive: &[u8],
    table: &[u8],
    plan: &[u8],
) -> Answer {
    let read = entries.film(edition).read;
    let mut lent_table = Lent::new(&vec![7; table.len()], 0xa5);
    let mut lent_marks = Lent::new(&vec![7; plan.len()], 0x5a);
    let answer = with_copy(archive, |archive| {
        read(archive, lent_table.slice(), lent_marks.slice())
    });
    let (new_table, new_marks) = (lent_table.content(), lent_marks.content());
    if answer.is_accepted() {
        assert_eq!((new_table, new_marks), (table, plan));
    } else {
        assert!(new_table.iter().chain(new_marks).all(|&byte| byte == 7));
    }
    answer
}

/// What a converter answers, with an output of the length of this film, and what it leaves there:
/// this film, or the bytes of before.
fn convert(entries: &Entries, edition: Edition, archive: &[u8], film: &[u8]) -> Answer {
    let convert = entries.film(edition).convert;
    let mut lent = Lent::new(&vec![7; film.len()], 0xa5);
    let answer = with_copy(archive, |archive| convert(archive, lent.slice()));
    match answer.is_accepted() {
        true => assert!(lent.content() == film, "{}", show(lent.content())),
        false => assert!(lent.content().iter().all(|&byte| byte == 7)),
    }
    answer
}

/// The most nodes of the archive's first edition, one more, and the most of a table.
const LONG: [usize; 3] = [1024, 1025, 2048];

fn as_many_nodes_as_may_be(entries: &Entries) {
    let random = &mut Random::new(1101);
    for (form, count) in forms_with(&LONG) {
        for limit in [1, 9, 100] {
            let ones = Ones::new(random, form, count, limit);
            Asked::of(entries, &ones.table).expect_accepted(&ones.table);
            for edition in EDITIONS {
                let film = ones.film(edition);
                let (read, converted) = match (edition, count) {
                    (_, ..=1024) => (ones.verdict, ones.verdict),
                    (FIRST, _) => (Answer::refused(13, 0), Answer::refused(13, 0)),
                    _ => (ones.verdict, Answer::refused(15, count)),
                };
                let answer = read_archive(entries, edition, film, &ones.table, &ones.marks());
                assert_eq!(answer, read);
                let answer = convert(entries, edition, film, ones.film(edition.other()));
                assert_eq!(answer, converted);
                let mut written = vec![7; film.len()];
                let write = entries.film(edition).write;
                if write(&ones.table, &ones.marks(), &mut written).is_accepted() {
                    assert!(written == film, "{}", show(&written));
                }
            }
        }
    }
}

/// Every entry finds one node more too many, with buffers that would be right for it.
fn one_node_too_many(entries: &Entries) {
    let random = &mut Random::new(1102);
    for form in FORMS {
        for limit in [1, 9, 100, 1024] {
            let ones = Ones::new(random, form, 2049, limit);
            Asked::of(entries, &ones.table).expect_refused(&ones.table, 2, 2049);
            for edition in EDITIONS {
                let film = ones.film(edition);
                let answer = read_archive(entries, edition, film, &ones.table, &ones.marks());
                assert_eq!(answer, Answer::refused(13, 0));
                let answer = convert(entries, edition, film, ones.film(edition.other()));
                assert_eq!(answer, Answer::refused(13, 0));
            }
        }
    }
}

/// Where another length is asked for: none, one or two off, and far too long.
fn other_lengths(asked: usize) -> [usize; 6] {
    let far = 2 * asked + 100;
    [0, asked - 2, asked - 1, asked + 1, asked + 2, far]
}

/// Long trees with one buffer in turn of another length, and one that is too long for all entries.
fn long_trees_in_all_lengths(entries: &Entries) {
    let random = &mut Random::new(1107);
    for (form, count) in forms_with(&LONG) {
        let table = Ones::new(random, form, count, 5).table;
        let (plan, right) = (vec![1; count], Lengths::of(&table));
        for length in other_lengths(table.len()) {
            let mut other = table.clone();
            other.resize(length, 1);
            let (number, place) = if length < 4 { (1, 0) } else { (4, table.len()) };
            let asked = Asked::with(entries, &other, &plan, &right);
            asked.expect_refused(&other, number, place);
        }
        for length in other_lengths(count) {
            let asked = Asked::with(entries, &table, &vec![1; length], &right);
            assert_eq!(asked.read_tree, Answer::ACCEPTED);
            let refusal = Answer::refused(8, count);
            assert_eq!(asked.all()[1..], [refusal; 6 + KINDS.len()]);
        }
        for scratch in other_lengths(right.scratch) {
            let refusal = Answer::refused(9, right.scratch);
            for kind in KINDS {
                let answer = make_plan(entries, kind, &table, count, scratch);
                let is_short = scratch < right.scratch;
                assert_eq!(answer == refusal, is_short, "{kind:?} {answer:?}");
                assert_eq!(answer.is_accepted(), !is_short, "{kind:?} {answer:?}");
            }
            let saving = saving(entries, &table, count, scratch).answer();
            let best = make_plan(entries, Kind::Best, &table, count, scratch);
            assert_eq!(saving, best);
        }
        for edition in EDITIONS {
            let right = right.archives[edition.number - 1];
            for archive in other_lengths(right) {
                let refusal = match (edition, count) {
                    (FIRST, 1025..) => Answer::refused(15, count),
                    _ => Answer::refused(12, right),
                };
                let answer = fill(entries.film(edition).write, &table, &plan, archive);
                assert_eq!(answer, refusal);
            }
        }
        for sheets in other_lengths(right.sheets) {
            let answer = fill(entries.print_sheets, &table, &plan, sheets);
            assert_eq!(answer, Answer::refused(12, right.sheets));
        }
    }
    let table = Ones::new(random, Form::Mixed, 2049, 5).table;
    let right = Lengths::of(&table);
    for length in [4, table.len() - 1, table.len(), table.len() + 1] {
        let mut other = table.clone();
        other.resize(length, 1);
        for marks in other_lengths(2049) {
            let lengths = Lengths {
                scratch: marks,
                ..right
            };
            let asked = Asked::with(entries, &other, &vec![1; marks], &lengths);
            asked.expect_refused(&other, 2, 2049);
        }
    }
}

/// The archive's readers: of film with more than 1,024 nodes the first edition's says 13, whatever
/// its buffers are.
fn long_film_in_all_lengths(entries: &Entries) {
    let random = &mut Random::new(1108);
    for (form, count) in forms_with(&LONG) {
        let ones = Ones::new(random, form, count, 5);
        let right = ones.table.len();
        for table_length in other_lengths(right).into_iter().chain([right]) {
            for marks_length in other_lengths(count).into_iter().chain([count]) {
                let (mut table, mut marks) = (ones.table.clone(), ones.marks());
                table.resize(table_length, 9);
                marks.resize(marks_length, 9);
                for edition in EDITIONS {
                    let expected = match (table_length == right, marks_length == count) {
                        _ if edition == FIRST && count > 1024 => Answer::refused(13, 0),
                        (true, true) => ones.verdict,
                        (true, false) => Answer::refused(8, count),
                        (false, _) => Answer::refused(12, right),
                    };
                    let film = ones.film(edition);
                    let answer = read_archive(entries, edition, film, &table, &marks);
                    assert_eq!(answer, expected, "{count} {form:?}");
                }
            }
        }
    }
}

/// The converters: 15 of film with more than 1,024 nodes, whatever the output is, and 12 of other
/// film. A label 0 at the last node of many is 14 of the first edition's film, as one at any node
/// before it is; the second edition has none.
fn conversions_in_all_lengths(entries: &Entries) {
    let random = &mut Random::new(1111);
    for (form, count) in forms_with(&LONG) {
        let ones = Ones::new(random, form, count, 5);
        for edition in EDITIONS {
            let right = ones.film(edition.other());
            for length in other_lengths(right.len()).into_iter().chain([right.len()]) {
                let mut out = right.to_vec();
                out.resize(length, 9);
                let expected = match (edition, count) {
                    (FIRST, 1025..) => Answer::refused(13, 0),
                    (_, 1025..) => Answer::refused(15, count),
                    _ if length != right.len() => Answer::refused(12, right.len()),
                    _ => ones.verdict,
                };
                let mut film = ones.film(edition).to_vec();
                assert_eq!(convert(entries, edition, &film, &out), expected);
                let unfiled = |node| match (edition, count) {
                    (FIRST, ..=1024) => Answer::refused(14, node),
                    _ => Answer::refused(13, 0),
                };
                for node in [count, count - 1, 2, 1] {
                    set_word(&mut film, edition.node_at(count, node) + 1, 0);
                    let answer = convert(entries, edition, &film, &out);
                    assert_eq!(answer, unfiled(node));
                }
                // The last node has no next one.
                *film.last_mut().expect("a byte") = 1;
                let answer = convert(entries, edition, &film, &out);
                assert_eq!(answer, Answer::refused(13, 0));
            }
        }
    }
}

/// A tree that is too long for the archive, with a further fault each: what the judge refuses comes
/// before 15, and 15 before 12. The output keeps its bytes, whatever its length.
fn fifteen_in_its_order(entries: &Entries) {
    let write = entries.film(FIRST).write;
    for count in [1025, 2048] {
        let refused = |number: u32, place: usize, change: &dyn Fn(&mut Table, &mut Vec<u8>)| {
            let mut table = long_case_e(count);
            let mut plan = MARKS_OF_E.to_vec();
            plan.resize(count, 0);
            change(&mut table, &mut plan);
            // The plan of E has three pages. With 1,024 nodes the archive would be shorter.
            let right = FIRST.length(3, count);
            let lengths = other_lengths(right).into_iter();
            for length in lengths.chain([right, FIRST.length(3, 1024)]) {
                let answer = fill(write, &table.bytes(), &plan, length);
                assert_eq!(answer, Answer::refused(number, place), "{count}: {length}");
            }
        };
        let last = count - 1;
        refused(15, count, &|_, _| {});
        refused(15, count, &|_, plan| plan[last] = 1);
        refused(15, count, &|_, plan| plan.fill(1));
        // The judge's.
        refused(2, 0, &|table, _| table.count = 0);
        refused(2, 2049, &|table, _| table.count = 2049);
        refused(3, 0, &|table, _| table.limit = 0);
        refused(3, 1025, &|table, _| table.limit = 1025);
        refused(4, 4 + 8 * last, &|table, _| table.count -= 1);
        refused(14, count, &|table, _| table.records[last].label = 0);
        refused(6, 0, &|table, _| table.records[0].next_sibling = 2);
        refused(6, count, &|table, _| table.records[last].first_child = 1);
        refused(7, count, &|table, _| table.records[last].weight = 6);
        refused(8, count, &|_, plan| plan.truncate(last));
        refused(8, count, &|_, plan| plan.push(0));
        refused(8, count, &|_, plan| plan.clear());
        refused(10, 1, &|_, plan| plan[0] = 0);
        refused(10, count, &|_, plan| plan[last] = 3);
        refused(10, count, &|_, plan| plan[last] = 2);
        refused(11, 1, &|table, _| table.records[last].weight = 1);
        refused(11, 2, &|_, plan| plan[3..5].fill(0));
        // The last two nodes are a page.
        refused(11, 4, &|table, plan| {
            plan[last - 1..].copy_from_slice(&[1, 2]);
            (table.records[last - 1].weight, table.records[last].weight) = (5, 1);
        });
        // More than one.
        refused(10, count, &|table, plan| {
            plan[last] = 3;
            table.records[last].weight = 1;
        });
        refused(7, count, &|table, plan| {
            plan[last] = 3;
            table.records[last].weight = 6;
        });
    }
    // At 1,024 nodes there is none.
    let mut plan = MARKS_OF_E.to_vec();
    plan.resize(1024, 0);
    let right = FIRST.length(3, 1024);
    for length in other_lengths(right).into_iter().chain([right]) {
        let expected = match length == right {
            true => Answer::accepted(3, 5),
            false => Answer::refused(12, right),
        };
        let table = long_case_e(1024).bytes();
        assert_eq!(fill(write, &table, &plan, length), expected);
    }
}

/// Every planner, and the saving, takes exactly the 8,413,184 words that the most nodes ask for
/// under the highest limit, and no fewer.
fn longest_scratch(entries: &Entries) {
    let parents = random_parents(&mut Random::new(1109), Form::Deep, 2048);
    let weights: Vec<u16> = (0..2048).map(|node| 1024 - node % 700).collect();
    let table = Table::new(1024, &parents, &weights).bytes();
    for kind in KINDS {
        let answer = make_plan(entries, kind, &table, 2048, 8_413_184);
        assert!(answer.is_accepted(), "{kind:?}: {answer:?}");
        for scratch in [8_413_183, 8_413_182, 4 * 1024 * 1027, 0] {
            let answer = make_plan(entries, kind, &table, 2048, scratch);
            assert_eq!(answer, Answer::refused(9, 8_413_184), "{kind:?}");
        }
    }
    let best = make_plan(entries, Kind::Best, &table, 2048, 8_413_184);
    let answer = saving(entries, &table, 2048, 8_413_184).answer();
    assert_eq!(answer, best);
    let refusal = saving(entries, &table, 2048, 8_413_183);
    assert_eq!(refusal, Saving::refused(9, 8_413_184));
}

/// The heaviest pages that marks can ask for. Sums of 16 bits would find 0 or 1,024 for some.
fn heaviest_pages(entries: &Entries) {
    for (form, count) in forms_with(&[64, 65, 128, 1024, 1025, 2048]) {
        let parents = random_parents(&mut Random::new(1110), form, count);
        let table = Table::new(1024, &parents, &vec![1024; count]).bytes();
        let mut one_page = vec![0; count];
        one_page[0] = 1;
        heavy_on_film(entries, &table, &one_page, 1);
        // All but node 1, as the run of its children or below the only one.
        let run = (1..=count).map(|node| match parents[node - 1] {
            0 => 1,
            1 if node == 2 => 1,
            1 => 2,
            _ => 0,
        });
        heavy_on_film(entries, &table, &run.collect::<Vec<u8>>(), 2);
    }
}

/// Checks one tree of sound form, whose best score this is, and gives the tree reader's answer.
fn check_weight(entries: &Entries, table: &[u8], best: Option<Score>) -> Answer {
    let asked = Asked::of(entries, table);
    match best {
        Some((pages, root)) => {
            asked.expect_accepted(table);
            let best = Answer::accepted(pages, root);
            assert_eq!(asked.planners[0], best, "{}", show(table));
        }
        None => {
            let tree = read_sound(table).expect("a table of sound form");
            let mut nodes = tree.nodes();
            let heavy = nodes.find(|&node| tree.weights[node] > tree.limit);
            asked.expect_refused(table, 7, heavy.expect("a node that outweighs the limit"));
        }
    }
    asked.read_tree
}

/// With all weights from 0 to one above the limit; of six nodes, under limit 2.
fn seven_in_all_small_trees(entries: &Entries) {
    let mut seen = Seen::default();
    let mut check = |table: &[u8], best| seen.add(check_weight(entries, table, best));
    for limit in 1..=4 {
        let weights: Vec<u16> = (0..=limit + 1).collect();
        for_each_table_and_best(1..=5, &weights, &[limit], &mut check);
    }
    for_each_table_and_best(6..=6, &[0, 1, 2, 3], &[2], &mut check);
    seen.expect(&[0, 7], 90_000);
}

/// One node, or two, of a weight around the limit or far above it.
fn seven_in_random_small_trees(entries: &Entries) {
    let random = &mut Random::new(1103);
    let mut seen = Seen::default();
    for _ in 0..4000 {
        let limit = random.pick(&[1, 5, 12, 1024]);
        let mut table = any_table(random, 7, limit);
        for _ in 0..2 {
            let place = random.between(0, table.records.len() - 1);
            let around = [table.limit - 1, table.limit, table.limit + 1, u16::MAX];
            table.records[place].weight = random.pick(&around);
        }
        let table = table.bytes();
        let tree = read_sound(&table).expect("a table of sound form");
        seen.add(check_weight(entries, &table, best_of_run_sets(&tree)));
    }
    seen.expect(&[0, 7], 1000);
}

/// The first refusal of a table that is well linked and has a good head.
fn refusal_told(table: &[u8]) -> Option<(u32, usize)> {
    let mut weights = table[4..].chunks(8).map(|record| word(record, 0));
    let heavy = weights.position(|weight| weight > word(table, 1));
    let heavy = heavy.map(|index| (7, index + 1));
    let unfiled = first_unfiled(table).map(|node| (14, node));
    unfiled.or(heavy)
}

/// All labels of 0 and 1 in all small trees, also where a weight is 0, which changes nothing, or
/// over the limit.
fn fourteen_in_all_small_trees(entries: &Entries) {
    let mut seen = Seen::default();
    for_each_table(1..=4, &[0, 1, 2, 3], &[2], |table| {
        for_each_labelling(table, |table| {
            let asked = Asked::of(entries, table);
            match refusal_told(table) {
                Some((number, place)) => asked.expect_refused(table, number, place),
                None => asked.expect_accepted(table),
            }
            seen.add(asked.read_tree);
        });
    });
    seen.expect(&[0, 7, 14], 100);
}

/// All labels of 0 and 1 with all links of small tables: where a label is 0, no walk is told of.
fn fourteen_before_the_walk(entries: &Entries) {
    for count in 1..=3 {
        for_each_linking(count, |table| {
            for_each_labelling(&table.bytes(), |table| {
                if let Some(node) = first_unfiled(table) {
                    Asked::of(entries, table).expect_refused(table, 14, node);
                }
            });
        });
    }
}

/// Case E with label 0 at nodes 3 and 5, and with a further change each.
fn fourteen_in_its_order(entries: &Entries) {
    let refused = |number: u32, place: usize, change: fn(&mut Table)| {
        let mut table = case_e();
        table.records[2].label = 0;
        table.records[4].label = 0;
        change(&mut table);
        let table = table.bytes();
        Asked::of(entries, &table).expect_refused(&table, number, place);
    };
    refused(14, 3, |_| {});
    refused(14, 1, |table| table.records[0].label = 0);
    refused(14, 5, |table| table.records[2].label = 256);
    // What is checked before it.
    refused(2, 0, |table| table.count = 0);
    refused(2, 2049, |table| table.count = 2049);
    refused(3, 0, |table| table.limit = 0);
    refused(3, 1025, |table| table.limit = 1025);
    refused(4, 44, |table| table.count = 5);
    refused(4, 60, |table| table.count = 7);
    // What was checked before it, as 5, and is no fault any more.
    refused(14, 3, |table| table.records[2].weight = 0);
    refused(14, 3, |table| table.records[0].weight = 0);
    refused(14, 3, |table| table.records[5].weight = 0);
    // What is checked after it, at nodes before the label.
    refused(14, 3, |table| table.records[0].next_sibling = 2);
    refused(14, 3, |table| table.records[1].next_sibling = 0);
    refused(14, 3, |table| table.records[1].first_child = 7);
    refused(14, 3, |table| table.records[0].weight = 6);
    refused(14, 3, |table| table.limit = 1);
}

/// Film from before 14 was refused is opened: its verdict, its table and its plan. It is no film of
/// the second edition, and is not converted to it.
fn kept_film_is_read(entries: &Entries) {
    for film in kept() {
        let answer = read_archive(entries, FIRST, &film.archive, &film.table, &film.marks);
        assert_eq!(answer, film.verdict, "{}", film.name);
        let answer = read_archive(entries, SECOND, &film.archive, &film.table, &film.marks);
        assert_eq!(answer, Answer::refused(13, 0), "{}", film.name);
        let length = SECOND.length(film.verdict.pages as usize, film.marks.len());
        for length in other_lengths(length).into_iter().chain([length]) {
            let answer = convert(entries, FIRST, &film.archive, &vec![7; length]);
            assert_eq!(answer, Answer::refused(14, film.unfiled), "{}", film.name);
            let answer = convert(entries, SECOND, &film.archive, &vec![7; length]);
            assert_eq!(answer, Answer::refused(13, 0), "{}", film.name);
        }
    }
}

/// What is read of it is taken by no other entry, whatever else is wrong with what is lent.
fn kept_film_is_not_taken_again(entries: &Entries) {
    for film in kept() {
        let count = film.marks.len();
        let scratch = scratch_length(count, word(&film.table, 1));
        let pages = film.verdict.pages as usize;
        let [first, second] = EDITIONS.map(|edition| edition.length(pages, count));
        let sheets = sheets_length(pages);
        // The plan of the film, one page for all, which is mostly too heavy, marks that are not
        // allowed, and other lengths.
        let mut one_page = vec![0; count];
        one_page[0] = 1;
        let mut plans = vec![film.marks, one_page, vec![3; count]];
        plans.extend([0, count - 1, count + 1].map(|length| vec![1; length]));
        for plan in &plans {
            for scratch in [0, scratch - 1, scratch] {
                for (archives, sheets) in [
                    ([0, 0], 0),
                    ([first - 1, second - 1], sheets - 1),
                    ([first, second], sheets),
                    ([first + 1, second + 1], sheets + 1),
                ] {
                    let lengths = Lengths {
                        scratch,
                        archives,
                        sheets,
                    };
                    let asked = Asked::with(entries, &film.table, plan, &lengths);
                    asked.expect_refused(&film.table, 14, film.unfiled);
                }
            }
        }
    }
}

/// For such film, too, the reader checks 13, then 12, then 8.
fn kept_film_in_the_order_of_the_reader(entries: &Entries) {
    for film in kept() {
        let (count, length) = (film.marks.len(), film.table.len());
        // The next node of the last node.
        let mut bad = film.archive.clone();
        *bad.last_mut().expect("a byte") = 1;
        for table in [0, length - 1, length, length + 1] {
            for marks in [0, count - 1, count, count + 1] {
                let expected = match (table == length, marks == count) {
                    (true, true) => film.verdict,
                    (true, false) => Answer::refused(8, count),
                    (false, _) => Answer::refused(12, length),
                };
                let (mut new_table, mut new_marks) = (film.table.clone(), film.marks.clone());
                new_table.resize(table, 9);
                new_marks.resize(marks, 9);
                let answer = read_archive(entries, FIRST, &film.archive, &new_table, &new_marks);
                assert_eq!(answer, expected, "{}", film.name);
                let refusal = read_archive(entries, FIRST, &bad, &new_table, &new_marks);
                assert_eq!(refusal, Answer::refused(13, 0), "{}", film.name);
            }
        }
    }
}

/// The largest film, with label 0 at the last node: of the first edition it is read. A tree that is
/// too long for that gets 14 from its writer all the same.
fn label_0_of_the_last_of_many(entries: &Entries) {
    let random = &mut Random::new(1104);
    for (form, count) in forms_with(&[ARCHIVE_NODES, MAX_NODES]) {
        let mut ones = Ones::new(random, form, count, 9);
        // All end in the node's record, and its label is the second word of four.
        let [first, second] = &mut ones.films;
        for bytes in [&mut ones.table, first, second] {
            let label = bytes.len() - 6;
            bytes[label..label + 2].fill(0);
        }
        Asked::of(entries, &ones.table).expect_refused(&ones.table, 14, count);
        for edition in EDITIONS {
            let expected = match edition == FIRST && count == ARCHIVE_NODES {
                true => ones.verdict,
                false => Answer::refused(13, 0),
            };
            let film = ones.film(edition);
            let answer = read_archive(entries, edition, film, &ones.table, &ones.marks());
            assert_eq!(answer, expected, "{count} {form:?}");
        }
    }
}

/// What 5 refused is accepted, or refused by what is checked next.
fn five_is_never_given(entries: &Entries) {
    for (table, number, place) in once_refused_tables() {
        let asked = Asked::of(entries, &table);
        match number {
            0 => asked.expect_accepted(&table),
            _ => asked.expect_refused(&table, number, place),
        }
    }
    let random = &mut Random::new(1105);
    for _ in 0..3000 {
        let mut table = any_table(random, 12, 12);
        for _ in 0..random.between(1, 3) {
            let place = random.between(0, table.records.len() - 1);
            table.records[place].weight = 0;
        }
        let table = match random.once_in(2) {
            true => table.bytes(),
            false => damaged(random, &table),
        };
        // Buffers for twelve nodes and limit 12, whatever the table's head says.
        let lengths = Lengths {
            scratch: 720,
            archives: [198, 224],
            sheets: 4860,
        };
        let asked = Asked::with(entries, &table, &[1; 12], &lengths);
        assert!(asked.all().iter().all(|answer| answer.number != RETIRED));
    }
}

/// A tree and a plan: the judge, the writer and the printer give this verdict, the page records and
/// the sheets have these weights, the price is that of these weights, and the reader and the rule
/// sheet get table and marks back.
fn on_film(entries: &Entries, table: &[u8], marks: &[u8], weights: &[usize]) {
    on_archive(entries, table, marks, weights);
    on_sheets(entries, table, marks, weights);
    let weights: Vec<u32> = weights.iter().map(|&weight| weight as u32).collect();
    let expected = price_of_pages(&weights, word(table, 1) as u32);
    assert_eq!(price(entries, table, marks), expected);
}

/// In both editions, and from the one to the other; with more than 1,024 nodes in the second.
fn on_archive(entries: &Entries, table: &[u8], marks: &[u8], weights: &[usize]) {
    let verdict = Answer::accepted(weights.len(), weights[0] as u32);
    let films = EDITIONS.map(|edition| {
        let mut film = vec![7; edition.length(weights.len(), marks.len())];
        let answer = (entries.film(edition).write)(table, marks, &mut film);
        if edition == FIRST && marks.len() > 1024 {
            assert_eq!(answer, Answer::refused(15, marks.len()));
            return film;
        }
        assert_eq!(answer, verdict, "{}", show(table));
        let written: Vec<usize> = words_of_pages(edition, &film, 2);
        assert_eq!(written, weights, "{}", show(table));
        let answer = read_archive(entries, edition, &film, table, marks);
        assert_eq!(answer, verdict, "{}", show(table));
        film
    });
    let [first, second] = &films;
    let tree = read(table).expect("an accepted table");
    let sizes = words_of_pages(SECOND, second, 4);
    let sizes = sizes.into_iter().map(|nodes| nodes as u32);
    assert!(sizes.eq(page_sizes(&tree, marks)), "{}", show(table));
    if marks.len() > 1024 {
        return;
    }
    assert_eq!(convert(entries, FIRST, first, second), verdict);
    assert_eq!(convert(entries, SECOND, second, first), verdict);
    let told = rebuild(first).expect("a sound archive");
    let told_marks: Vec<u8> = told.nodes.iter().map(|node| node.mark).collect();
    assert_eq!(told_marks, marks, "{}", show(table));
    let sums: Vec<usize> = told.pages.iter().map(|page| page.sum).collect();
    assert_eq!(sums, weights, "{}", show(table));
}

/// A word of each page record, by its place in the record.
fn words_of_pages(edition: Edition, archive: &[u8], field: usize) -> Vec<usize> {
    let [_, _, pages] = edition.head(archive);
    let of_page = |page| word(archive, edition.page_at(page) + field);
    (1..=pages).map(of_page).collect()
}

fn on_sheets(entries: &Entries, table: &[u8], marks: &[u8], weights: &[usize]) {
    let verdict = Answer::accepted(weights.len(), weights[0] as u32);
    assert_eq!((entries.judge)(table, marks), verdict, "{}", show(table));
    let mut sheets = vec![7; sheets_length(weights.len())];
    let answer = (entries.print_sheets)(table, marks, &mut sheets);
    assert_eq!(answer, verdict, "{}", show(table));
    let told = read_sheets(&sheets).expect("sound sheets");
    let printed: Vec<usize> = told.pages.iter().map(|page| page.weight).collect();
    assert_eq!(printed, weights, "{}", show(table));
    let limit = word(table, 1);
    let per_cents = told.pages.iter().map(|page| page.per_cent);
    assert!(per_cents.eq(weights.iter().map(|weight| 100 * weight / limit)));
}

/// The judge, the writer, the printer and the price find a page over the limit, and nothing is
/// written.
fn heavy_on_film(entries: &Entries, table: &[u8], marks: &[u8], page: usize) {
    let refusal = Answer::refused(11, page);
    assert_eq!((entries.judge)(table, marks), refusal, "{}", show(table));
    for edition in EDITIONS {
        let archive = edition.length(marks.len(), marks.len());
        let answer = fill(entries.film(edition).write, table, marks, archive);
        assert_eq!(answer, refusal, "{}", show(table));
    }
    let answer = fill(entries.print_sheets, table, marks, sheets_length(2));
    assert_eq!(answer, refusal, "{}", show(table));
    assert_eq!(price(entries, table, marks), Price::refused(11, page));
}

/// The film of a run with a note in it, word by word.
fn film_with_a_note(entries: &Entries) {
    let (table, marks) = (note_between().bytes(), [1, 1, 2, 2]);
    on_film(entries, &table, &marks, &[2, 2]);
    let mut archive = [7; 54];
    let answer = (entries.film(FIRST).write)(&table, &marks, &mut archive);
    assert_eq!(answer, Answer::accepted(2, 2));
    assert_eq!(archive[..], archive_of_note_between());
}

/// Weights of 0 and 1 in every order along a run, so that notes come first, last and between: with
/// the node before the run as a note or not, and the one after it.
fn notes_at_every_place_of_a_run(entries: &Entries) {
    let parents = [0, 1, 1, 1, 1, 1];
    for bits in 0..32 {
        let [before, first, middle, last, after] = [4, 3, 2, 1, 0].map(|bit| bits >> bit & 1);
        // Without a note both pages are full.
        let table = Table::new(3, &parents, &[1, before, first, middle, last, after]).bytes();
        let weights = [1 + before + after, first + middle + last].map(usize::from);
        on_film(entries, &table, &[1, 0, 1, 2, 2, 0], &weights);
    }
}

/// Plans that cut notes off: pages that weigh nothing, the root page among them, alone, in runs and
/// with notes below.
fn pages_of_weight_0(entries: &Entries) {
    let flat = Table::new(1, &[0, 1, 1, 1], &[1, 0, 0, 0]).bytes();
    on_film(entries, &flat, &[1, 1, 1, 1], &[1, 0, 0, 0]);
    on_film(entries, &flat, &[1, 1, 2, 2], &[1, 0]);
    on_film(entries, &flat, &[1, 0, 1, 0], &[1, 0]);
    let branch = Table::new(1, &[0, 1, 2, 2, 1], &[0, 0, 0, 1, 0]).bytes();
    on_film(entries, &branch, &[1, 1, 1, 2, 2], &[0, 0, 1]);
    on_film(entries, &branch, &[1, 0, 1, 1, 0], &[0, 0, 1]);
    on_film(entries, &branch, &[1, 1, 0, 0, 1], &[0, 1, 0]);
    on_film(entries, &branch, &[1, 0, 0, 0, 0], &[1]);
    let notes = Table::new(1, &[0, 1, 2, 2, 1], &[0; 5]).bytes();
    on_film(entries, &notes, &[1; 5], &[0; 5]);
    on_film(entries, &notes, &[1, 1, 0, 0, 2], &[0, 0]);
    on_film(entries, &notes, &[1, 0, 0, 0, 0], &[0]);
}

/// A full page takes any number of notes, in its run and below it, and nothing else.
fn notes_on_full_pages(entries: &Entries) {
    // The run is nodes 2, 4 and 6, with a child each at 2 and 4; node 7 stays with node 1.
    let parents = [0, 1, 2, 1, 4, 1, 1];
    let marks = [1, 1, 0, 2, 0, 2, 0];
    let table = |weights: [u16; 7]| Table::new(3, &parents, &weights).bytes();
    on_film(entries, &table([3, 3, 0, 0, 0, 0, 0]), &marks, &[3, 3]);
    on_film(entries, &table([3, 0, 0, 0, 3, 0, 0]), &marks, &[3, 3]);
    on_film(entries, &table([0, 1, 0, 2, 0, 0, 3]), &marks, &[3, 3]);
    heavy_on_film(entries, &table([3, 3, 0, 0, 0, 1, 0]), &marks, 2);
    heavy_on_film(entries, &table([3, 3, 1, 0, 0, 0, 0]), &marks, 2);
    heavy_on_film(entries, &table([3, 0, 0, 0, 3, 0, 1]), &marks, 1);
    // Long after it is full.
    let parents = [&[0][..], &[1; 1023]].concat();
    let mut weights = vec![0; 1024];
    (weights[0], weights[1]) = (1, 1);
    let mut marks = vec![2; 1024];
    (marks[0], marks[1]) = (1, 1);
    on_film(
        entries,
        &Table::new(1, &parents, &weights).bytes(),
        &marks,
        &[1, 1],
    );
    weights[1023] = 1;
    heavy_on_film(
        entries,
        &Table::new(1, &parents, &weights).bytes(),
        &marks,
        2,
    );
}

/// A note, two, and up to 2,048 in every form of tree, under the lowest limit and the highest: one
/// page of weight 0 by every planner, on sheets and on film.
fn notes_only(entries: &Entries) {
    let random = &mut Random::new(1106);
    for form in FORMS {
        for count in [1, 2, 30, ARCHIVE_NODES, MAX_NODES] {
            for limit in [1, 1024] {
                let parents = random_parents(random, form, count);
                let table = Table::new(limit, &parents, &vec![0; count]).bytes();
                let mut one_page = vec![0; count];
                one_page[0] = 1;
                for kind in KINDS {
                    let mut marks = vec![7; count];
                    let mut scratch = vec![7; scratch_length(count, limit.into())];
                    let answer = (entries.planner)(kind)(&table, &mut marks, &mut scratch);
                    assert_eq!(answer, Answer::accepted(1, 0), "{kind:?} {form:?} {limit}");
                    assert_eq!(marks, one_page, "{kind:?} {form:?} {limit}");
                }
                on_film(entries, &table, &one_page, &[0]);
                on_film(entries, &table, &vec![1; count], &vec![0; count]);
            }
        }
    }
}

/// Film from before weights of 0 were taken is opened, too, and what is read of it is written again
/// as it was.
fn kept_film_is_written_again(entries: &Entries) {
    for film in kept_filed() {
        let answer = read_archive(entries, FIRST, &film.archive, &film.table, &film.marks);
        assert_eq!(answer, film.verdict, "{}", film.name);
        assert_eq!((entries.read_tree)(&film.table), Answer::ACCEPTED);
        let verdict = (entries.judge)(&film.table, &film.marks);
        assert_eq!(verdict, film.verdict, "{}", film.name);
        let mut again = vec![7; film.archive.len()];
        let answer = (entries.film(FIRST).write)(&film.table, &film.marks, &mut again);
        assert_eq!(answer, film.verdict, "{}", film.name);
        assert_eq!(again, film.archive, "{}", film.name);
    }
}

/// Film that was worked out by hand in edition 2: it is written so, read back, and converted.
fn film_by_hand(entries: &Entries) {
    for (film, second) in by_hand() {
        let (table, marks, verdict) = (film.table, film.marks, film.verdict);
        let mut written = vec![7; second.len()];
        let answer = (entries.film(SECOND).write)(&table, &marks, &mut written);
        assert_eq!(answer, verdict, "{}", film.name);
        assert_eq!(written, second, "{}", film.name);
        let answer = read_archive(entries, SECOND, &second, &table, &marks);
        assert_eq!(answer, verdict, "{}", film.name);
        let answer = convert(entries, FIRST, &film.archive, &second);
        assert_eq!(answer, verdict, "{}", film.name);
        let answer = convert(entries, SECOND, &second, &film.archive);
        assert_eq!(answer, verdict, "{}", film.name);
    }
    let [first, second] = EDITIONS.map(film_of_e);
    let verdict = Answer::accepted(3, 5);
    assert_eq!(convert(entries, FIRST, &first, &second), verdict);
    assert_eq!(convert(entries, SECOND, &second, &first), verdict);
}

/// The plans of all planners on film of both editions, and from the one to the other: each is still
/// that planner's, though it may not be the best.
fn plans_on_film(entries: &Entries) {
    for made in made() {
        let tree = read(&made.table.bytes()).expect("an accepted table");
        let weights = page_weights(&tree, &made.marks).into_iter();
        let weights: Vec<usize> = weights.map(|weight| weight as usize).collect();
        assert_eq!(
            (weights.len(), weights[0]),
            (made.pages, made.root as usize)
        );
        on_film(entries, &made.table.bytes(), &made.marks, &weights);
    }
}

/// The best plan of every small tree, on film of both editions and from the one to the other: page
/// count and root weight are told by its bytes, and they are the lowest of all sets of runs.
fn best_plans_on_film(entries: &Entries) {
    let mut check = |table: &[u8], best: Option<Score>| {
        let (count, limit) = (word(table, 0), word(table, 1));
        // Some outweigh the limit.
        let Some((pages, root)) = best else {
            return;
        };
        let mut marks = vec![7; count];
        let mut scratch = vec![7; scratch_length(count, limit)];
        let answer = (entries.planner)(Kind::Best)(table, &mut marks, &mut scratch);
        assert_eq!(answer, Answer::accepted(pages, root), "{}", show(table));
        let mut films = vec![];
        for edition in EDITIONS {
            let other = edition.other();
            let mut film = vec![7; edition.length(pages, count)];
            let mut converted = vec![7; other.length(pages, count)];
            let written = (entries.film(edition).write)(table, &marks, &mut film);
            let answered = (entries.film(edition).convert)(&film, &mut converted);
            assert_eq!((written, answered), (answer, answer), "{}", show(table));
            films.extend([(edition, film), (other, converted)]);
        }
        for (edition, film) in films {
            let on_film = (edition.head(&film)[2], words_of_pages(edition, &film, 2)[0]);
            assert_eq!(on_film, (pages, root as usize), "{}", show(&film));
        }
    };
    for_each_table_and_best(1..=5, &[0, 1, 2, 3], &[1, 2, 3, 4], &mut check);
    for_each_table_and_best(6..=6, &[0, 1, 2], &[2, 3], &mut check);
}

/// The plans and prices that are told by hand: case E's are 578, 925 and 347.
fn prices_by_hand(entries: &Entries) {
    for priced in priced() {
        let table = priced.table.bytes();
        let [best, single] = [priced.best, priced.single].map(|plan| {
            let price = price(entries, &table, plan.0);
            assert_eq!(price, price_of(plan), "{}", priced.name);
            price.cents as i32
        });
        assert_eq!(single - best, priced.saving, "{}", priced.name);
        let (count, limit) = (word(&table, 0), word(&table, 1));
        let mut marks = vec![7; count];
        let mut scratch = vec![7; scratch_length(count, limit) + 3];
        let saving = (entries.saving)(&table, &mut marks, &mut scratch);
        assert_eq!(saving, priced.saved(), "{}", priced.name);
        assert_eq!(marks, priced.best.0, "{}", priced.name);
        assert!(scratch.iter().all(|&word| word == 0), "{}", priced.name);
    }
    let table = case_e().bytes();
    let single = [1, 1, 1, 0, 0, 1];
    let [best, single] = [&MARKS_OF_E, &single].map(|marks| price(entries, &table, marks));
    assert_eq!(best, Price::accepted(3, 5, 578));
    assert_eq!(single, Price::accepted(4, 5, 925));
    let saved = saving(entries, &table, 6, 192);
    assert_eq!(saved, Saving::accepted(3, 5, 347));
}

/// Each weight under each limit, by itself on a page: every line of the price list is reached, and
/// the last by a weight that is the limit, and by no other.
fn cents_of_every_fill(entries: &Entries) {
    let mut met = BTreeSet::new();
    for limit in 1..=1024 {
        for weight in 0..=limit {
            let table = Table::new(limit, &[0], &[weight]).bytes();
            let price = (entries.price)(&table, &[1]);
            let cents = cents_of_page(weight.into(), limit.into());
            let expected = Price::accepted(1, weight.into(), cents);
            assert_eq!(price, expected, "{weight} of {limit}");
            assert_eq!(price.cents == 90, weight == limit, "{weight} of {limit}");
            met.insert(price.cents);
        }
    }
    // The list falls from line to line.
    let cents = PRICE_LIST.map(|(_, cents)| cents);
    assert!(met.into_iter().rev().eq(cents));
}

/// As many pages as nodes, all of one weight: up to the most that a plan can cost.
fn totals_of_many_pages(entries: &Entries) {
    let random = &mut Random::new(1112);
    for (form, count) in forms_with(&[1, 2, 3, 160, 1024, 1025, 2047, 2048]) {
        let parents = random_parents(random, form, count);
        for (limit, weight, cents) in [
            (1, 0, 410),
            (1, 1, 90),
            (2, 1, 340),
            (1024, 0, 410),
            (1024, 68, 410),
            (1024, 69, 405),
            (1024, 1023, 196),
            (1024, 1024, 90),
        ] {
            let table = Table::new(limit, &parents, &vec![weight; count]).bytes();
            let expected = Price::accepted(count, weight.into(), count as u32 * cents);
            assert_eq!(price(entries, &table, &vec![1; count]), expected);
        }
    }
    let parents = [&[0][..], &[1; 2047]].concat();
    for (weight, total) in [(0, 839_680), (7, 184_320)] {
        let table = Table::new(7, &parents, &[weight; 2048]).bytes();
        let price = price(entries, &table, &[1; 2048]);
        assert_eq!(price, Price::accepted(2048, weight.into(), total));
    }
}

/// One page that is full among pages that weigh nothing, and the other way round: at each place in
/// turn, the root page and the last one among them.
fn every_page_counts(entries: &Entries) {
    let random = &mut Random::new(1113);
    for form in FORMS {
        let parents = random_parents(random, form, 60);
        for place in 0..60 {
            for (one, others, total) in [(9, 0, 59 * 410 + 90), (0, 9, 59 * 90 + 410)] {
                let mut weights = [others; 60];
                weights[place] = one;
                let table = Table::new(9, &parents, &weights).bytes();
                let price = price(entries, &table, &[1; 60]);
                let expected = Price::accepted(60, weights[0].into(), total);
                assert_eq!(price, expected, "{form:?} {place}");
            }
        }
    }
}

/// Plans of one page, of any number of nodes: by the weight of all of them.
fn totals_of_one_page(entries: &Entries) {
    let random = &mut Random::new(1114);
    for (form, count) in forms_with(&[1, 2, 15, 300, 1024, 2048]) {
        let parents = random_parents(random, form, count);
        let mut one_page = vec![0; count];
        one_page[0] = 1;
        for weight in [0, 1, 68, 69, 136, 137, 512, 955, 956, 1023, 1024] {
            // The weight is spread over some of the nodes.
            let mut weights = vec![0; count];
            let mut left = weight;
            while left > 0 {
                let part = random.between(1, left.into()) as u16;
                weights[random.between(0, count - 1)] += part;
                left -= part;
            }
            let table = Table::new(1024, &parents, &weights).bytes();
            let expected = price_of_pages(&[weight.into()], 1024);
            assert_eq!(price(entries, &table, &one_page), expected);
        }
    }
}

/// Below a full root, 682 of the trees whose best plan costs 116 cents more than the single-cut
/// plan, and 2,047 nodes that single cuts one by one where best has two runs: more on either side
/// of zero than 16 bits hold.
fn savings_of_many_pages(entries: &Entries) {
    let (mut parents, mut weights) = (vec![0], vec![3]);
    for _ in 0..682 {
        let top = parents.len() + 1;
        parents.extend([1, top, top]);
        weights.extend([2, 1, 1]);
    }
    let table = Table::new(3, &parents, &weights).bytes();
    let dear = saving(entries, &table, 2047, scratch_length(2047, 3));
    // The root page, and two for each of the trees.
    assert_eq!(dear, Saving::accepted(1365, 3, -79_112));

    let parents = [&[0][..], &[1; 2047]].concat();
    let weights = [&[1024][..], &[1; 2047]].concat();
    let table = Table::new(1024, &parents, &weights).bytes();
    let saved = saving(entries, &table, 2048, scratch_length(2048, 1024));
    // 90 and 2,047 times 410, less 90, 90 and 196.
    assert_eq!(saved, Saving::accepted(3, 1024, 838_984));
}

/// For each number of pages, the least that a plan costs: all plans are priced.
fn cheapest(entries: &Entries, table: &[u8]) -> BTreeMap<usize, u32> {
    let tree = read(table).expect("an accepted table");
    let mut cheapest = BTreeMap::new();
    for_each_plan(&tree, |marks| {
        let price = price(entries, table, marks);
        if price.number == 0 {
            let pages = marks.iter().filter(|&&mark| mark == 1).count();
            assert_eq!(price.pages as usize, pages, "{}", show(table));
            let least = cheapest.entry(pages).or_insert(price.cents);
            *least = price.cents.min(*least);
        }
    });
    assert_eq!(cheapest, cheapest_by_pages(&tree), "{}", show(table));
    cheapest
}

/// What the best plan of a tree costs, and its page count.
fn best_price(entries: &Entries, table: &[u8]) -> (usize, u32) {
    let (count, limit) = (word(table, 0), word(table, 1));
    let mut marks = vec![7; count];
    let mut scratch = vec![7; scratch_length(count, limit)];
    let answer = (entries.planner)(Kind::Best)(table, &mut marks, &mut scratch);
    let price = price(entries, table, &marks);
    assert_eq!(price.answer(), answer, "{}", show(table));
    (price.pages as usize, price.cents)
}

/// Fewest pages is not lowest price: another plan with the fewest pages costs less, or one with
/// more pages costs less than each of these.
fn best_is_not_cheapest(entries: &Entries) {
    let table = dear_best().bytes();
    assert_eq!(best_price(entries, &table), (2, 574));
    let expected = BTreeMap::from([(2, 458), (3, 1023)]);
    assert_eq!(cheapest(entries, &table), expected);
    for (table, pages, fewest, more) in [(even_chain(), 4, 1105, 1090), (even_run(), 6, 1310, 1246)]
    {
        let table = table.bytes();
        assert_eq!(best_price(entries, &table), (pages, fewest));
        let cheapest = cheapest(entries, &table);
        assert_eq!(cheapest.first_key_value(), Some((&pages, &fewest)));
        assert_eq!(cheapest[&(pages + 1)], more);
        assert_eq!(cheapest.values().min(), Some(&more));
    }
}

/// The header has a name for each number and a line for each but 0, in rising order; 5 is retired
/// and has neither.
#[test]
fn numbers_of_the_header() {
    let named: Vec<(&str, &str)> = HEADER
        .lines()
        .filter_map(|line| line.trim().strip_prefix("BALDUQEN_")?.split_once(" = "))
        .collect();
    let given = (0..=15).filter(|&number| number != RETIRED);
    let numbers: Vec<String> = given.map(|number| number.to_string()).collect();
    let of_names = named.iter().map(|(_, number)| number.trim_end_matches(','));
    assert!(of_names.eq(&numbers), "{named:?}");
    assert!(named.ends_with(&[("NO_LABEL", "14,"), ("MANY_NODES", "15")]));
    let listed = HEADER.lines().filter_map(|line| {
        let (number, _) = line.strip_prefix(" *")?.trim().split_once("   ")?;
        numbers.contains(&number.to_string()).then_some(number)
    });
    assert!(listed.eq(&numbers[1..]));
    assert!(HEADER.contains(&format!("Number {RETIRED} is retired and never given")));
}

/// The header has the price list, as the request gives it.
#[test]
fn prices_of_the_header() {
    let mut lines = HEADER.lines().map(|line| line.trim_start_matches(" *"));
    lines.find(|line| line.ends_with("For the fills 0 to 15, in cents:"));
    let list = lines.find(|line| !line.is_empty()).expect("a price list");
    let cents: Vec<&str> = list.split_whitespace().collect();
    assert_eq!(cents, PRICE_LIST.map(|(_, cents)| cents.to_string()));
}

/// The header declares the seventeen doors, each once.
#[test]
fn functions_of_the_header() {
    let declared: Vec<&str> = HEADER
        .lines()
        .filter_map(|line| {
            let (_, named) = line.split_once("answer balduqen_")?;
            Some(named.split_once('(')?.0)
        })
        .collect();
    let doors = [
        "read_tree",
        "judge",
        "plan_best",
        "plan_level",
        "plan_single",
        "plan_pair",
        "plan_rightmost",
        "plan_depth_first",
        "write_archive",
        "read_archive",
        "write_archive2",
        "read_archive2",
        "convert_to_2",
        "convert_to_1",
        "print_sheets",
        "price",
        "saving",
    ];
    assert_eq!(declared, doors);
}

/// Has a C compiler look at declarations after the header.
fn compile(declarations: &str) {
    let mut compiler = Command::new("gcc")
        .args(["-std=c11", "-Wall", "-Wextra", "-Werror", "-fsyntax-only"])
        .args(["-I../include", "-x", "c", "-"])
        .stdin(Stdio::piped())
        .spawn()
        .expect("a C compiler");
    let mut input = compiler.stdin.take().expect("its input");
    let source = format!("#include \"balduqen.h\"\n{declarations}");
    input.write_all(source.as_bytes()).expect("a source");
    drop(input);
    assert!(compiler.wait().expect("its end").success());
}

/// As a C compiler reads them, the header's macros for lengths give what the entries ask for.
#[test]
fn lengths_of_the_header() {
    let mut asserts = String::new();
    let mut agree = |text: &str, length: usize| {
        asserts += &format!("_Static_assert({text} == {length}, \"{text}\");\n");
    };
    let ends = [1, 2, 6, 57, 58, 59, 116, 117, 1023, 1024, 1025, 2047, 2048];
    for count in ends {
        agree(&format!("BALDUQEN_TABLE_LENGTH({count})"), 4 + 8 * count);
        for other in ends {
            let text = format!("BALDUQEN_SCRATCH_LENGTH({count}, {other})");
            agree(&text, scratch_length(count, other));
            let text = format!("BALDUQEN_ARCHIVE_LENGTH({other}, {count})");
            agree(&text, FIRST.length(other, count));
            let text = format!("BALDUQEN_ARCHIVE2_LENGTH({other}, {count})");
            agree(&text, SECOND.length(other, count));
        }
    }
    for pages in 1..=MAX_NODES {
        let text = format!("BALDUQEN_SHEETS_LENGTH({pages})");
        agree(&text, sheets_length(pages));
    }
    // What is handed to a macro need not be a single number.
    agree("BALDUQEN_SHEETS_LENGTH(1 ? 58 : 59)", 4860);
    agree("BALDUQEN_SHEETS_LENGTH(59) / 2", 4860);
    agree("BALDUQEN_ARCHIVE2_LENGTH(1 ? 3 : 4, 1 ? 6 : 7) / 2", 43);
    agree("BALDUQEN_MAX_NODES", MAX_NODES);
    agree("BALDUQEN_MAX_LIMIT", MAX_LIMIT);
    agree("BALDUQEN_ARCHIVE_NODES", ARCHIVE_NODES);
    // What request Five says, and so the longest scratch and the longest sheets.
    agree("BALDUQEN_MAX_NODES", 2048);
    agree("BALDUQEN_ARCHIVE_NODES", 1024);
    let longest = "BALDUQEN_SCRATCH_LENGTH(BALDUQEN_MAX_NODES, BALDUQEN_MAX_LIMIT)";
    agree(longest, 8_413_184);
    agree("BALDUQEN_SHEETS_LENGTH(BALDUQEN_MAX_NODES)", 36 * 4860);
    agree("BALDUQEN_MANY_NODES", 15);
    compile(&asserts);
}

/// The header declares what the tests call: a C compiler takes the same declarations again, and
/// would not take others.
#[test]
fn declarations_of_the_header() {
    let (read, filled, scratch) = ("const uint8_t *", "uint8_t *", "uint32_t *");
    let mut again = String::new();
    let mut declare_as = |answer: &str, name: &str, buffers: &[&str]| {
        let list = buffers.join(", size_t, ");
        again += &format!("{answer} balduqen_{name}({list}, size_t);\n");
    };
    declare_as("balduqen_price_answer", "price", &[read, read]);
    let buffers = [read, filled, scratch];
    declare_as("balduqen_saving_answer", "saving", &buffers);
    let mut declare = |name: &str, buffers: &[&str]| declare_as("balduqen_answer", name, buffers);
    declare("read_tree", &[read]);
    declare("judge", &[read, read]);
    for kind in [
        "best",
        "level",
        "single",
        "pair",
        "rightmost",
        "depth_first",
    ] {
        declare(&format!("plan_{kind}"), &buffers);
    }
    for edition in ["", "2"] {
        declare(&format!("write_archive{edition}"), &[read, read, filled]);
        declare(&format!("read_archive{edition}"), &[read, filled, filled]);
    }
    declare("convert_to_2", &[read, filled]);
    declare("convert_to_1", &[read, filled]);
    declare("print_sheets", &[read, read, filled]);
    again += "_Static_assert(sizeof(balduqen_answer) == 16, \"four words\");\n";
    for (kind, field, word) in [
        ("price", "cents", "uint32_t"),
        ("saving", "saving", "int32_t"),
    ] {
        let answer = format!("balduqen_{kind}_answer");
        again += &format!("_Static_assert(sizeof({answer}) == 20, \"five words\");\n");
        for (offset, name, word) in [
            (0, "number", "uint32_t"),
            (4, "place", "uint32_t"),
            (8, "pages", "uint32_t"),
            (12, "root", "uint32_t"),
            (16, field, word),
        ] {
            again += &format!(
                "_Static_assert(offsetof({answer}, {name}) == {offset} && \
                 _Generic((({answer} *)0)->{name}, {word}: 1, default: 0), \"{name}\");\n"
            );
        }
    }
    compile(&again);
}

tests_of_both_sides!(
    as_many_nodes_as_may_be one_node_too_many seven_in_all_small_trees
    seven_in_random_small_trees fourteen_in_all_small_trees fourteen_before_the_walk
    fourteen_in_its_order kept_film_is_read kept_film_is_not_taken_again
    kept_film_in_the_order_of_the_reader label_0_of_the_last_of_many five_is_never_given
    film_with_a_note notes_at_every_place_of_a_run pages_of_weight_0 notes_on_full_pages
    notes_only kept_film_is_written_again long_trees_in_all_lengths
    long_film_in_all_lengths fifteen_in_its_order longest_scratch heaviest_pages
    conversions_in_all_lengths film_by_hand plans_on_film best_plans_on_film
    prices_by_hand cents_of_every_fill totals_of_many_pages every_page_counts
    totals_of_one_page savings_of_many_pages best_is_not_cheapest
);
