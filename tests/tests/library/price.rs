//! The prices of the library, and its savings.

use balduqen::doors;
use balduqen_tests::cases::*;
use balduqen_tests::check::{show, with_copy, Lent, Seen};
use balduqen_tests::exhaustive::for_each_plan;
use balduqen_tests::gen::*;
use balduqen_tests::model::{self, read, scratch_length, sheets_length, word, Price, Saving, Tree};
use balduqen_tests::price_list::{price_of_pages, price_of_plan};
use balduqen_tests::sheet_reader::read_sheets;

/// The library's answer, checked against the model's, against pages weighed anew and the price list,
/// and against what the library's judge says.
fn price(table: &[u8], marks: &[u8]) -> Price {
    let price = with_copy(table, |table| {
        with_copy(marks, |marks| doors::price(table, marks))
    });
    let expected = model::price(table, marks);
    assert_eq!(price, expected, "{}; {}", show(table), show(marks));
    let judged = doors::judge(table, marks);
    assert_eq!(price.answer(), judged, "{}; {}", show(table), show(marks));
    let expected = match judged.is_accepted() {
        true => price_of_plan(&tree_of(table), marks),
        false => Price::refused(judged.number, judged.place as usize),
    };
    assert_eq!(price, expected, "{}; {}", show(table), show(marks));
    price
}

fn tree_of(table: &[u8]) -> Tree {
    read(table).expect("an accepted table")
}

/// The library's answer and marks; both, and the scratch left behind, checked against the model's
/// and against the library's best planner. The buffers hold these on entry.
fn saving(table: &[u8], marks: &[u8], scratch: &[u32]) -> (Saving, Vec<u8>) {
    let (mut model_marks, mut model_scratch) = (marks.to_vec(), scratch.to_vec());
    let expected = model::saving(table, &mut model_marks, &mut model_scratch);
    let (mut lent_marks, mut lent_scratch) =
        (Lent::new(marks, 0xa5), Lent::new(scratch, 0xa5a5_a5a5));
    let saving = with_copy(table, |table| {
        doors::saving(table, lent_marks.slice(), lent_scratch.slice())
    });
    assert_eq!(saving, expected, "{}", show(table));
    let (new_marks, new_scratch) = (lent_marks.content(), lent_scratch.content());
    assert_eq!(new_marks, model_marks, "{saving:?}: {}", show(table));
    let same_scratch = new_scratch == model_scratch;
    assert!(same_scratch, "scratch after {saving:?}: {}", show(table));

    let (mut best_marks, mut best_scratch) = (marks.to_vec(), scratch.to_vec());
    let best = doors::plan_best(table, &mut best_marks, &mut best_scratch);
    assert_eq!(saving.answer(), best, "{}", show(table));
    assert!(new_marks == best_marks && new_scratch == best_scratch);
    if best.is_accepted() {
        let mut single = marks.to_vec();
        let answer = doors::plan_single(table, &mut single, &mut best_scratch);
        assert!(answer.is_accepted(), "{answer:?}: {}", show(table));
        let tree = tree_of(table);
        let [best, single] = [&best_marks, &single].map(|marks| price_of_plan(&tree, marks));
        let saved = single.cents as i32 - best.cents as i32;
        let expected = Saving::accepted(best.pages as usize, best.root, saved);
        assert_eq!(saving, expected, "{}", show(table));
        assert!(new_scratch.iter().all(|&word| word == 0));
    } else {
        let refusal = Saving::refused(best.number, best.place as usize);
        assert_eq!(saving, refusal, "{}", show(table));
        assert!(new_marks == marks && new_scratch == scratch);
    }
    (saving, new_marks.to_vec())
}

/// A call with good buffers, if the table is good; the scratch is longer than asked, at times. What
/// they hold on entry is free.
fn saving_with_good_buffers(random: &mut Random, table: &[u8]) -> Saving {
    let (count, limit) = (word(table, 0), word(table, 1));
    let marks = random.bytes(count);
    let filling = random.number() as u32;
    let filling = random.pick(&[0, filling]);
    let more = random.pick(&[0, 0, 1, 50]);
    let scratch = vec![filling; scratch_length(count, limit) + more];
    saving(table, &marks, &scratch).0
}

/// Counts savings below, at and above zero, and refusals.
#[derive(Default)]
struct Signs([usize; 3], Seen);

impl Signs {
    fn add(&mut self, saving: Saving) {
        self.1.add_number(saving.number);
        if saving.number == 0 {
            self.0[(1 + saving.saving.signum()) as usize] += 1;
        }
    }

    /// Each of these numbers came, and no other, and each sign at least so many times.
    fn expect(&self, numbers: &[u32], least: usize) {
        self.1.expect(numbers, 1);
        assert!(self.0.iter().all(|&times| times >= least), "{:?}", self.0);
    }
}

mod prices {
    use super::*;

    #[test]
    fn cases() {
        for priced in priced() {
            for plan in [priced.best, priced.single] {
                let price = price(&priced.table.bytes(), plan.0);
                assert_eq!(price, price_of(plan), "{}", priced.name);
            }
        }
        for made in made() {
            assert_eq!(price(&made.table.bytes(), &made.marks).number, 0);
        }
        for (marks, number, place) in refused_marks() {
            let refusal = Price::refused(number, place);
            assert_eq!(price(&case_e().bytes(), &marks), refusal);
        }
        for (table, number, place) in refused_tables() {
            assert_eq!(price(&table, &[]), Price::refused(number, place));
        }
        for (table, marks, expected) in once_refused_plans() {
            assert_eq!(price(&table, &marks).answer(), expected);
        }
    }

    /// Case E, and with as many nodes as there may be, with a fault for any selection of the
    /// numbers 1 to 4, 6 to 8, 10, 11 and 14.
    #[test]
    fn order_of_the_checks() {
        let faulty = faulty_plans().into_iter().chain(faulty_long_plans(2048));
        for (table, marks, expected) in faulty {
            assert_eq!(price(&table, &marks).answer(), expected);
        }
    }

    /// All marks, of which few are feasible plans.
    #[test]
    fn all_marks_of_small_trees() {
        let mut seen = Seen::default();
        let mut price_all = |table: &[u8]| {
            for_each_marks(word(table, 0), |marks| {
                seen.add_number(price(table, marks).number);
            });
        };
        for_each_table(1..=4, &[0, 1, 2, 3], &[2, 3, 4], &mut price_all);
        for_each_table(5..=5, &[0, 2], &[3], &mut price_all);
        seen.expect(&[0, 7, 10, 11], 1000);
    }

    /// All plans, feasible or not, with limits that reach every line of the price list.
    #[test]
    fn all_plans_of_small_trees() {
        let mut seen = Seen::default();
        let mut price_all = |table: &[u8]| {
            for_each_plan(&tree_of(table), |marks| {
                seen.add_number(price(table, marks).number);
            });
        };
        for_each_table(1..=4, &[0, 1, 4, 10, 15], &[15, 16], &mut price_all);
        for_each_table(1..=4, &[0, 1, 2, 5, 7], &[7, 8, 9], &mut price_all);
        for_each_table(5..=5, &[0, 1, 3], &[3, 4, 14], &mut price_all);
        for_each_table(6..=6, &[0, 2], &[2, 5], &mut price_all);
        seen.expect(&[0, 11], 1000);
    }

    /// All labels of 0 and 1, with weights of 0 and over the limit.
    #[test]
    fn all_labels_of_small_trees() {
        let mut seen = Seen::default();
        for_each_table(1..=3, &[0, 1, 2, 4], &[3], |table| {
            for_each_labelling(table, |table| {
                for_each_marks(word(table, 0), |marks| {
                    seen.add_number(price(table, marks).number);
                });
            });
        });
        seen.expect(&[0, 7, 10, 11, 14], 20);
    }

    /// Plans of all sizes, some with a few other bytes among the marks.
    #[test]
    fn random_plans() {
        let random = &mut Random::new(1301);
        let mut seen = Seen::default();
        for round in 0..10000 {
            let most = if round % 40 == 0 { 2048 } else { 40 };
            let limit = random.pick(&[3, 15, 60, 1024]);
            let table = any_table(random, most, limit).bytes();
            let mut marks = any_plan(random, &tree_of(&table));
            if random.once_in(8) {
                let place = random.between(0, marks.len() - 1);
                let byte = random.byte();
                marks[place] = random.pick(&[0, 1, 2, 2, byte]);
            }
            seen.add_number(price(&table, &marks).number);
        }
        seen.expect(&[0, 10, 11], 200);
    }

    /// Any number of pages of a tree that is light enough for every plan.
    #[test]
    fn every_number_of_pages() {
        let random = &mut Random::new(1302);
        let parents = random_parents(random, Form::Mixed, 2048);
        // 1,024 in all.
        let weights: Vec<u16> = (0..2048).map(|node| node % 2).collect();
        let table = Table::new(1024, &parents, &weights).bytes();
        let tree = tree_of(&table);
        for pages in (1..=2048).step_by(7).chain([2047, 2048]) {
            let marks = plan_of_pages(random, &tree, pages);
            assert_eq!(price(&table, &marks).number, 0);
        }
    }

    /// A plan costs the same whoever made it, and as its sheets tell the weights of its pages.
    #[test]
    fn plans_of_all_planners() {
        let random = &mut Random::new(1303);
        for kind in KINDS {
            for form in FORMS {
                for (count, limit) in [(1, 1), (60, 9), (300, 15), (1025, 64), (2048, 100)] {
                    let table = random_table(random, form, count, limit).bytes();
                    let mut marks = vec![7; count];
                    let mut scratch = vec![7; scratch_length(count, limit)];
                    let planned = kind.library()(&table, &mut marks, &mut scratch);
                    let mut sheets = vec![7; sheets_length(planned.pages as usize)];
                    assert_eq!(doors::print_sheets(&table, &marks, &mut sheets), planned);
                    let told = read_sheets(&sheets).expect("sound sheets").pages;
                    let weights: Vec<u32> = told.iter().map(|page| page.weight as u32).collect();
                    let expected = price_of_pages(&weights, limit as u32);
                    assert_eq!(price(&table, &marks), expected, "{kind:?} {form:?}");
                }
            }
        }
    }

    #[test]
    fn every_byte_as_a_mark() {
        for place in 0..6 {
            for value in 0..=255 {
                let mut marks = MARKS_OF_E;
                marks[place] = value;
                price(&case_e().bytes(), &marks);
            }
        }
    }

    #[test]
    fn marks_of_every_length() {
        let random = &mut Random::new(1304);
        for _ in 0..200 {
            let table = any_table(random, 20, 20).bytes();
            let count = word(&table, 0);
            for length in 0..=count + 9 {
                let price = price(&table, &vec![1; length]);
                assert_eq!(price.number == 8, length != count);
            }
        }
    }

    #[test]
    fn damaged_tables() {
        let random = &mut Random::new(1305);
        let mut seen = Seen::default();
        for _ in 0..20000 {
            let table = any_table(random, 20, 20);
            let damaged = damaged(random, &table);
            let count = table.records.len();
            let length = random.pick(&[count, count, count + 1, count - 1]);
            let mark = random.pick(&[0, 1, 2]);
            seen.add_number(price(&damaged, &vec![mark; length]).number);
        }
        seen.expect(&[0, 1, 2, 3, 4, 6, 7, 8, 10, 14], 50);
    }

    /// Each page of the longest tree in turn is the first heavy one: nothing is added up then.
    #[test]
    fn heavy_pages() {
        let parents = [&[0][..], &[1; 2047]].concat();
        let mut weights = vec![1024; 2048];
        weights[2047] = 1;
        let table = Table::new(1024, &parents, &weights).bytes();
        for page in (1..=2047).step_by(31).chain([2046, 2047]) {
            let mut marks = vec![1; 2048];
            marks[page] = if page == 1 { 0 } else { 2 };
            assert_eq!(price(&table, &marks), Price::refused(11, page));
        }
        // 2,047 full pages and one with a single thousandth.
        let price = price(&table, &[1; 2048]);
        assert_eq!(price, Price::accepted(2048, 1024, 2047 * 90 + 410));
    }
}

mod savings {
    use super::*;

    #[test]
    fn cases() {
        let random = &mut Random::new(1311);
        for priced in priced() {
            let table = priced.table.bytes();
            let asked = scratch_length(word(&table, 0), word(&table, 1));
            for more in [0, 1, 7, 1000] {
                let marks = random.bytes(word(&table, 0));
                let answer = saving(&table, &marks, &vec![7; asked + more]);
                let expected = (priced.saved(), priced.best.0.to_vec());
                assert_eq!(answer, expected, "{}", priced.name);
            }
        }
        for made in made() {
            let saving = saving_with_good_buffers(random, &made.table.bytes());
            assert_eq!(saving.number, 0, "{}", made.name);
        }
        for (table, number, place) in refused_tables() {
            let refusal = Saving::refused(number, place);
            assert_eq!(saving(&table, &[7; 6], &[7; 192]).0, refusal);
            assert_eq!(saving(&table, &[], &[]).0, refusal);
        }
        for (table, number, place) in once_refused_tables() {
            let saving = saving_with_good_buffers(random, &table);
            assert_eq!((saving.number, saving.place), (number, place as u32));
        }
    }

    /// Case E with a fault for any selection of the numbers 1 to 4, 6 to 9 and 14.
    #[test]
    fn order_of_the_checks() {
        for (table, number, place) in faulty_tables() {
            for marks in 5..=7 {
                for scratch in [0, 191, 192, 193] {
                    let answer = saving(&table, &vec![7; marks], &vec![7; scratch]).0;
                    let expected = match (number, marks, scratch) {
                        (0, 6, 0 | 191) => Saving::refused(9, 192),
                        (0, 6, _) => Saving {
                            number: 0,
                            place: 0,
                            ..answer
                        },
                        (0, _, _) => Saving::refused(8, 6),
                        _ => Saving::refused(number, place),
                    };
                    assert_eq!(answer, expected);
                }
            }
        }
    }

    #[test]
    fn all_small_trees() {
        let random = &mut Random::new(1312);
        let mut signs = Signs::default();
        let mut save = |table: &[u8]| signs.add(saving_with_good_buffers(random, table));
        for_each_table(1..=6, &[0, 1, 2, 3], &[2, 3], &mut save);
        for_each_table(1..=5, &[0, 1, 2, 3, 4], &[4, 5], &mut save);
        for_each_table(6..=6, &[1, 2, 5], &[5, 6], &mut save);
        signs.expect(&[0, 7], 1000);
    }

    /// All labels of 0 and 1, with weights of 0 and over the limit.
    #[test]
    fn all_labels_of_small_trees() {
        let random = &mut Random::new(1313);
        let mut signs = Signs::default();
        for_each_table(1..=4, &[0, 1, 2, 4], &[3], |table| {
            for_each_labelling(table, |table| {
                signs.add(saving_with_good_buffers(random, table));
            });
        });
        signs.expect(&[0, 7, 14], 10);
    }

    #[test]
    fn random_trees() {
        let random = &mut Random::new(1314);
        let mut signs = Signs::default();
        for _ in 0..8000 {
            let limit = random.pick(&[6, 15, 30]);
            let table = any_table(random, 40, limit).bytes();
            signs.add(saving_with_good_buffers(random, &table));
        }
        signs.expect(&[0], 100);
    }

    #[test]
    fn largest_trees() {
        let random = &mut Random::new(1315);
        for (form, count) in forms_with(&[1024, 1025, 2048]) {
            for limit in [1, 9, 150, 1024] {
                let table = random_table(random, form, count, limit).bytes();
                assert_eq!(saving_with_good_buffers(random, &table).number, 0);
            }
        }
    }

    /// Notes only: one page of weight 0 by both planners.
    #[test]
    fn notes() {
        let random = &mut Random::new(1316);
        for form in FORMS {
            let parents = random_parents(random, form, 2048);
            let table = Table::new(1, &parents, &[0; 2048]).bytes();
            let saving = saving_with_good_buffers(random, &table);
            assert_eq!(saving, Saving::accepted(1, 0, 0), "{form:?}");
        }
    }

    /// Good trees with buffers that are too short, too long or just right.
    #[test]
    fn lengths_of_buffers() {
        let random = &mut Random::new(1317);
        let mut seen = Seen::default();
        for _ in 0..10000 {
            let table = any_table(random, 20, 20).bytes();
            let count = word(&table, 0);
            let asked = scratch_length(count, word(&table, 1));
            let marks = random.pick(&[count, count, count, count - 1, count + 1, 0, 3 * count]);
            let scratch = random.pick(&[asked, asked + 1, asked + 9, asked - 1, asked / 4, 0]);
            let marks = random.bytes(marks);
            seen.add_number(saving(&table, &marks, &vec![0xdead_beef; scratch]).0.number);
        }
        seen.expect(&[0, 8, 9], 500);
    }

    /// The longest scratch, of 8,413,184 words, one word less and one word more.
    #[test]
    fn longest_scratch() {
        let random = &mut Random::new(1318);
        let parents = random_parents(random, Form::Mixed, 2048);
        let weights: Vec<u16> = (0..2048)
            .map(|_| random.between(100, 1024) as u16)
            .collect();
        let table = Table::new(1024, &parents, &weights).bytes();
        let (marks, scratch) = (random.bytes(2048), vec![7; 8_413_185]);
        assert_eq!(saving(&table, &marks, &scratch).0.number, 0);
        assert_eq!(saving(&table, &marks, &scratch[1..]).0.number, 0);
        let refusal = saving(&table, &marks, &scratch[2..]).0;
        assert_eq!(refusal, Saving::refused(9, 8_413_184));
    }

    #[test]
    fn damaged_tables() {
        let random = &mut Random::new(1319);
        let mut seen = Seen::default();
        for _ in 0..20000 {
            let table = any_table(random, 12, 12);
            let damaged = damaged(random, &table);
            let count = table.records.len() + random.pick(&[0, 0, 0, 1]);
            // Often enough for the table before the damage.
            let scratch = random.pick(&[0, 720, 800]);
            let marks = random.bytes(count);
            let answer = saving(&damaged, &marks, &vec![0xdead_beef; scratch]).0;
            seen.add_number(answer.number);
        }
        seen.expect(&[0, 1, 2, 3, 4, 6, 7, 8, 9, 14], 50);
    }
}
