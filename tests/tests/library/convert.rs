//! The converters of the library: film of either edition to film of the other.

use balduqen_tests::cases::*;
use balduqen_tests::check::{first_unfiled, show, with_copy, Lent, Seen};
use balduqen_tests::entries::LIBRARY;
use balduqen_tests::exhaustive::for_each_plan;
use balduqen_tests::film::*;
use balduqen_tests::gen::*;
use balduqen_tests::kept::{by_hand, kept, kept_filed};
use balduqen_tests::model::{
    read, read_as_before, scratch_length, verdict, Answer, Edition, FIRST, SECOND,
};
use balduqen_tests::tests_of_editions;

/// The library's answer and output for film of this edition, checked against the model's. The buffer
/// holds these bytes on entry.
fn convert_into(edition: Edition, archive: &[u8], on_entry: &[u8]) -> (Answer, Vec<u8>) {
    let mut model_out = on_entry.to_vec();
    let model_answer = edition.convert(archive, &mut model_out);
    let convert = LIBRARY.film(edition).convert;
    let mut lent = Lent::new(on_entry, 0xa5);
    let answer = with_copy(archive, |archive| convert(archive, lent.slice()));
    assert_eq!(answer, model_answer, "{}", show(archive));
    let out = lent.content();
    assert_eq!(out, model_out, "{answer:?}: {}", show(archive));
    // Into buffers of no length, the reader says 13 or 12.
    let read = (LIBRARY.film(edition).read)(archive, &mut [], &mut []);
    assert_eq!(read.number == 13, answer.number == 13, "{}", show(archive));
    if answer.is_accepted() {
        assert_kept(edition, archive, out, answer);
    } else {
        assert_eq!(out, on_entry, "{answer:?}");
    }
    (answer, out.to_vec())
}

/// Both films read as the same tree and plan, and the one is converted back to the other.
fn assert_kept(edition: Edition, archive: &[u8], out: &[u8], verdict: Answer) {
    let told = told(edition, archive);
    assert_eq!(told.0, verdict, "{}", show(archive));
    assert!(told == self::told(edition.other(), out), "{}", show(out));
    let mut back = vec![7; archive.len()];
    let answer = (LIBRARY.film(edition.other()).convert)(out, &mut back);
    assert_eq!(answer, verdict, "{}", show(out));
    assert!(back == archive, "{}; {}", show(&back), show(archive));
}

/// What the library reads of an archive.
fn told(edition: Edition, archive: &[u8]) -> (Answer, Vec<u8>, Vec<u8>) {
    let count = edition.head(archive)[0];
    let (mut table, mut marks) = (vec![7; 4 + 8 * count], vec![7; count]);
    let answer = (LIBRARY.film(edition).read)(archive, &mut table, &mut marks);
    (answer, table, marks)
}

/// The length that the head of film asks for in the other edition; some length, where there is none.
fn right_length(edition: Edition, archive: &[u8]) -> usize {
    if archive.len() < 2 * edition.page_at(1) {
        return 40;
    }
    let [count, _, pages] = edition.head(archive);
    edition.other().length(pages, count)
}

/// Converts into a buffer of that length.
fn convert(edition: Edition, archive: &[u8]) -> Answer {
    let length = right_length(edition, archive);
    convert_into(edition, archive, &vec![7; length]).0
}

/// The lengths that an output is tried with where this one is asked for: this one among them, and
/// what the other edition has for the same pages and nodes.
fn lengths(right: usize, archive: &[u8]) -> Vec<usize> {
    let others = [1, 2, 8, 10, right].map(|off| [right - off, right + off]);
    [others.as_flattened(), &[right, archive.len()]].concat()
}

fn case_e_and_its_plan(edition: Edition) {
    let (film, other) = (film_of_e(edition), film_of_e(edition.other()));
    let answer = convert_into(edition, &film, &vec![7; other.len()]);
    assert_eq!(answer, (Answer::accepted(3, 5), other.clone()));
    for length in 0..200 {
        let answer = convert_into(edition, &film, &vec![7; length]).0;
        let refusal = Answer::refused(12, other.len());
        assert_eq!(answer == refusal, length != other.len());
    }
    assert_eq!(convert_into(edition, &[], &[]).0, Answer::refused(13, 0));
    // Film of the other edition.
    assert_eq!(convert(edition, &other), Answer::refused(13, 0));
}

/// Kept film, where it is there in both editions.
#[test]
fn film_by_hand() {
    for (film, second) in by_hand() {
        let (first, verdict) = (film.archive, film.verdict);
        let to_2 = convert_into(FIRST, &first, &vec![7; second.len()]);
        assert_eq!(to_2, (verdict, second.clone()), "{}", film.name);
        let to_1 = convert_into(SECOND, &second, &vec![7; first.len()]);
        assert_eq!(to_1, (verdict, first), "{}", film.name);
    }
}

/// All plans of small trees, those that are not feasible among them, and buffers of other lengths.
fn all_plans_of_small_trees(edition: Edition) {
    let mut seen = Seen::default();
    let mut convert_all = |table: &[u8]| {
        let tree = read(table).expect("an accepted table");
        for_each_plan(&tree, |marks| {
            let film = edition.bytes(&tree, marks);
            let other = edition.other().bytes(&tree, marks);
            let verdict = verdict(&tree, marks);
            for length in other.len() - 2..=other.len() + 2 {
                let (answer, out) = convert_into(edition, &film, &vec![7; length]);
                let expected = match (verdict.is_accepted(), length == other.len()) {
                    (true, true) => verdict,
                    (true, false) => Answer::refused(12, other.len()),
                    (false, _) => Answer::refused(13, 0),
                };
                assert_eq!(answer, expected, "{}", show(&film));
                assert_eq!(answer.is_accepted(), out == other, "{}", show(&film));
                seen.add(answer);
            }
            // Film of the other edition is none of this one.
            assert_eq!(convert(edition, &other), Answer::refused(13, 0));
        });
    };
    for_each_table(1..=5, &[1, 2], &[2, 4], &mut convert_all);
    for_each_table(1..=4, &[0, 1, 2], &[2, 3], &mut convert_all);
    seen.expect(&[0, 12, 13], 1000);
}

/// Each planner's plan is still that planner's on the other film, though it may not be the best.
fn plans_of_all_planners(edition: Edition) {
    let mut others = 0;
    for made in made() {
        let table = made.table.bytes();
        let film = film_of(edition, &table, &made.marks);
        let (answer, out) = convert_into(
            edition,
            &film,
            &vec![7; edition.other().length(made.pages, made.marks.len())],
        );
        assert_eq!(answer, Answer::accepted(made.pages, made.root));
        let told = told(edition.other(), &out);
        assert_eq!(told, (answer, table.clone(), made.marks.clone()));
        let count = made.marks.len();
        let mut best = vec![7; count];
        let mut scratch = vec![0; scratch_length(count, made.table.limit.into())];
        let planned = (LIBRARY.planner)(Kind::Best)(&table, &mut best, &mut scratch);
        assert!(planned.is_accepted(), "{planned:?}: {}", show(&table));
        others += usize::from(best != made.marks);
    }
    assert!(others > 40, "{others}");
}

/// All labels of 0 and 1: 14 at the first 0 on film of the first edition, also before 12, and none
/// on film of the second, where it is 13.
fn all_labels_of_small_trees(edition: Edition) {
    let mut seen = Seen::default();
    for_each_table(1..=4, &[0, 1, 2], &[3], |table| {
        for_each_labelling(table, |table| {
            let tree = read_as_before(table).expect("a table that is accepted but for labels");
            for_each_plan(&tree, |marks| {
                let film = edition.bytes(&tree, marks);
                let verdict = verdict(&tree, marks);
                let right = right_length(edition, &film);
                for length in [right, right - 1] {
                    let answer = convert_into(edition, &film, &vec![7; length]).0;
                    let expected = match (edition, first_unfiled(table)) {
                        _ if !verdict.is_accepted() => Answer::refused(13, 0),
                        (FIRST, Some(node)) => Answer::refused(14, node),
                        (_, Some(_)) => Answer::refused(13, 0),
                        (_, None) if length != right => Answer::refused(12, right),
                        (_, None) => verdict,
                    };
                    assert_eq!(answer, expected, "{}", show(&film));
                    seen.add(answer);
                }
            });
        });
    });
    match edition {
        FIRST => seen.expect(&[0, 12, 13, 14], 500),
        _ => seen.expect(&[0, 12, 13], 500),
    }
}

/// Film from before labels of 0 were refused stays in its edition, whatever the output is; laid out
/// as film of the second edition it is none. With another fault it is 13 in both.
fn kept_film(edition: Edition) {
    for film in kept() {
        let archive = kept_in(edition, &film);
        let mut bad = archive.clone();
        *bad.last_mut().expect("a byte") = 1;
        let expected = match edition {
            FIRST => Answer::refused(14, film.unfiled),
            _ => Answer::refused(13, 0),
        };
        for length in lengths(right_length(edition, &archive), &archive) {
            let answer = convert_into(edition, &archive, &vec![7; length]).0;
            assert_eq!(answer, expected, "{}", film.name);
            let answer = convert_into(edition, &bad, &vec![7; length]).0;
            assert_eq!(answer, Answer::refused(13, 0), "{}", film.name);
        }
    }
    for film in kept_filed() {
        let archive = kept_in(edition, &film);
        assert_eq!(convert(edition, &archive), film.verdict, "{}", film.name);
    }
}

/// Film with more nodes than the first edition takes: 15 from the second, in any form of tree and
/// with any output, and no film of the first. With another fault it is 13.
fn long_film(edition: Edition) {
    let random = &mut Random::new(1301);
    for (form, count) in forms_with(&[1023, 1024, 1025, 1026, 2047, 2048]) {
        let table = random_table(random, form, count, 60).bytes();
        let tree = read(&table).expect("an accepted table");
        for marks in [vec![1; count], feasible_plan(random, &tree)] {
            let film = edition.bytes(&tree, &marks);
            let right = right_length(edition, &film);
            let mut bad = film.clone();
            *bad.last_mut().expect("a byte") ^= 1;
            for length in lengths(right, &film) {
                let expected = match (edition, count) {
                    (FIRST, 1025..) => Answer::refused(13, 0),
                    (_, 1025..) => Answer::refused(15, count),
                    _ if length != right => Answer::refused(12, right),
                    _ => verdict(&tree, &marks),
                };
                let answer = convert_into(edition, &film, &random.bytes(length)).0;
                assert_eq!(answer, expected, "{form:?} {count}");
                let answer = convert_into(edition, &bad, &vec![7; length]).0;
                assert_eq!(answer, Answer::refused(13, 0), "{form:?} {count}");
            }
        }
    }
}

/// Every number of nodes around the first edition's most and the table's.
fn every_number_of_nodes(edition: Edition) {
    for count in (1000..=1050).chain(2040..=2048) {
        let marks = [&MARKS_OF_E[..], &vec![0; count - 6]].concat();
        let film = film_of(edition, &long_case_e(count).bytes(), &marks);
        let expected = match (edition, count) {
            (_, ..=1024) => Answer::accepted(3, 5),
            (FIRST, _) => Answer::refused(13, 0),
            _ => Answer::refused(15, count),
        };
        assert_eq!(convert(edition, &film), expected);
    }
}

fn random_films(edition: Edition) {
    let random = &mut Random::new(1302);
    let mut seen = Seen::default();
    for round in 0..8000 {
        let most = most_nodes(edition, round, 50, 30);
        let film = random_film(random, edition, most, 60).1;
        let right = right_length(edition, &film);
        let length = random.pick(&[right, right, right, right - 1, right + 2]);
        seen.add(convert_into(edition, &film, &random.bytes(length)).0);
    }
    match edition {
        FIRST => seen.expect(&[0, 12, 14], 1000),
        _ => seen.expect(&[0, 12, 13, 15], 20),
    }
}

fn every_single_byte_change(edition: Edition) {
    let mut seen = Seen::default();
    for film in small_films(edition) {
        for place in 0..film.len() {
            for value in 0..=255 {
                let mut changed = film.clone();
                changed[place] = value;
                seen.add(convert_into(edition, &changed, &vec![7; right_length(edition, &film)]).0);
            }
        }
    }
    match edition {
        FIRST => seen.expect(&[0, 13, 14], 1000),
        _ => seen.expect(&[0, 13], 1000),
    }
}

fn every_single_word_change(edition: Edition) {
    let mut seen = Seen::default();
    for film in small_films(edition) {
        for_each_word_change(&film, |changed| seen.add(convert(edition, changed)));
    }
    match edition {
        FIRST => seen.expect(&[0, 13, 14], 1000),
        _ => seen.expect(&[0, 13], 1000),
    }
}

fn every_length(edition: Edition) {
    for film in small_films(edition) {
        let out = vec![7; right_length(edition, &film)];
        for length in (0..film.len()).chain(film.len() + 1..film.len() + 24) {
            let mut other = film.clone();
            other.resize(length, 0);
            let answer = convert_into(edition, &other, &out).0;
            assert_eq!(answer, Answer::refused(13, 0));
        }
    }
}

/// One to three words set to small values, and single bits flipped.
fn changed_films(edition: Edition) {
    let random = &mut Random::new(1303);
    let mut seen = Seen::default();
    for round in 0..10000 {
        let most = most_nodes(FIRST, round, 200, 6);
        let limit = random.pick(&[12, 100]);
        let film = random_film(random, edition, most, limit).1;
        seen.add(convert(edition, &changed_words(random, edition, &film)));
        seen.add(convert(edition, &flipped(random, film)));
    }
    match edition {
        FIRST => seen.expect(&[0, 13, 14], 500),
        _ => seen.expect(&[0, 13], 500),
    }
}

/// Film of the other edition, small and large, with outputs for either.
fn film_of_the_other_edition(edition: Edition) {
    let random = &mut Random::new(1304);
    let mut films = small_films(edition.other());
    for (form, count) in forms_with(&[1, 2, 600, edition.other().most_nodes]) {
        let table = random_table(random, form, count, 60).bytes();
        films.push(film_of(edition.other(), &table, &vec![1; count]));
    }
    for film in films {
        let right = right_length(edition.other(), &film);
        for length in [0, right, film.len()] {
            let answer = convert_into(edition, &film, &vec![7; length]).0;
            assert_eq!(answer, Answer::refused(13, 0), "{}", show(&film));
        }
    }
}

tests_of_editions!(
    case_e_and_its_plan all_plans_of_small_trees plans_of_all_planners all_labels_of_small_trees
    kept_film long_film every_number_of_nodes random_films every_single_byte_change
    every_single_word_change every_length changed_films film_of_the_other_edition
);
