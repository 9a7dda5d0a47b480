//! Film of either edition, as archives: random, small, kept, and changed in some words.

use crate::cases::{film_of_e, note_between};
use crate::gen::{any_table, feasible_plan, Random};
use crate::kept::{kept, kept_filed, Kept};
use crate::model::{read_as_before, word, Edition};

/// The archive of a table that is accepted, but for labels 0, and a plan with allowed marks. Where a
/// label is 0, it is film of the first edition only.
pub fn film_of(edition: Edition, table: &[u8], marks: &[u8]) -> Vec<u8> {
    let tree = read_as_before(table).expect("a table that is accepted but for labels");
    edition.bytes(&tree, marks)
}

/// Kept film as it would be in this edition.
pub fn kept_in(edition: Edition, film: &Kept) -> Vec<u8> {
    film_of(edition, &film.table, &film.marks)
}

/// The table of a tree that is accepted, but for labels 0 at times, and the film of a feasible plan
/// of it.
pub fn random_film(
    random: &mut Random,
    edition: Edition,
    most: usize,
    limit: usize,
) -> (Vec<u8>, Vec<u8>) {
    let mut table = any_table(random, most, limit);
    if random.once_in(4) {
        table = table.unfiled(random);
    }
    let table = table.bytes();
    let tree = read_as_before(&table).expect("a table that is accepted but for labels");
    let marks = feasible_plan(random, &tree);
    (table, edition.bytes(&tree, &marks))
}

/// The most nodes of random film: few, and once in so many rounds as many as the edition takes.
pub fn most_nodes(edition: Edition, round: usize, rare: usize, few: usize) -> usize {
    if round % rare == 0 {
        edition.most_nodes
    } else {
        few
    }
}

/// Case E, film with a note, kept film, and some random film, most of it of up to seven nodes.
pub fn small_films(edition: Edition) -> Vec<Vec<u8>> {
    let random = &mut Random::new(1001);
    let noted = film_of(edition, &note_between().bytes(), &[1, 1, 2, 2]);
    let mut films = vec![film_of_e(edition), noted];
    films.extend(kept().iter().map(|film| kept_in(edition, film)));
    films.extend(kept_filed().iter().map(|film| kept_in(edition, film)));
    for limit in [12, 100] {
        films.extend((0..4).map(|_| random_film(random, edition, 7, limit).1));
    }
    films
}

/// Sets a word.
pub fn set_word(archive: &mut [u8], index: usize, value: usize) {
    let value = u16::try_from(value).expect("a word of 16 bits");
    archive[2 * index..2 * index + 2].copy_from_slice(&value.to_be_bytes());
}

/// Calls `visit` with the archive with each word in turn set to values that are near it, near the
/// word that begins edition 2, at or just over what is taken, and near half and all of a word.
pub fn for_each_word_change(archive: &[u8], mut visit: impl FnMut(&[u8])) {
    let ends = [0, 256, 1024, 2048, 8194, 32768, 65535];
    let values = (0..=9).chain(ends.into_iter().flat_map(around));
    let values: Vec<usize> = values.collect();
    let mut changed = archive.to_vec();
    for place in 0..archive.len() / 2 {
        let here = word(archive, place);
        for value in values.iter().copied().chain(around(here)) {
            set_word(&mut changed, place, value);
            visit(&changed);
        }
        set_word(&mut changed, place, here);
    }
}

/// A word and its neighbours.
fn around(word: usize) -> std::ops::RangeInclusive<usize> {
    word.saturating_sub(1)..=(word + 1).min(65535)
}

/// Sets one to three words to small values, so that two changes can make good for each other.
pub fn changed_words(random: &mut Random, edition: Edition, archive: &[u8]) -> Vec<u8> {
    let mut changed = archive.to_vec();
    for _ in 0..random.between(1, 3) {
        let place = random.between(0, archive.len() / 2 - 1);
        let near = word(archive, place) + random.between(0, 2);
        let any = random.between(0, edition.head(archive)[0] + 1);
        let value = random.pick(&[near.saturating_sub(1), any, 0]);
        set_word(&mut changed, place, value.min(65535));
    }
    changed
}
