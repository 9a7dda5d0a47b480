//! No public function panics, whatever value it is handed.

use balduqen::doors::{Answer, Price, Saving};
use balduqen::*;

/// Values around those where a length passes `usize::MAX`, and a few small ones.
fn values() -> Vec<usize> {
    const HIGHEST: usize = usize::MAX;
    let passing = [
        HIGHEST,
        HIGHEST / 2,
        HIGHEST / 4,
        HIGHEST / 8,
        HIGHEST / 10,
        HIGHEST / 18,
        HIGHEST / 4860 * 58,
        1 << (usize::BITS / 2 - 1),
    ];
    let near = |value: usize| value.saturating_sub(60)..=value.saturating_add(60);
    (0..5)
        .chain(passing.into_iter().flat_map(near).step_by(3))
        .collect()
}

/// A length as it is, where a `usize` has room for it.
fn capped(exact: Option<u128>) -> usize {
    let exact = exact.and_then(|exact| usize::try_from(exact).ok());
    exact.unwrap_or(usize::MAX)
}

#[test]
fn lengths_saturate() {
    let wide = |value: usize| value as u128;
    for a in values() {
        assert_eq!(table_length(a), capped(Some(4 + 8 * wide(a))));
        let sheets = 4860 * wide(a).div_ceil(58);
        assert_eq!(sheets_length(a), capped(Some(sheets)));
        for b in values() {
            let scratch = (4 * wide(a)).checked_mul(wide(b) + 3);
            assert_eq!(scratch_length(a, b), capped(scratch), "{a} {b}");
            let first = 6 + 8 * wide(a) + 8 * wide(b);
            let second = 8 + 10 * wide(a) + 8 * wide(b);
            for (edition, exact) in [(Edition::First, first), (Edition::Second, second)] {
                let length = archive_length(edition, a, b);
                assert_eq!(length, capped(Some(exact)), "{edition:?} {a} {b}");
            }
        }
    }
    assert_eq!(table_length(usize::MAX), usize::MAX);
    assert_eq!(sheets_length(usize::MAX), usize::MAX);
}

/// An answer of any kind with this number and place, as a result without its amounts.
fn results(number: u32, place: u32) -> [Result<(), Refusal>; 3] {
    let answer = Answer {
        number,
        place,
        ..Answer::default()
    };
    let price = Price {
        number,
        place,
        ..Price::default()
    };
    let saving = Saving {
        number,
        place,
        ..Saving::default()
    };
    [
        answer.result().map(|_| ()),
        price.result().map(|_| ()),
        saving.result().map(|_| ()),
    ]
}

/// A number of a newer library, or of a broken one, is told and not a panic.
#[test]
fn every_number_has_a_result() {
    let listed = |number| (1..=15).contains(&number) && number != 5;
    for number in (0..100).chain([u32::MAX]) {
        for (place, result) in [0, 3, u32::MAX].map(|place| (place, results(number, place))) {
            let wanted = match number {
                0 => Ok(()),
                _ if listed(number) => Err(Cause::of(number).expect("a cause")),
                _ => Err(Cause::Unlisted(number)),
            };
            let wanted = wanted.map_err(|cause| Refusal { cause, place });
            assert_eq!(result, [wanted; 3]);
            if let Err(refusal) = wanted {
                assert_eq!(refusal.cause.number(), number);
                let said = refusal.to_string();
                assert!(said.starts_with(&format!("refused {number} at {place}: ")));
                assert_eq!(
                    said.ends_with("this number is not in the list"),
                    !listed(number)
                );
            }
        }
    }
    let retired = results(5, 3)[0].expect_err("no acceptance");
    assert_eq!(
        retired.to_string(),
        "refused 5 at 3: this number is not in the list"
    );
}

/// A count that an answer's word has no room for is the highest, and not a small one.
#[test]
fn counts_of_an_answer_saturate() {
    let words = [0, 1, u32::MAX - 1, u32::MAX];
    let counts = words.map(|word| (word as usize, word));
    let over = [1 << 32, (1 << 32) + 7, usize::MAX].map(|count| (count, u32::MAX));
    for (count, word) in counts.into_iter().chain(over) {
        assert_eq!(Answer::accepted(count, 7).pages, word);
        assert_eq!(Price::accepted(count, 7, 8).answer().pages, word);
        assert_eq!(Saving::accepted(count, 7, 8).answer().pages, word);
        assert_eq!(Answer::refused(12, count).place, word);
        assert_eq!(Price::refused(12, count).answer().place, word);
        assert_eq!(Saving::refused(12, count).answer().place, word);
    }
}

/// Beginnings of bytes: nothing, half a word, a tree of one node and its film in the first edition,
/// the word of edition 2, and heads that ask for as much as words can.
const HEADS: [&[u8]; 7] = [
    &[],
    &[0],
    &[0, 1, 0, 5, 0, 3, 0, 7],
    &[0, 1, 0, 5, 0, 1, 0, 1, 0, 1, 0, 3, 0, 0, 0, 3, 0, 7],
    &[0x20, 0x02],
    &[0x20, 0x02, 255, 255, 255, 255, 255, 255],
    &[255; 8],
];

/// The beginnings, filled up to short lengths and to those of long tables.
fn any_bytes() -> Vec<Vec<u8>> {
    let mut all = vec![];
    for head in HEADS {
        for length in (0..40).chain([table_length(2048), table_length(65535)]) {
            for fill in [0, 1, 2, 255] {
                let mut bytes = head.to_vec();
                bytes.resize(length.max(head.len()), fill);
                all.push(bytes);
            }
        }
    }
    all
}

/// Every function that makes its buffers takes any bytes, and the same are refused by those that
/// ask for the same.
#[test]
fn any_bytes_have_a_result() {
    let (mut trees, mut plans, mut films) = (0, 0, 0);
    for bytes in any_bytes() {
        let accepted = read_tree(&bytes);
        trees += u32::from(accepted.is_ok());
        for planner in Planner::ALL {
            assert_eq!(plan(planner, &bytes).map(|_| ()), accepted);
        }
        let best = plan(Planner::Best, &bytes).map(|plan| plan.verdict);
        assert_eq!(saving(&bytes).map(|saved| saved.verdict), best);
        for marks in [&[], &[1][..], &bytes] {
            let judged = judge(&bytes, marks);
            plans += u32::from(judged.is_ok());
            assert_eq!(price(&bytes, marks).map(|priced| priced.verdict), judged);
            assert_eq!(print_sheets(&bytes, marks).err(), judged.err());
            for edition in Edition::ALL {
                assert_eq!(write_archive(edition, &bytes, marks).err(), judged.err());
            }
        }
        let film = read_archive(&bytes);
        films += u32::from(film.is_ok());
        assert_eq!(convert(&bytes).err(), film.err());
    }
    assert!(trees > 0 && plans > 0 && films > 0);
}
