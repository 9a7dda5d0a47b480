//! The film maker's price list (request Seven) written out by hand once more, and what plans cost
//! by it. Pages are weighed as the exhaustive search weighs them: neither the model's prices nor
//! its judge is asked.

use crate::exhaustive::{for_each_plan, page_weights, score_of_plan};
use crate::model::{Price, Tree};
use std::collections::BTreeMap;

/// What a page costs, in cents, from so many fifteenths of the limit on.
pub const PRICE_LIST: [(u32, u32); 16] = [
    (0, 410),
    (1, 405),
    (2, 398),
    (3, 390),
    (4, 380),
    (5, 368),
    (6, 355),
    (7, 340),
    (8, 324),
    (9, 306),
    (10, 287),
    (11, 266),
    (12, 244),
    (13, 221),
    (14, 196),
    (15, 90),
];

/// By the last line of the list that the weight reaches. Nothing is divided here.
pub fn cents_of_page(weight: u32, limit: u32) -> u32 {
    let mut lines = PRICE_LIST.into_iter();
    let line = lines.rfind(|(fifteenths, _)| fifteenths * limit <= 15 * weight);
    line.expect("every weight reaches the first line").1
}

pub fn cents_of_pages(weights: &[u32], limit: u32) -> u32 {
    let of_pages = weights.iter().map(|&weight| cents_of_page(weight, limit));
    of_pages.sum()
}

/// The total of a plan with allowed marks.
pub fn cents_of_plan(tree: &Tree, marks: &[u8]) -> u32 {
    cents_of_pages(&page_weights(tree, marks), tree.limit)
}

/// The answer for a feasible plan whose pages weigh so much, the root page first.
pub fn price_of_pages(weights: &[u32], limit: u32) -> Price {
    Price::accepted(weights.len(), weights[0], cents_of_pages(weights, limit))
}

/// The answer for a feasible plan.
pub fn price_of_plan(tree: &Tree, marks: &[u8]) -> Price {
    price_of_pages(&page_weights(tree, marks), tree.limit)
}

/// For each number of pages that feasible plans have, the least that one of them costs.
pub fn cheapest_by_pages(tree: &Tree) -> BTreeMap<usize, u32> {
    let mut cheapest = BTreeMap::new();
    for_each_plan(tree, |marks| {
        if let Some((pages, _)) = score_of_plan(tree, marks) {
            let cents = cents_of_plan(tree, marks);
            let least = cheapest.entry(pages).or_insert(cents);
            *least = cents.min(*least);
        }
    });
    cheapest
}
