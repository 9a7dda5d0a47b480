//! What the outside tests share: a model of documents 01 and 02 written from them alone, exhaustive
//! search over plans and over sets of sibling runs, generators of trees, tables and film, document
//! 01's own cases, film kept from before, a reader of leader sheets,
//! the film maker's price list, helpers for checks, guarded buffers, and the entries of both
//! sides.

pub mod cases;
pub mod check;
pub mod entries;
pub mod exhaustive;
pub mod film;
pub mod gen;
pub mod guarded;
pub mod kept;
pub mod model;
pub mod price_list;
pub mod sheet_reader;
pub mod stack;
