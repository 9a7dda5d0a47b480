//! What the commands of `balduqen` are made of: trees as texts and tables, plans, pictures, film
//! told word by word, and the walk by the printed rule sheet.

pub mod commands;
pub mod film;
pub mod input;
pub mod output;
pub mod plan;
pub mod quote;
pub mod rule_sheet;
pub mod same_file;
pub mod stop;
pub mod svg;
pub mod table;
pub mod text;
pub mod tree;
pub mod usage;
pub mod words;

mod cards;
mod colour;
#[cfg(test)]
mod drawn;
mod element;
mod fill;
mod fold;
mod layout;
mod legend;
mod letters;
mod line;
mod list;
mod picture;
mod rows;
mod stacks;
