//! The second implementation of the pitch table store: new, old and rest.
//!
//! It was written from documents 01 and 02, the page on the words and the
//! numbers of the C replies alone, without a look at the product. It keeps
//! the store in structs of its own and only packs it into words to be
//! compared.

pub mod call;
pub mod card;
pub mod card_examples;
pub mod crossing;
pub mod damage;
pub mod demand3;
pub mod edits;
pub mod events;
pub mod examples;
pub mod first_table;
pub mod layout;
pub mod lent;
pub mod making;
pub mod misread;
pub mod moments;
pub mod publisher;
pub mod random;
pub mod reader;
pub mod rest;
pub mod rest_examples;
pub mod rules;
pub mod sheet;
pub mod shelf;
pub mod store;
pub mod tables;
pub mod turns;
pub mod walk;

#[cfg(test)]
mod bench;
#[cfg(test)]
mod checks;
#[cfg(test)]
mod end_bench;
#[cfg(test)]
mod rest_bench;
