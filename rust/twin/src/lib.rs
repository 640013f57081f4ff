//! A second, independent rendering of the product in plain safe Rust, written from
//! the scope paper (cited as 01), the change requests (cited as 02) and, where 01 points to
//! it, chapter 2 of the toolkit report (cited as 002). Codes such as A1 or C3 name the
//! settled readings of 01.
//!
//! Two renderings of the meanings live side by side. [`ast`] follows the definitions
//! word by word, up to the sets of sets themselves; [`code`] works straight on stored
//! bytes with tables of bits and is what the requests use. Tests hold them together.
#![forbid(unsafe_code)]
#![warn(missing_docs)]

pub mod answer;
pub mod ast;
pub mod code;
pub mod image;
pub mod parkbox;
pub mod print;
pub mod replay;
pub mod request;
pub mod state;
pub mod text;
pub mod tree;

#[cfg(test)]
mod tests;

pub use answer::{number, Answer};
pub use image::Policy;
pub use parkbox::{parkbox, serve, Served};
pub use replay::replay;
pub use state::{well_formed, Slot, State};
pub use text::turn_text;
pub use tree::Tree;
