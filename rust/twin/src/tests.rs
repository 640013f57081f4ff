//! Cases by hand from 01, its readings and beyond, and the fast paths held against the
//! plain ones.

mod help;
mod image;
mod meaning;
mod model;
mod parkbox;
mod print;
mod replay;
mod requests;
mod text;
mod well_formed;
