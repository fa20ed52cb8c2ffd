//! What the program `plan` says about images of call plans, and about a dispatcher. Every rule is asked of the crate `telephone`: here tables are read,
//! and what is read is put into words and pictures.

pub mod change;
pub mod check;
pub mod diff;
pub mod draw;
pub mod line;
pub mod pages;
pub mod picture;
pub mod risks;
pub mod rung;
pub mod view;
pub mod words;
