//! The call plan table of document 01, written a second time to compare with the product.
//! Reach is marked afresh and counters are recounted from the links; no search works on counters.
//! `table`, `sound`, `cabins`, `calls`, `clearing`, `slip`, `steps`, `preview`, `rung`, `squeeze`,
//! `image` and `keys` keep a table; `convert` has one edition of an image for the other; `plan` draws
//! the plain plan; `history` runs calls given as values; `generate` makes up calls, key lines, tables,
//! lists, images, conversions and slips; `faults` has deliberate errors; `laws` has what every
//! squeeze has to keep, what the limit of a trial does, what cabins are promised, what conversions
//! leave, what slips say and bring back, what a preview foretells, who can be rung, and what
//! clearings give in any order.
//! Apart from all tables, `line` is the dispatcher of the line that sixteen cabins wait for.

pub mod cabins;
pub mod calls;
pub mod clearing;
pub mod convert;
pub mod faults;
pub mod generate;
pub mod history;
pub mod image;
pub mod keys;
pub mod laws;
pub mod line;
pub mod plan;
pub mod preview;
pub mod rung;
pub mod slip;
pub mod sound;
pub mod squeeze;
pub mod steps;
pub mod table;
