//! Searches for legs and screens on the deferred-wrap panel, each behind one interface, and what is asked of them.
//!
//! A *leg* is the least sequence of motions that brings the cursor from one place to another. `search` is the unproved
//! twin of the proved search, which `proved` calls; `by_rows` and `lazily` are its peers, which go about it otherwise.
//! `reference` finds the same legs from their definition, slowly.
//!
//! A *plan* is what brings a panel from the picture that it shows to a wanted one: legs, and the cells that change.
//! `plan` and `screen` are what the proved screen is measured against, and `proved_screen` calls the proved one.

pub mod agenda;
pub mod at_once;
pub mod by_rows;
pub mod cost;
pub mod dec;
pub mod delayed;
pub mod described;
pub mod landing;
pub mod lazily;
pub mod line;
pub mod order;
pub mod pairs;
pub mod panel;
pub mod place;
pub mod plan;
#[cfg(feature = "proved")]
pub mod proved;
#[cfg(feature = "proved")]
pub mod proved_screen;
pub mod questions;
pub mod random;
pub mod reference;
pub mod screen;
pub mod search;
pub mod searcher;
pub mod sending;
pub mod shower;
pub mod times;
pub mod timing;
pub mod ways;
pub mod worked;
