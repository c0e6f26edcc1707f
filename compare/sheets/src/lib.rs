//! The answer sheet of a tape, written from document 01 twice: `rules` over `log` keeps no tables and walks back
//! through what was done, `tables` keeps the state. `plans` makes tapes that reach deep states, `compare` holds a sheet
//! program against `rules` on all of them. Manifests are read as in the package `manifests`.

pub mod answer;
pub mod compare;
pub mod log;
pub mod maker;
pub mod plans;
pub mod random;
pub mod rules;
pub mod situations;
pub mod tables;
pub mod tally;
pub mod tape;
pub mod worlds;

pub use manifests::{manifest, run};
