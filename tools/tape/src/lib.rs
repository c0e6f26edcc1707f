//! Tapes for people. `story` reads a story and makes its tape, `show` writes the story of a tape, `explain` says a
//! sheet in words. What a tape and a manifest are comes from the package `sheets`.

pub mod explain;
pub mod show;
pub mod story;
