//! Plays traces on the library's caches, to choose a capacity and settings.
//!
//! The program `moka_sim` reads a trace ([`reader`]), plays it ([`play`]) on each cache
//! ([`policies`]), and reports ([`report`], [`charts`], [`advice`]).

pub mod advice;
pub mod args;
pub mod charts;
pub mod fields;
pub mod formats;
pub mod keys;
pub mod make;
pub mod memory;
pub mod numbers;
pub mod play;
pub mod policies;
pub mod random;
pub mod reader;
pub mod report;
pub mod svg;
pub mod trace;
mod values;
