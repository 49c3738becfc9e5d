//! mini-moka's cache, proved: a safe wrapper of its static library.
//!
//! A [`Cache`] has any keys and values, for one thread; threads share a [`sync::Cache`]. Their names
//! are those of `mini_moka`, so most of its programs need only another `use` line. A [`ByteCache`]
//! and a [`NumberCache`] keep copies in the library's memory. A cache is bounded by a number of
//! entries, or of bytes in a `ByteCache`. Its entries expire by a time to live, by a time to idle, or
//! not at all.
//!
//! [`CacheBuilder::adaptive`] is the best choice if nothing is known about the keys: the part of the
//! cache for new entries grows and shrinks with the calls.
//!
//! ```
//! use mini_moka_proved::Cache;
//! use std::time::Duration;
//!
//! let mut cache = Cache::builder()
//!     .max_capacity(10_000)
//!     .adaptive()
//!     .time_to_live(Duration::from_secs(30 * 60))
//!     .build();
//! cache.insert("token".to_string(), "alice".to_string());
//! assert_eq!(cache.get("token").map(String::as_str), Some("alice"));
//! assert_eq!(cache.remove("token"), Some("alice".to_string()));
//! ```
//!
//! The calls of the library are proved: which entries stay, when they expire, and what a
//! `NumberCache` or a `ByteCache` finds. This package is tested: the wrapper, the keys and values of
//! typed caches, and the sharing between threads. The library maps the hash of a typed key to the
//! place of its entry; that the key there is the right one is the package's part. Two examples run
//! under ThreadSanitizer, which also checks the library. The `unsafe` of this package is in two
//! modules: `handle`, and the coarse clock in `clock`.

#![deny(missing_docs, unsafe_code)]

mod byte_builder;
mod bytes;
mod clock;
mod error;
#[allow(unsafe_code)]
mod handle;
mod limits;
mod number_builder;
mod numbers;
pub mod sync;
mod table;
mod typed;
pub mod unsync;

pub use byte_builder::ByteBuilder;
pub use bytes::{ByteCache, ByteIter, ByteRemovedIter};
pub use clock::ManualClock;
pub use error::{BuildError, OutOfMemory, TimedInsertError};
pub use handle::{Cause, Inserted, Removed, Statistics};
pub use number_builder::NumberBuilder;
pub use numbers::{NumberCache, NumberIter, NumberRemovedIter};
pub use typed::{Insertion, ValueRef};
pub use unsync::{Cache, CacheBuilder, Iter, Policy};

/// Runs the examples of the README as tests.
#[cfg(doctest)]
#[doc = include_str!("../README.md")]
struct Readme;
