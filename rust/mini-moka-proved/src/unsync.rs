//! The typed cache for one thread, under the names of `mini_moka::unsync`.

mod builder;
mod cache;

pub use crate::typed::Policy;
pub use builder::CacheBuilder;
pub use cache::{Cache, Iter};
