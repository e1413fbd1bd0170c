//! The oracle: records read by the specification's rules, checked by the Rust with a counter of learned literals.

include!(concat!(env!("OUT_DIR"), "/struo.rs"));

pub mod asserts;
pub mod bridge;
pub mod check;
pub mod clocks;
pub mod dense;
pub mod earliest;
pub mod exhaustive;
pub mod families;
pub mod limited;
pub mod meter;
pub mod pair;
pub mod random;
pub mod reads;
pub mod record;
pub mod refusals;
pub mod rewrite;
pub mod rng;
pub mod run;
pub mod shapes;
pub mod solving;
pub mod steps;
pub mod vectors;
