//! Stand-in lib.rs. cartesian, combination, permutation, sign are the originals (copied by build).
pub mod bits;
pub mod cartesian;
pub mod combination;
pub mod composition;
pub mod dim;
pub mod monotone;
pub mod permutation;
pub mod sign;

pub use cartesian::{Radix, Word};
pub use combination::{Combination, CombinationOver, combinations};
pub use composition::Composition;
pub use dim::Dim;
pub use monotone::{MonoIndex, MonoIndexOver};
pub use permutation::Permutation;
pub use sign::{Sign, sort_count_swaps, sort_signed};

pub fn factorial(n: usize) -> usize {
  (1..=n).product()
}
pub fn binomial(n: usize, k: usize) -> usize {
  if k > n {
    return 0;
  }
  (0..k).fold(1, |acc, i| acc * (n - i) / (i + 1))
}
