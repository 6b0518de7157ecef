//! Searches for a cheapest list in safe Rust, which the benchmark times beside the library's. They get losses and costs
//! ready-made, and keep their memory from search to search; nobody clears it in between.

pub mod dense;
pub mod fronts;
pub mod ranges;
pub mod tree;
pub mod trim;
