//! The library by its Rust types.

mod answers;
mod bare;
mod example;
mod linked;
mod numbers;
