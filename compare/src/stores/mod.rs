//! Lent memory that may form a pool or not: made from pools of the Rust's, damaged, and judged.

pub mod asks;
pub mod damage;
pub mod export;
pub mod judge;
pub mod lines;
pub mod memory;
mod moves;
mod shapes;
mod tilings;
