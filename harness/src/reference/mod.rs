//! The rules, implemented in the plainest way.

pub mod agreement;
pub mod book;
pub mod brute;
pub mod filter;
pub mod graph;
pub mod job;
pub mod plan;
pub mod refusal;
pub mod rows;
pub mod table;
pub mod walk;
