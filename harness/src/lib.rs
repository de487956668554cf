//! A second implementation of PlanBench, written from its rules alone, and
//! what is needed to compare a program with it: random jobs, random desk
//! scripts, and a way to run a program on them.
//!
//! The reference prefers the plainest way over the fast one.

pub mod chance;
pub mod desk;
pub mod drawing;
pub mod graphs;
pub mod job_maker;
pub mod program;
pub mod reference;
pub mod script_maker;
