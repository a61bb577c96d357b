//! The rules of 01 with expected values worked out by hand, never taken from a program: every
//! example, every clause of every rule, and what each call leaves in the buffers.
//!
//! They are asserted of each program alike: a test that takes them in names the program that it is
//! about `program`, and that has the calls of the second program by their names. `precedence` is
//! taken in by itself, since it goes through the seeded cases.

mod bench;
mod calls;
mod conditions;
mod constraints;
mod costs;
mod examples;
mod listings;
mod pairs_of_faults;
mod read_layout;
mod read_tables;
mod refusals;
