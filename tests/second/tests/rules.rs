//! The rules of 01 asserted of the second program.

use second as program;

#[path = "../../rules/mod.rs"]
mod rules;
