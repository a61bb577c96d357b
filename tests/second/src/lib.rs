//! The second program: the rules of document 01 written down once more, for plainness only.
//!
//! It is there to be compared with the proved library, so it shares nothing with it and never
//! searches: plans are found by trying every table. The modules follow the sections of 01:
//!
//! | module        | section of 01                                   |
//! |---------------|-------------------------------------------------|
//! | `tables`      | The lent tables                                 |
//! | `constraint`  | Constraints                                     |
//! | `plan`        | What a plan is                                  |
//! | `enumeration` | every table, and those that are sound, in order |
//! | `refusals`    | Calls and what they give back: the table, 1 to 8 |
//! | `calls`       | Calls and what they give back: the calls        |
//! | `text`        | The text and the program: the layout and read   |
//! | `program`     | The text and the program: `boxplan`             |
//!
//! # The calls
//!
//! [`fits`], [`check`], [`first`], [`next`], [`turn`], [`read`] and [`boxplan`]. Each answers with
//! a plain struct whose `refusal` is 0 or the number of 01's table; after a refusal every other
//! field is 0, as 01 says. Nothing is assumed of what is handed in.
//!
//! Trying every table takes as long as there are tables. [`combinations`] (and for a text
//! [`text_combinations`]) says how many there would be; a caller skips what is over [`LIMIT`].

mod calls;
mod constraint;
mod enumeration;
mod plan;
mod program;
mod refusals;
mod tables;
mod text;

pub use calls::{
    CheckAnswer, FitsAnswer, PlanAnswer, Record, check, conditions, first, fits, listing, next,
    turn,
};
pub use constraint::Version;
pub use enumeration::{LIMIT, combinations};
pub use plan::{Cost, Plan};
pub use program::{boxplan, text_combinations};
pub use tables::{Catalogue, Settings};
pub use text::{ENTRY_NUMBERS, ReadAnswer, SLOT_NUMBERS, read};
