//! An independent second program for document 01: reading, opening, presenting, extracting, building, stripping and the listing; with
//! what document 02 adds: receiving and showing reasons (ticket 1), counters per batch (ticket 3), the company's file (ticket 4). Beside it,
//! the reading once more, tuned for speed.

pub mod building;
pub mod company;
pub mod controls;
mod counters;
pub mod currency;
pub mod day;
pub mod extract;
pub mod fields;
pub mod generate;
pub mod headers;
pub mod individual;
pub mod listing;
pub mod posting;
pub mod proved;
pub mod reader;
pub mod reading;
pub mod reasons;
pub mod receiving;
pub mod refusal;
pub mod rules;
pub mod session;
pub mod stripping;
pub mod tray;
pub mod tuned;
pub mod writing;

pub use building::build;
pub use company::company;
pub use currency::Currency;
pub use listing::listing;
pub use reading::{read, read_swept};
pub use reasons::{reasons, show, Source, Standing};
pub use receiving::receive;
pub use refusal::Refusal;
pub use rules::Rules;
pub use session::{Cell, Session};
pub use stripping::strip;
pub use writing::Written;
