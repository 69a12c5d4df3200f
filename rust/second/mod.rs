//! The second program: the rules of document 01 once more, by other means, for tests to compare the library with.
//!
//! It shares no code and no method with the library.
//!
//! | file | subject | how |
//! |---|---|---|
//! | `texts` | link texts | cut with `split`, numbers by `parse` |
//! | `networks` | refusals 2 to 6, who hears whom | maps and sets |
//! | `tables` | the stable table | every line is made its best offer, all at once, until nothing changes |
//! | `walks` | permitted walks | sets of ASes that are closed step by step; a walk looked at link by link |
//! | `findings` | customer ring, joined | a walk down with a colour for each AS; every two tops in a set of peers |
//! | `sheets` | sheets written, read and judged | each line compared with the best offer of the other lines |
//! | `machine` | the message machine | maps of held and waiting pairs |
//! | `program` | what the program prints | |

mod findings;
mod machine;
mod networks;
mod program;
mod sheets;
mod tables;
mod texts;
mod walks;

pub use findings::findings;
pub use machine::{run, Ran};
pub use networks::{Link, Network};
pub use program::program;
pub use sheets::{judge, read_sheet, sheet, text_to_sheet};
pub use tables::table;
pub use texts::read_text;
pub use walks::{follow, types};

/// Number and place of a refusal.
pub type No = (u32, usize);

/// Type, length, next hop.
pub type Line = (u32, u32, u32);

/// What the library takes, as document 01 limits it.
pub const MOST_LINKS: usize = 1536;
pub const MOST_ASES: usize = 512;
pub const MOST_BYTES: usize = 65536;
pub const MOST_CHOICES: usize = 65536;
pub const MOST_LENGTH: u32 = 511;
