//! Drawing lists as text, one record a line.
//!
//! [`make`] turns a text into a list and [`dump`] a list into a text; [`squeeze`] leaves out the
//! settings of a list that change nothing. Words become records here and records words; bytes are
//! written and read by the proved library alone. A list is of the latest version unless its first
//! line tells another, as `page 4 3 0 version 1` does.
//!
//! ```
//! let text = "page 4 3 0   # black\nplayer 3\nexact 1 1 3 2\nend\n";
//! let list = list::make(text.as_bytes()).unwrap();
//! assert_eq!(list.len(), 10 + 2 + 9 + 1);
//!
//! let dumped = list::dump(&list);
//! assert_eq!(dumped.refusal, None);
//! assert!(dumped.text.ends_with("# ceiling 6\n"));
//! assert_eq!(list::make(dumped.text.as_bytes()).as_ref(), Ok(&list));
//!
//! let longer = text.replace("end", "level 9\nend");
//! assert_eq!(list::squeeze(&list::make(longer.as_bytes()).unwrap()), Ok(list));
//! ```

mod dump;
mod make;
mod squeeze;
mod words;

pub use dump::{dump, Dumped};
pub use make::{make, WrongLine, LONGEST_LIST};
pub use squeeze::squeeze;
pub use words::refusal_words;
