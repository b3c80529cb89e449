//! A second opinion on bidirectional paragraphs.
//!
//! Everything here is written from the rules, the slow and obvious way, so that the proved
//! programs can be compared with something that shares no code and no cleverness with them:
//! every question resolves the whole paragraph again, and a span is found by comparing the
//! levels before a call with those after it.
//!
//! * [`rules`]: the rules of the Unicode Bidirectional Algorithm, one function each.
//! * [`list`]: a plain list with a capacity and totals, and the page of entries over it.
//! * [`paragraph`]: a paragraph that is edited, turned and asked.
//! * [`script`]: scripts of such calls, and the replay of one.
//! * [`levels`]: one paragraph a line in, what the rules say of it out.
//! * [`made`]: made-up input for comparisons, the same for the same seed.

pub mod levels;
pub mod list;
pub mod made;
pub mod paragraph;
pub mod rules;
pub mod script;
