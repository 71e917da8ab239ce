//! What the comparisons of reading, of opening and of lookups share: texts, and how the two sides
//! compare on one.

pub mod scripts;
pub mod verdict;
