//! A brute-force second opinion for small files, in another style throughout:
//! refusals are all collected and the first is picked, walks are matrix powers, of
//! "whether" for hops and of the smallest sums for lengths, reasons are picked from all
//! paths, closing is an intersection of sets, plans are found by trying everything.

pub mod plans;
pub mod reader;
pub mod reasons;
pub mod rules;
pub mod sets;
pub mod walks;
