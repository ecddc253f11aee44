//! An independent reference of linkplan, written from documents 01 and 02 and the
//! readings of docs/DECISIONS.md.
//!
//! It aims at being read beside the document, not at speed. The modules follow
//! the document's sections; `brute` answers the same questions once more in
//! another style, so that a slip has to be made twice to go unnoticed.

// The document's sections.
pub mod calls;
pub mod clauses;
pub mod close;
pub mod dimacs;
pub mod file;
pub mod judge;
pub mod meaning;
pub mod reason;
pub mod search;

// What the programs print, and the requests of `linkcalls`.
pub mod programs;
pub mod protocol;

// Second opinions.
pub mod brute;
pub mod sat;
pub mod written;

// Files and requests to try.
pub mod generate;
pub mod random;
pub mod sample;
pub mod stored;
pub mod write;

// The checks themselves.
pub mod compare;
pub mod selftest;

/// How a program ends: well, or with a message.
pub fn ended(done: Result<(), String>) -> std::process::ExitCode {
    if let Err(message) = &done {
        eprint!("{message}");
    }
    std::process::ExitCode::from(u8::from(done.is_err()))
}
