//! The command: what it prints, that its numbers are the library's, and how it
//! behaves among files, pipes and terminals.

mod agreed;
mod common;
mod explained;
mod files;
mod hints;
mod installed;
mod json;
mod manual;
mod objects;
mod pictures;
mod stored;
mod terminal;
mod timelines;
