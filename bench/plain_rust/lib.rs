//! The same work in plain Rust, as a Rust programmer would write it: the measure that the proved
//! library is held against.

mod controls;
mod fragments;
mod master;
mod outstation;
mod stations;
mod streams;
