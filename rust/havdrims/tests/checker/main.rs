//! The archive against the plain evaluator of document 01.
//!
//! Every case has a seed and prints it when it fails, with the line that runs it again. Every buffer lies between
//! pages that may not be touched; what a call only reads may not be written.

mod calls;
mod cases;
mod explain;
mod forged;
mod guard;
mod large;
mod lists;
mod neighbours;
mod runner;
mod simulate;
mod single;
mod sooner;
mod words;
mod worst;
