//! What document 01 says of rules, logs, points and sheets, evaluated by its definitions.
//!
//! This crate is written from the paper alone and shares no code with the checker that it is compared with.
//! [`reading`] is the plain reading and the settling rules word for word, slow and easy to believe.
//! [`linear`] gives the same verdicts in time proportional to the log, for logs of a million records; a test
//! compares the two. [`reason`] writes the reasons of document 02's paper 13, and takes their texts apart. [`model`] is a point as
//! the paper describes it: what each call must answer. [`kiosk`] is document 02's simulated kiosk, and [`typed`] reads rules
//! that are typed as text.

pub mod cases;
pub mod kiosk;
pub mod linear;
pub mod log;
pub mod model;
pub mod random;
pub mod reading;
pub mod reason;
pub mod rule;
pub mod typed;
