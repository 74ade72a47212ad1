//! What the benchmark and the comparison of two archives share: rules, logs and time.

pub mod rules;
pub mod time;
