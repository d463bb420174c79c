//! The second program, rule by rule.

mod authority;
mod bad_input;
mod bound;
mod common;
mod device_runs;
mod devices;
mod fit;
mod form;
mod group;
mod kept;
mod lack;
mod machine;
mod paper;
mod passed;
mod program;
mod refusals;
mod usable;
