//! The generator and what its sheets reach.

mod answers;
mod bounds;
mod common;
mod device_holdings;
mod device_rules;
mod device_verdicts;
mod devices;
mod edges;
mod forms;
mod groups;
mod idles;
mod mills;
mod misfits;
mod pairs;
mod passings;
mod report;
mod sheets;
mod strays;
mod stricts;
mod usable;
mod wides;
