//! Runs other programs on random input and compares what they print with what
//! the models in here say.

mod outputs;
mod program;
mod readouts;
mod scenarios;
mod telegrams;

pub use readouts::compare as compare_readout;
pub use scenarios::compare as compare_scenario;
pub use telegrams::compare as compare_decode;
