//! A line between a master and meters: "What a line means" in docs/PROTOCOL.md.

mod bench;
mod capture;
mod meters;
mod pattern;
mod request;
mod retry;

pub use bench::{Bench, MOST_AREA, MOST_BODIES, MOST_CODES, MOST_ROWS, Row, Span};
pub use capture::{Capture, MOST_BYTES, MOST_METERS, MOST_TELEGRAMS};
pub use meters::{GARBLED, Meter, Meters, Selected, State};
pub use pattern::Pattern;
pub use request::Request;
pub use retry::{MOST_RETRIES, over_layers};

/// What carries requests to meters and replies back, well or badly.
pub trait Line {
    /// Sends any bytes as a request and gives the reply; silence is no byte.
    fn exchange(&mut self, request: &[u8]) -> Vec<u8>;

    fn meters(&self) -> &Meters;

    fn state(&self) -> State;

    /// The most exchanges in a row that may be faulty.
    fn run(&self) -> usize;

    /// How many in a row have just been faulty.
    fn streak(&self) -> usize;
}

/// Layers lie on layers to any height, so what lies below is not known by type.
impl Line for Box<dyn Line> {
    fn exchange(&mut self, request: &[u8]) -> Vec<u8> {
        (**self).exchange(request)
    }

    fn meters(&self) -> &Meters {
        (**self).meters()
    }

    fn state(&self) -> State {
        (**self).state()
    }

    fn run(&self) -> usize {
        (**self).run()
    }

    fn streak(&self) -> usize {
        (**self).streak()
    }
}
