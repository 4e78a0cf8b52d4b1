//! The area of a random bench and the bodies in it.

use super::bodies;
use super::generator::Generator;
use crate::line::{MOST_AREA, Span};
use crate::records::{FILLER, MAKER_AND_MORE};
use crate::reply::MOST_BODY;

/// One new body in this many says that more telegrams follow.
const MORE_ONE_IN: usize = 4;

#[derive(Default)]
pub struct Area {
    pub bytes: Vec<u8>,
    bodies: Vec<Span>,
}

impl Area {
    /// A body that lies inside the area: a new one, one that was given before,
    /// or any stretch of bytes.
    pub fn body(&mut self, generator: &mut Generator) -> Span {
        match generator.below(6) {
            0 => self.any_stretch(generator),
            1 | 2 if !self.bodies.is_empty() => generator.pick(&self.bodies),
            _ => {
                let body = body_of_telegram(generator);
                self.append(&body)
                    .unwrap_or_else(|| self.any_stretch(generator))
            }
        }
    }

    /// Makes the area as large as can be, and gives a body that ends with it.
    pub fn fill(&mut self) -> Span {
        self.bytes.resize(MOST_AREA, FILLER);
        Span {
            start: (MOST_AREA - MOST_BODY) as u16,
            length: MOST_BODY as u16,
        }
    }

    /// None if there is no room left.
    fn append(&mut self, body: &[u8]) -> Option<Span> {
        let start = self.bytes.len();
        if start + body.len() > MOST_AREA {
            return None;
        }
        self.bytes.extend(body);
        let span = Span {
            start: start as u16,
            length: body.len() as u16,
        };
        self.bodies.push(span);
        Some(span)
    }

    fn any_stretch(&self, generator: &mut Generator) -> Span {
        let start = generator.below(self.bytes.len() + 1);
        let most = (self.bytes.len() - start).min(MOST_BODY);
        let length = generator.count(most);
        Span {
            start: start as u16,
            length: length as u16,
        }
    }
}

/// Bodies of meters with several telegrams say more often than others that more
/// telegrams follow.
pub fn body_of_telegram(generator: &mut Generator) -> Vec<u8> {
    let mut body = bodies::body(generator);
    if generator.one_in(MORE_ONE_IN) {
        body.truncate(MOST_BODY - 1);
        body.push(MAKER_AND_MORE);
    }
    body
}
