//! Takes bytes from the front of a body and knows their places.

use crate::fault::{Fault, Refusal};

#[derive(Debug, Clone, Copy)]
pub struct Cursor<'a> {
    rest: &'a [u8],
    /// The place of the body's end in the telegram.
    end: usize,
}

impl<'a> Cursor<'a> {
    /// `place` is that of the body's first byte.
    pub fn new(body: &'a [u8], place: usize) -> Self {
        Cursor {
            rest: body,
            end: place + body.len(),
        }
    }

    /// The place of the next byte.
    #[inline]
    pub fn place(&self) -> usize {
        self.end - self.rest.len()
    }

    #[inline]
    pub fn rest(&self) -> &'a [u8] {
        self.rest
    }

    /// The next byte, if the body does not end here.
    #[inline]
    pub fn next_byte(&mut self) -> Option<u8> {
        let (&byte, rest) = self.rest.split_first()?;
        self.rest = rest;
        Some(byte)
    }

    /// The next byte, which has to be there.
    #[inline]
    pub fn byte(&mut self) -> Result<u8, Fault> {
        self.next_byte().ok_or(self.ends_early())
    }

    #[inline]
    pub fn array<const N: usize>(&mut self) -> Result<[u8; N], Fault> {
        let Some((&bytes, rest)) = self.rest.split_first_chunk() else {
            return Err(self.ends_early());
        };
        self.rest = rest;
        Ok(bytes)
    }

    #[inline]
    pub fn slice(&mut self, count: usize) -> Result<&'a [u8], Fault> {
        let Some((bytes, rest)) = self.rest.split_at_checked(count) else {
            return Err(self.ends_early());
        };
        self.rest = rest;
        Ok(bytes)
    }

    /// All bytes up to the body's end.
    pub fn take_rest(&mut self) -> &'a [u8] {
        let (bytes, end) = self.rest.split_at(self.rest.len());
        self.rest = end;
        bytes
    }

    #[inline]
    pub fn ends_early(&self) -> Fault {
        Refusal::BodyEndsEarly.at(self.end)
    }
}
