//! Watches the exchanges on a line: each has to be one that the line's meaning
//! allows, under any pile of layers.

use crate::line::{GARBLED, Line, Meters, State};

pub struct Watched {
    line: Box<dyn Line>,
    /// The first exchange that is not allowed.
    broken: Option<String>,
}

/// What an exchange did.
struct Outcome<'a> {
    before: State,
    after: State,
    /// Had the request been heard.
    heard: State,
    due: &'a [u8],
    reply: &'a [u8],
}

impl Watched {
    pub fn new(line: Box<dyn Line>) -> Self {
        Watched { line, broken: None }
    }

    pub fn broken(&self) -> Option<&str> {
        self.broken.as_deref()
    }
}

impl Line for Watched {
    fn exchange(&mut self, request: &[u8]) -> Vec<u8> {
        let before = self.line.state();
        let streak_before = self.line.streak();
        let reply = self.line.exchange(request);
        let (heard, due) = self.line.meters().hear(before, request);
        let outcome = Outcome {
            before,
            after: self.line.state(),
            heard,
            due: &due,
            reply: &reply,
        };
        let streak = self.line.streak();
        let clean = streak == 0 && outcome.is_clean();
        let faulty = streak == streak_before + 1 && outcome.is_faulty();
        if !(clean || faulty && streak <= self.line.run()) && self.broken.is_none() {
            let message = format!("the exchange of {request:02X?} gives {reply:02X?}");
            self.broken = Some(message);
        }
        reply
    }

    fn meters(&self) -> &Meters {
        self.line.meters()
    }

    fn state(&self) -> State {
        self.line.state()
    }

    fn run(&self) -> usize {
        self.line.run()
    }

    fn streak(&self) -> usize {
        self.line.streak()
    }
}

impl Outcome<'_> {
    fn is_clean(&self) -> bool {
        self.after == self.heard && self.reply == self.due
    }

    fn is_faulty(&self) -> bool {
        let silent = self.reply.is_empty();
        let lost_out = silent && self.after == self.before;
        let lost_back = silent && self.after == self.heard;
        let damaged = self.reply == [GARBLED] && !self.due.is_empty() && self.after == self.heard;
        lost_out || lost_back || damaged
    }
}
