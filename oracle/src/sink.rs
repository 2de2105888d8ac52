//! Where generated requests go: counted, thinned to one part of N, written as
//! lines, and handed to whoever asked for them.

use crate::words::Asked;

enum To<'a> {
    Lines(&'a mut dyn FnMut(&[u8])),
    Calls(&'a mut dyn FnMut(&Asked<'_>)),
}

pub struct Sink<'a> {
    to: To<'a>,
    line: Vec<u8>,
    part: u64,
    of: u64,
    at: u64,
}

impl<'a> Sink<'a> {
    /// Hands every `of`-th line on, starting with number `part`, from 0.
    pub fn new(part: u64, of: u64, to: &'a mut dyn FnMut(&[u8])) -> Sink<'a> {
        Sink { to: To::Lines(to), line: Vec::new(), part, of, at: 0 }
    }

    /// The same requests as calls, with no text between; a line that need not be a request is left out.
    pub fn calls(part: u64, of: u64, to: &'a mut dyn FnMut(&Asked<'_>)) -> Sink<'a> {
        Sink { to: To::Calls(to), line: Vec::new(), part, of, at: 0 }
    }

    fn wanted(&mut self) -> bool {
        let now = self.at;
        self.at += 1;
        now % self.of == self.part
    }

    /// One request.
    pub fn ask(&mut self, word: &str, nums: &[u64], paths: &[&[u8]]) {
        if !self.wanted() {
            return;
        }
        let asked = Asked::new(word, nums, paths);
        match &mut self.to {
            To::Calls(to) => to(&asked),
            To::Lines(to) => {
                self.line.clear();
                asked.put_line(&mut self.line);
                self.line.push(b'\n');
                to(&self.line);
            }
        }
    }

    /// Any line at all; its byte 10 is added.
    pub fn raw(&mut self, line: &[u8]) {
        if let (true, To::Lines(to)) = (self.wanted(), &mut self.to) {
            self.line.clear();
            self.line.extend_from_slice(line);
            self.line.push(b'\n');
            to(&self.line);
        }
    }
}
