//! A journal: the fresh world it begins with and its steps, of any bytes.

use crate::record::Step;

#[derive(Clone, Debug, Default, PartialEq, Eq)]
pub struct Journal {
    pub members: u32,
    pub f: u8,
    pub r: u8,
    pub steps: Vec<Vec<u8>>,
}

impl Journal {
    pub fn new(members: u32, f: u8) -> Journal {
        Journal::sized(members, f, 0)
    }

    /// From a fresh world with a read size.
    pub fn sized(members: u32, f: u8, r: u8) -> Journal {
        Journal {
            members,
            f,
            r,
            steps: Vec::new(),
        }
    }

    pub fn push(&mut self, step: Step) {
        self.steps.push(step.bytes().to_vec());
    }

    /// The same journal with one more step, for journals written by hand.
    pub fn then(mut self, step: Step) -> Journal {
        self.push(step);
        self
    }

    /// The steps one after another, as a replay takes them.
    pub fn bytes(&self) -> Vec<u8> {
        self.steps.concat()
    }

    /// The first record and the steps, as the program takes them.
    pub fn input(&self) -> Vec<u8> {
        let mut input = Step::fresh(self.members, self.f, self.r).bytes().to_vec();
        input.extend(self.bytes());
        input
    }
}
