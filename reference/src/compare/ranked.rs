//! A key whose rank is asked by the function for C, and the target in which it is told.

use super::Subject;
use crate::exported::rank_by_plain;
use crate::plain::key::Key;
use crate::replay::laid_out::LaidOut;

pub struct Ranked {
    pub sheets: LaidOut,
    pub key: Key,
    pub target: Vec<u32>,
    pub answer: u32,
    /// The target afterwards.
    pub told: Vec<u32>,
}

impl Ranked {
    pub fn new(sheets: LaidOut, key: Key, target: Vec<u32>) -> Ranked {
        let mut told = target.clone();
        let answer = rank_by_plain(&sheets, key, &mut told);
        Ranked {
            sheets,
            key,
            target,
            answer,
            told,
        }
    }

    /// What the subject answers, and the target as it leaves it.
    pub fn made(&self, subject: &impl Subject) -> (u32, Vec<u32>) {
        let mut told = self.target.clone();
        let answer = subject.rank(&self.sheets, self.key, &mut told);
        (answer, told)
    }

    pub fn holds(&self, subject: &impl Subject) -> bool {
        self.made(subject) == (self.answer, self.told.clone())
    }
}
