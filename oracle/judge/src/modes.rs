//! An input in both modes: the base mode, judged by the crate and by the rules, and the memo's, judged by the rules.

use crate::compare::Judge;
use crate::reach;
use crate::shape::Mode;
use crate::tally::Tally;

/// A judge of each mode.
pub struct Judges {
    base: Judge,
    memo: Judge,
    differ: u64,
}

/// What was compared in each mode.
#[derive(Default)]
pub struct Both {
    pub base: Tally,
    pub memo: Tally,
    /// How many inputs differ in one mode or in both.
    pub differ: u64,
}

impl Judges {
    pub fn new(fault: u32) -> Self {
        Judges { base: Judge::new(fault, Mode::Base), memo: Judge::new(fault, Mode::Memo), differ: 0 }
    }

    /// Compares one input; answers whether it differs in one mode or in both.
    pub fn case(&mut self, data: &[u8]) -> bool {
        let before = self.base.tally.differ + self.memo.tally.differ;
        for judge in [&mut self.base, &mut self.memo] {
            let reading = judge.case(data);
            reach::count_ethernet(&mut judge.tally, &reading);
        }
        let differs = self.base.tally.differ + self.memo.tally.differ > before;
        self.differ += u64::from(differs);
        differs
    }

    pub fn ended(self) -> Both {
        Both { base: self.base.tally, memo: self.memo.tally, differ: self.differ }
    }
}

impl Both {
    pub fn merge(&mut self, other: Both) {
        self.base.merge(other.base);
        self.memo.merge(other.memo);
        self.differ += other.differ;
    }
}
