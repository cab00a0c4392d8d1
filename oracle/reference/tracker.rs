//! Document 01's tracker paragraph: gain, loss, split and merge over one domain's records. Gain and loss answer document 02's marks.

use crate::lists::{counters, Pool, Record};
use crate::marks::bits;
use crate::seen::{Branch, Seen};
use crate::Fault;
use shared::calls::Access;

/// One domain's records with the pool that their slots come from.
pub struct Tracker<'a> {
    pub records: &'a mut Vec<Record>,
    pub pool: &'a mut Pool,
    pub fault: Option<Fault>,
    pub seen: &'a mut Seen,
}

impl Tracker<'_> {
    fn wrong(&self, fault: Fault) -> bool {
        self.fault == Some(fault)
    }

    /// Gain splits at edges, fills gaps and adds one, left to right; then it merges.
    /// Answers which counts left 0.
    pub fn gain(&mut self, gained: Access) -> Result<u64, u8> {
        let mut marks = 0;
        let mut filled = false;
        let records = self.records.len();
        let mut i = self.cut(gained.start)?;
        self.seen.note_if(self.records.len() > records, Branch::GainSplitsStart);
        if self.wrong(Fault::GainSplitsFirst) {
            self.cut(gained.end)?;
        }
        let mut at = gained.start;
        while at < gained.end {
            let next = self.records.get(i).map_or(gained.end, |r| r.start.min(gained.end));
            if at < next {
                let new = self.fill(i, Access { start: at, end: next, ..gained })?;
                marks = self.walked(marks, new);
                filled = true;
            } else {
                let split = self.split(i, gained.end)?;
                self.seen.note_if(split && filled, Branch::GapThenSplit);
                self.seen.note_if(split && at == gained.start, Branch::GainInsideOne);
                let left = self.add_one(i, gained.rights);
                marks = self.walked(marks, left);
            }
            at = self.records[i].end;
            i += 1;
        }
        self.merge()?;
        Ok(self.answered(marks, gained.rights))
    }

    /// Loss splits, subtracts one and drops records at reach 0, left to right; then it merges.
    /// Answers which counts came to 0.
    pub fn lose(&mut self, lost: Access) -> Result<u64, u8> {
        let mut marks = 0;
        let mut dropped = Vec::new();
        let mut i = self.cut(lost.start)?;
        if self.wrong(Fault::LossSplitsFirst) {
            self.cut(lost.end)?;
        }
        while i < self.records.len() && self.records[i].start < lost.end {
            let short = self.pool.free.len() == dropped.len();
            let split = self.split(i, lost.end)?;
            self.seen.note_if(split && !dropped.is_empty(), Branch::LossReuses);
            self.seen.note_if(split && !dropped.is_empty() && short, Branch::LossReusesLast);
            self.seen.note_if(split && self.records[i].start == lost.start, Branch::LossInsideOne);
            let came = self.subtract_one(i, lost.rights);
            marks = self.walked(marks, came);
            if self.records[i].counts[0] == 0 {
                let slot = self.records.remove(i).slot;
                dropped.push(slot);
                if !self.wrong(Fault::LossFreesLate) {
                    self.pool.put_back(slot)?;
                }
            } else {
                i += 1;
            }
        }
        self.merge()?;
        if self.wrong(Fault::LossFreesLate) {
            dropped.iter().try_for_each(|&slot| self.pool.put_back(slot))?;
        }
        Ok(self.answered(marks, lost.rights))
    }

    /// "somewhere in the range": the marks of all the walk's records.
    fn walked(&mut self, marks: u64, more: u64) -> u64 {
        self.seen.note_if(marks != 0 && more & !marks != 0, Branch::MarksDiffer);
        if marks != 0 && self.wrong(Fault::FirstMarksOnly) { marks } else { marks | more }
    }

    /// What a whole gain or loss answers. Only faults change it.
    fn answered(&mut self, marks: u64, rights: u8) -> u64 {
        self.seen.note_if(marks != 0 && marks & 1 == 0, Branch::RightAlone);
        match self.fault {
            Some(Fault::ReachLast) => marks >> 1 | (marks & 1) << 4,
            Some(Fault::ReachAlwaysMarked) if marks != 0 => marks | 1,
            Some(Fault::RightsMarked) if marks != 0 => bits(|k| k < 5 && counters(rights)[k] == 1),
            _ => marks,
        }
    }

    /// Splits the record that has `at` inside it; answers the place of the first record from `at` on.
    fn cut(&mut self, at: u64) -> Result<usize, u8> {
        let i = self.records.partition_point(|r| r.end <= at);
        let split = i < self.records.len() && self.split(i, at)?;
        Ok(if split { i + 1 } else { i })
    }

    /// Splits record `i` if `at` lies inside it; the right half takes the new slot.
    fn split(&mut self, i: usize, at: u64) -> Result<bool, u8> {
        if at <= self.records[i].start || self.records[i].end <= at {
            return Ok(false);
        }
        let mut right = self.records[i].clone();
        right.start = at;
        right.slot = self.new_slot()?;
        self.records[i].end = at;
        if self.wrong(Fault::SplitLeftNew) {
            std::mem::swap(&mut self.records[i].slot, &mut right.slot);
        }
        self.records.insert(i + 1, right);
        Ok(true)
    }

    /// Puts a new record at place `i`; its uncacheable count is made by these rights, and has no mark.
    fn fill(&mut self, i: usize, gap: Access) -> Result<u64, u8> {
        self.seen.note_if(i > 0 && i < self.records.len(), Branch::GapBetween);
        let slot = self.new_slot()?;
        let counts = counters(gap.rights);
        self.records.insert(i, Record { slot, start: gap.start, end: gap.end, counts });
        Ok(match self.fault {
            Some(Fault::GapMarksAll) => 31,
            Some(Fault::UncacheableMarked) => bits(|k| counts[k] > 0),
            _ => bits(|k| k < 5 && counts[k] > 0),
        })
    }

    /// 13 NoTracker: a split or new record finds none free.
    fn new_slot(&mut self) -> Result<usize, u8> {
        let slot = self.pool.give().ok_or(13)?;
        self.seen.note_if(self.pool.free.is_empty(), Branch::RecordsOut);
        Ok(slot)
    }

    /// Adds one to reach and the rights' counts; answers which of them left 0.
    fn add_one(&mut self, i: usize, rights: u8) -> u64 {
        let mut step = counters(rights);
        if !self.wrong(Fault::UncacheableMoves) {
            step[5] = 0;
        }
        let counts = &mut self.records[i].counts;
        let left = bits(|k| step[k] == 1 && counts[k] == 0);
        (0..6).for_each(|k| counts[k] += step[k]);
        left
    }

    /// Subtracts one likewise; answers which counts came to 0. Only a fault can meet a count of 0 here.
    fn subtract_one(&mut self, i: usize, rights: u8) -> u64 {
        let mut step = counters(rights);
        step[5] = 0;
        let other_side = self.wrong(Fault::LossMarksStaying);
        let counts = &mut self.records[i].counts;
        (0..6).for_each(|k| counts[k] = counts[k].saturating_sub(step[k]));
        bits(|k| step[k] == 1 && (counts[k] == 0) != other_side)
    }

    /// Touching neighbours with six equal counts become one; from the head, the left slot stays.
    fn merge(&mut self) -> Result<(), u8> {
        if self.wrong(Fault::MergeFromEnd) {
            return self.merge_from_end();
        }
        let mut merged = 0;
        let mut i = 0;
        while i + 1 < self.records.len() {
            if self.mergeable(i) {
                self.merge_pair(i)?;
                merged += 1;
            } else {
                i += 1;
            }
        }
        self.seen.note_if(merged > 0, Branch::Merged);
        self.seen.note_if(merged > 1, Branch::MergedSeveral);
        Ok(())
    }

    fn merge_from_end(&mut self) -> Result<(), u8> {
        for i in (1..self.records.len()).rev() {
            if self.mergeable(i - 1) {
                self.merge_pair(i - 1)?;
            }
        }
        Ok(())
    }

    fn mergeable(&mut self, i: usize) -> bool {
        let (left, right) = (&self.records[i], &self.records[i + 1]);
        let touch = left.end == right.start;
        let five_equal = left.counts[..5] == right.counts[..5];
        let uncacheable_equal = left.counts[5] == right.counts[5];
        self.seen.note_if(touch && five_equal && !uncacheable_equal, Branch::KeptApart);
        touch && five_equal && (uncacheable_equal || self.wrong(Fault::MergeIgnoresUncacheable))
    }

    /// Record `i` takes its right neighbour's range; the neighbour's slot is freed.
    fn merge_pair(&mut self, i: usize) -> Result<(), u8> {
        let mut right = self.records.remove(i + 1);
        self.records[i].end = right.end;
        if self.wrong(Fault::MergeKeepsRight) {
            std::mem::swap(&mut self.records[i].slot, &mut right.slot);
        }
        let freed = self.pool.put_back(right.slot);
        self.seen.note_if(freed.is_err(), Branch::MergeSpent);
        freed
    }
}
