//! Drawn lists of calls: after each call the tables are sound, they carry over from former tables, and the page-table writer of check_marks.rs
//! has missed nothing. Ports that lose marks must be found by that.

use crate::check_convert::carries_over;
use crate::check_marks::Writer;
use reference::{unsound, Engine, Fault, Seen};
use shared::calls::{Access, Answer, Call, Extras, Handle, Sizes, Update};
use shared::tables::{Capa, Tables};

const SIZES: Sizes = Sizes { domains: 3, slots: 8, regions: 16, records: 10, updates: 2 };
const LISTS: u64 = 1000;
const LENGTH: usize = 120;

/// The wrong ports whose entries lack a mark that they ought to have. Net marks of a carve are none of these: the writer could live with them.
const LOSING: [Fault; 7] = [
    Fault::ReachLast,
    Fault::GatherReplaces,
    Fault::GatherBySlotAlone,
    Fault::LossMarksStaying,
    Fault::FirstMarksOnly,
    Fault::PushedUnmarked,
    Fault::OtherEntryGathers,
];

/// What was met by the right port must have all of these.
const MET: [&str; 4] = [
    "ring: marks gathered that the entry lacked",
    "ring: marks gathered that the entry lacked, while full",
    "gain or loss: a later record has marks that the first lacks",
    "gain or loss: rights moved, reach did not",
];

pub fn drawn() {
    let mut seen = Seen::new();
    for seed in 1..=LISTS {
        let mut number = 0;
        let (engine, missed) = run(seed, None, |answer, engine| {
            number += 1;
            let place = format!("drawn list {seed}, call {number}: {answer:?}");
            assert_eq!(unsound(&engine.tables()), None, "{place}");
            carries_over(&engine.tables(), &place);
            assert!(engine.tables().places.iter().flatten().all(marked), "{place}");
        });
        assert_eq!(missed, None, "drawn list {seed}");
        seen.add(engine.seen());
    }
    let counts = seen.counts();
    for name in MET {
        assert!(counts.iter().any(|(met, count)| met == name && *count > 0), "not met: {name}");
    }
    for fault in LOSING {
        assert!((1..=LISTS).any(|seed| run(seed, Some(fault), |_, _| ()).1.is_some()), "{}: nothing missed", fault.name());
    }
    println!("{} drawn calls: the writer missed nothing; of {} ports that lose marks, something", LISTS as usize * LENGTH, LOSING.len());
}

/// One list, to its end or to the first thing that the writer missed.
fn run(seed: u64, fault: Option<Fault>, mut test: impl FnMut(&Answer, &Engine)) -> (Engine, Option<String>) {
    let mut engine = Engine::new(SIZES, fault);
    let mut writer = Writer::new(SIZES.domains);
    let mut draw = Draw(seed.wrapping_mul(0x9e3779b97f4a7c15));
    for i in 0..LENGTH {
        let answer = engine.perform(&draw.call(i, &engine.tables()));
        test(&answer, &engine);
        let missed = writer.after(&answer, &engine.tables());
        if missed.is_some() {
            return (engine, missed);
        }
    }
    (engine, None)
}

/// A domain is queued by a change, so with a mark.
fn marked(update: &Update) -> bool {
    !matches!(update, Update::Permission { marks: 0, .. })
}

/// Numbers by xorshift; never 0 inside.
pub struct Draw(pub u64);

impl Draw {
    pub fn below(&mut self, n: u64) -> u64 {
        self.0 ^= self.0 << 13;
        self.0 ^= self.0 >> 7;
        self.0 ^= self.0 << 17;
        (self.0 >> 20) % n
    }

    fn domain(&mut self) -> Handle {
        Handle { slot: self.below(SIZES.domains as u64), gen: 0 }
    }

    /// One of them, or 0.
    pub fn one_of(&mut self, locals: &[u64]) -> u64 {
        if locals.is_empty() { 0 } else { locals[self.below(locals.len() as u64) as usize] }
    }

    /// Short ranges over few addresses; any rights.
    pub fn access(&mut self) -> Access {
        let start = self.below(12);
        Access { start, end: start + 1 + self.below(9), rights: self.below(256) as u8 }
    }

    /// A part of what a local slot holds, with some of its rights; anything where that is no region.
    pub fn part(&mut self, tables: &Tables, domain: Handle, local: u64) -> Access {
        let region = match held(tables, domain).get(local as usize) {
            Some(Some(Capa::Region(handle))) => tables.regions[handle.slot as usize].as_ref(),
            _ => None,
        };
        let Some(region) = region else { return self.access() };
        let start = region.start + self.below(region.end - region.start);
        let rights = region.rights & (self.below(256) | self.below(256)) as u8 | (self.below(8) as u8) << 4;
        Access { start, end: start + 1 + self.below(region.end - start), rights }
    }

    /// All domains are opened first, two of them under the first; then calls that mostly name what is there.
    fn call(&mut self, i: usize, tables: &Tables) -> Call {
        if i < SIZES.domains {
            return Call::Open { manager: (i > 0).then_some(Handle { slot: 0, gen: 0 }), cores: self.below(9) };
        }
        let domain = self.domain();
        let regions = locals(tables, domain, |capa| matches!(capa, Capa::Region(_) | Capa::RegionRevoke(_)));
        let targets = locals(tables, domain, |capa| matches!(capa, Capa::Channel(_) | Capa::Management(_)));
        let (local, target) = (self.one_of(&regions), self.one_of(&targets));
        let access = self.part(tables, domain, local);
        match self.below(24) {
            0 | 1 => Call::Channel { domain, to: self.domain() },
            2 => Call::SetCores { domain, cores: self.below(9) },
            3 | 4 => Call::Root { domain, access: self.access() },
            5..=7 => Call::Alias { domain, local, access },
            8..=11 => Call::Carve { domain, local, access },
            12..=15 => Call::Send { domain, local, target, extras: Extras { flags: None, hash: None } },
            16..=19 => Call::Revoke { domain, local },
            20 => Call::RegionRevoke { domain, local },
            _ => Call::Pop,
        }
    }
}

/// What a domain's slots hold.
fn held(tables: &Tables, domain: Handle) -> &[Option<Capa>] {
    tables.domains[domain.slot as usize].as_ref().map_or(&[], |domain| &domain.held)
}

/// The local numbers of the capabilities of some kinds.
pub fn locals(tables: &Tables, domain: Handle, kinds: fn(&Capa) -> bool) -> Vec<u64> {
    let slots = held(tables, domain).iter().enumerate();
    slots.filter(|(_, capa)| capa.as_ref().is_some_and(kinds)).map(|(local, _)| local as u64).collect()
}
