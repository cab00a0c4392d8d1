//! The sizes that the front page advises: random calls, none of which is refused for want of a record, and no revoke for want of a place in a ring that
//! was drained. With fewer of either both are met.

use mityvurno::{Domain, Refusal, Rights, Sizes, Tables};

/// xorshift64*: the same calls in every run.
struct Random(u64);

impl Random {
    fn below(&mut self, n: usize) -> usize {
        self.0 ^= self.0 >> 12;
        self.0 ^= self.0 << 25;
        self.0 ^= self.0 >> 27;
        (self.0.wrapping_mul(0x2545_f491_4f6c_dd1d) >> 32) as usize % n
    }

    fn of<T: Copy>(&mut self, list: &[T]) -> T {
        list[self.below(list.len())]
    }
}

/// What a list of calls has led to: the open domains, and the local slots that got a region or a channel, dead ones too.
struct State<'m> {
    tables: Tables<'m>,
    domains: Vec<Domain>,
    regions: Vec<(Domain, u64)>,
    channels: Vec<(Domain, u64)>,
}

/// How often calls of any kind were refused with 13, revokes with 13 and with 14; how many revokes were accepted, and how many domains they closed; the
/// most records that were in use.
#[derive(Default, Debug)]
struct Seen {
    no_tracker: u32,
    stuck: u32,
    ring_full: u32,
    revoked: u32,
    closed: usize,
    records: usize,
}

impl State<'_> {
    /// Any changing call but a root. Rights are any but UNCACHEABLE, most often all that a part may have.
    fn call(&mut self, x: &mut Random, seen: &mut Seen) -> Result<(), Refusal> {
        let (d, local) = x.of(&self.regions);
        let start = x.below(64);
        let range = start as u64..(start + 1 + x.below((64 - start).min(16))) as u64;
        let rights = Rights::from_bits(if x.below(4) == 0 { x.below(128) as u8 } else { 127 });
        match x.below(12) {
            0 => {
                let opened = self.tables.open_under(x.of(&self.domains), 0)?;
                self.domains.push(opened);
            }
            1 => {
                let (from, to) = (x.of(&self.domains), x.of(&self.domains));
                self.channels.push((from, self.tables.open_channel(from, to)?));
            }
            2..=4 => self.regions.push((d, self.tables.alias_region(d, local, range, rights)?)),
            5..=7 => self.regions.push((d, self.tables.carve_region(d, local, range, rights)?)),
            8..=10 => {
                let ways: Vec<u64> = self.channels.iter().filter(|(from, _)| *from == d).map(|(_, way)| *way).collect();
                if let Some(way) = (!ways.is_empty()).then(|| x.of(&ways)) {
                    self.tables.send_with_flags(d, local, way, Rights::from_bits(rights.bits() & Rights::CLEANUP.bits()))?;
                }
                // What was sent lies in some low slot of some domain.
                self.regions.push((x.of(&self.domains), x.below(4) as u64));
            }
            _ => return self.revoke(x, seen),
        }
        Ok(())
    }

    /// A revoke of any slot, with the queue drained.
    fn revoke(&mut self, x: &mut Random, seen: &mut Seen) -> Result<(), Refusal> {
        self.drain();
        let answer = self.tables.revoke(x.of(&self.domains), x.below(8) as u64);
        let before = self.domains.len();
        self.domains.retain(|d| self.tables.core_map(*d).is_ok());
        seen.closed += before - self.domains.len();
        seen.revoked += u32::from(answer.is_ok());
        seen.stuck += u32::from(answer == Err(Refusal::NoTracker));
        seen.ring_full += u32::from(answer == Err(Refusal::RingFull));
        answer
    }

    fn drain(&mut self) {
        assert!(self.tables.updates().all(|update| update.is_ok()));
    }

    /// The records in use: a line of a permission list each.
    fn records(&mut self) -> usize {
        self.domains.iter().map(|d| self.tables.permissions(*d, &mut []).unwrap().total()).sum()
    }
}

/// Lists of 200 calls, each on empty tables with a domain and its root.
fn run(sizes: Sizes, lists: u64) -> Seen {
    let mut seen = Seen::default();
    let mut memory = vec![0; sizes.memory()];
    for seed in 1..=lists {
        let mut x = Random(seed);
        let mut tables = Tables::make(&mut memory, sizes).unwrap();
        let first = tables.open_domain(0).unwrap();
        let root = tables.create_root_region(first, 0..64, Rights::from_bits(127)).unwrap();
        let mut state = State { tables, domains: vec![first], regions: vec![(first, root)], channels: vec![] };
        for _ in 0..200 {
            let answer = state.call(&mut x, &mut seen);
            seen.no_tracker += u32::from(answer == Err(Refusal::NoTracker));
            if answer == Err(Refusal::RingFull) {
                state.drain();
            }
            seen.records = seen.records.max(state.records());
        }
    }
    println!("{sizes:?}: {seen:?}");
    seen
}

#[test]
fn as_advised() {
    for (domains, slots, regions) in [(3, 16, 4), (4, 16, 6), (4, 32, 12)] {
        let sizes = Sizes { domains, slots, regions, records: 4 * regions - 3, updates: domains + regions };
        let seen = run(sizes, 200);
        assert_eq!((seen.no_tracker, seen.stuck, seen.ring_full), (0, 0, 0), "{sizes:?}");
        assert!(seen.revoked > 1000 && seen.closed > 100 && seen.records > regions, "{sizes:?}: {seen:?}");
    }
}

#[test]
fn smaller() {
    let seen = run(Sizes { domains: 3, slots: 16, regions: 16, records: 8, updates: 2 }, 200);
    assert!(seen.stuck > 0 && seen.ring_full > 0, "{seen:?}");
}
