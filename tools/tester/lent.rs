//! Tables in lent memory, and the calls of a list on them.

use shared::calls::{Access, Answer, Call, Handle, PoolName, Reply, Sizes, Update};
use shared::decode::{decode, total, LIMITS};

use crate::exported::{self, Numbers};

/// The tables' words and a work area of the same length.
pub struct Lent {
    pub words: Vec<u64>,
    work: Vec<u64>,
}

impl Lent {
    /// Empty tables; the library's refusal where a size is outside its limits, which it asks before it looks at lengths.
    pub fn made(z: &Sizes) -> Result<Lent, u8> {
        let sizes = [z.domains, z.slots, z.regions, z.records, z.updates].map(|n| n as u64);
        let within = sizes.iter().zip(LIMITS).all(|(&n, limit)| n <= limit);
        let mut lent = Lent::of(vec![0; if within { total(z) } else { 0 }]);
        match exported::make(&mut lent.words, &mut lent.work, sizes) {
            [0, ..] => Ok(lent),
            [refusal, ..] => Err(refusal as u8),
        }
    }

    /// Tables with these words, whatever they are.
    pub fn of(words: Vec<u64>) -> Lent {
        let work = vec![0; words.len()];
        Lent { words, work }
    }

    /// The answer, and for `generation`, which is no call, what was done.
    pub fn perform(&mut self, call: &Call) -> (Answer, Option<&'static str>) {
        if let Call::Generation { pool, slot, gen } = *call {
            return (Ok(Reply::Done), Some(self.raise(pool, slot, gen)));
        }
        let Lent { words, work } = self;
        let first = exported::perform(words, work, call, &mut []);
        // A list is asked for its length first.
        let mut run = match (call, first) {
            (Call::Permissions { .. }, [0, n, ..]) => vec![0; 3 * n as usize],
            (Call::Holders { .. }, [0, n, ..]) => vec![0; n as usize],
            _ => return (answer(call, first, &[]), None),
        };
        let second = exported::perform(words, work, call, &mut run);
        (answer(call, second, &run), None)
    }

    /// A free slot's generation becomes at least this: written to the words, for no call does it.
    fn raise(&mut self, pool: PoolName, slot: u64, gen: u64) -> &'static str {
        let Some(mut tables) = decode(&self.words) else { return "no call; the words are not those of tables and stay" };
        let pool = match pool {
            PoolName::Domain => &mut tables.domain_pool,
            PoolName::Region => &mut tables.region_pool,
            PoolName::Record => &mut tables.record_pool,
        };
        match usize::try_from(slot).ok().filter(|&slot| slot < pool.gens.len()) {
            None => "no call; there is no such slot",
            Some(slot) if pool.links[slot].is_none() => "no call; the slot is in use and keeps its generation",
            Some(slot) if pool.gens[slot] > gen => "no call; the slot's generation is above this and stays",
            Some(slot) => {
                pool.gens[slot] = gen;
                self.words = tables.words();
                "no call; written to the words"
            }
        }
    }
}

/// The numbers that a call returned, and the run that it filled, as an answer.
fn answer(call: &Call, [refusal, a, b, c, d, marks]: Numbers, run: &[u64]) -> Answer {
    if refusal != 0 {
        return Err(refusal as u8);
    }
    Ok(match call {
        Call::Open { .. } => Reply::Domain(Handle { slot: a, gen: b }),
        Call::Channel { .. } | Call::Root { .. } | Call::Alias { .. } | Call::Carve { .. } => Reply::Local(a),
        Call::Send { .. } | Call::RegionRevoke { .. } => Reply::Local(a),
        Call::SetCores { .. } | Call::SetInterface { .. } | Call::FreezeInterface { .. } => Reply::Done,
        Call::Revoke { .. } | Call::Generation { .. } => Reply::Done,
        Call::CoreMap { .. } | Call::Refcount { .. } => Reply::Number(a),
        Call::Permissions { .. } => Reply::Permissions(run.chunks(3).map(|p| Access { start: p[0], end: p[1], rights: p[2] as u8 }).collect()),
        Call::Holders { .. } => Reply::Holders(run.to_vec()),
        Call::Pop => Reply::Popped(match a {
            0 => None,
            1 => Some(Update::Permission { domain: Handle { slot: b, gen: c }, cores: d, marks }),
            _ => Some(Update::Cleanup { start: b, end: c }),
        }),
    })
}
