//! Ways to damage sound tables. Most change one list or one count and leave the rest as it was, so that the test goes on for as long as it
//! can before it finds the fault.

mod links;
mod numbers;

use shared::tables::Tables;

use crate::random::Random;

/// Words made of sound tables; none where they have no place for this damage.
pub type Damage = fn(&mut Random, &Tables) -> Option<Vec<u64>>;

pub const DAMAGES: [(&str, Damage); 12] = [
    ("a circle in a free list", |r, t| edited(r, t, links::free_circle)),
    ("a free list that leads elsewhere", |r, t| edited(r, t, links::free_elsewhere)),
    ("a circle in a child list", |r, t| edited(r, t, links::child_circle)),
    ("child lists that meet", |r, t| edited(r, t, links::children_meet)),
    ("a circle of parents or managers", |r, t| edited(r, t, links::parent_circle)),
    ("a circle in a tracker", |r, t| edited(r, t, links::tracker_circle)),
    ("trackers that meet", |r, t| edited(r, t, links::trackers_meet)),
    ("a count that lies", |r, t| edited(r, t, numbers::false_count)),
    ("one late fault", |r, t| edited(r, t, numbers::late_fault)),
    ("another range or other rights", |r, t| edited(r, t, numbers::other_range)),
    ("a stretch of one word, or all", numbers::stretch),
    ("one to three random words", numbers::any_words),
];

fn edited(random: &mut Random, t: &Tables, edit: fn(&mut Random, &mut Tables) -> Option<()>) -> Option<Vec<u64>> {
    let mut t = t.clone();
    edit(random, &mut t)?;
    Some(t.words())
}

/// One of the slots that are in use.
fn pick_live<T>(random: &mut Random, entries: &[Option<T>]) -> Option<usize> {
    let live: Vec<usize> = (0..entries.len()).filter(|&i| entries[i].is_some()).collect();
    (!live.is_empty()).then(|| random.pick(&live))
}
