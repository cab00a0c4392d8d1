//! The marks of queued domains (document 02, request 4). The Rust has none: here the reference runs the same calls beside it, and its marks
//! are the judge's. All else must be the Rust's.

use engine::utils::mirror;
use reference::Engine;
use shared::calls::{show, Answer, Call, Reply, Update};
use shared::tables::Tables;

use crate::compare::changes;

pub struct Marks(Engine);

impl Marks {
    /// Of empty tables.
    pub fn new() -> Marks {
        Marks(Engine::new(mirror::sizes(), None))
    }

    /// Performs the call, too: the Rust's answer with the marks of what is popped.
    pub fn perform(&mut self, call: &Call, answer: Answer) -> Answer {
        if !changes(call) {
            return answer;
        }
        let marked = self.0.perform(call);
        if left_out(marked.clone()) != answer {
            apart(&format!("{call}: the Rust answers `{}`, the reference `{}`", show(&answer), show(&marked)));
        }
        marked
    }

    /// Performs the call without the Rust; was a closing domain due a range back?
    pub fn alone(&mut self, call: &Call) -> (Answer, bool) {
        let answer = self.0.perform(call);
        (answer, self.0.due_back())
    }

    /// The reference behind this call, where a closing domain is due a range back in it.
    pub fn due_back(&self, call: &Call) -> Option<Ahead> {
        due_back(&self.0, call)
    }

    /// The reference's own.
    pub fn tables(&self) -> Tables {
        self.0.tables()
    }

    /// Puts the marks beside the Rust's queued domains: those that a copy of the reference answers when all is popped.
    pub fn put(&self, tables: &mut Tables) {
        if tables.read == tables.write {
            return;
        }
        let (mut copy, mut at) = (self.0.clone(), tables.read);
        while at != tables.write {
            let popped = copy.perform(&Call::Pop);
            let place = &mut tables.places[at as usize];
            if left_out(popped.clone()) != Ok(Reply::Popped(*place)) {
                apart(&format!("the Rust has {place:?} in the queue, the reference `{}`", show(&popped)));
            }
            if let Ok(Reply::Popped(update)) = popped {
                *place = update;
            }
            at = (at + 1) % tables.places.len() as u64;
        }
    }
}

/// A copy of the reference that has performed a call, with its answer.
pub struct Ahead {
    pub answer: Answer,
    pub engine: Engine,
}

/// A copy that has performed this call, where a closing domain is due a range back in it.
pub fn due_back(reference: &Engine, call: &Call) -> Option<Ahead> {
    let mut engine = reference.clone();
    let answer = engine.perform(call);
    engine.due_back().then_some(Ahead { answer, engine })
}

/// The comparison of the two stands in `driver compare`; elsewhere a difference is the end.
pub fn apart(what: &str) -> ! {
    println!("the Rust and the reference differ, which `driver compare` looks for: {what}");
    std::process::exit(1)
}

/// Gives the domains among these updates the same marks.
pub fn set<'a>(updates: impl IntoIterator<Item = &'a mut Update>, all: u64) {
    for update in updates {
        if let Update::Permission { marks, .. } = update {
            *marks = all;
        }
    }
}

/// The answer without marks.
pub fn left_out(mut answer: Answer) -> Answer {
    if let Ok(Reply::Popped(update)) = &mut answer {
        set(update, 0);
    }
    answer
}

/// The tables with the same marks beside all queued domains.
pub fn with_all(mut tables: Tables, all: u64) -> Tables {
    set(tables.places.iter_mut().flatten(), all);
    tables
}
