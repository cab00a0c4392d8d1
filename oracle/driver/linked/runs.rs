//! Lent runs: what a reading may write there.

use shared::calls::{Answer, Reply};

use driver::random::Random;

/// How many words are lent for the list of this answer, one run after the other: none, room for one record, for all but one, for all, for one
/// more, and any number. For an answer with no list one run.
pub fn places(random: &mut Random, answer: &Answer) -> Vec<usize> {
    let (records, width) = match answer {
        Ok(Reply::Permissions(l)) => (l.len(), 3),
        Ok(Reply::Holders(l)) => (l.len(), 1),
        _ => return vec![random.below(9) as usize],
    };
    let edges = [0, 1, records.saturating_sub(1), records, records + 1].map(|n| width * n);
    let any = random.below((width * records) as u64 + 9) as usize;
    edges.into_iter().chain([any]).collect()
}

/// Is the run what the answer says, and untouched behind it?
pub fn check(answer: &Answer, before: &[u64], after: &[u64]) -> Result<(), String> {
    let (words, width) = match answer {
        Ok(Reply::Permissions(l)) => (l.iter().flat_map(|a| [a.start, a.end, u64::from(a.rights)]).collect(), 3),
        Ok(Reply::Holders(l)) => (l.clone(), 1),
        _ => (Vec::new(), 1),
    };
    let written = words.len().min(after.len() / width * width);
    if after[..written] != words[..written] {
        return Err(format!("the run holds {:?}, expected {words:?}", &after[..written]));
    }
    (after[written..] == before[written..]).then_some(()).ok_or("the run changed behind what was written".to_string())
}
