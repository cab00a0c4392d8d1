//! Sound tables damaged word by word, and the smallest list and edits that still show a disagreement.

use shared::calls::Call;

use super::shapes::{self, Edits, Shape};
use super::twists;
use driver::compare::shorten;
use driver::random::Random;

/// Lends tables, and says where the answer is not as it should be.
pub trait Tester {
    fn random(&mut self) -> &mut Random;

    /// Lends the shape's words with these edits.
    fn with_edits(&mut self, shape: &Shape, edits: Edits) -> Result<(), String>;
}

/// The k-th word of a sample: the header, and then mostly words that are not 0, since most words of large tables are.
fn sampled(random: &mut Random, words: &[u64], k: usize) -> usize {
    let mut at = k;
    while k >= 7 && (at == k || words[at] == 0 && !random.one_in(40)) {
        at = random.below(words.len() as u64) as usize;
    }
    at
}

/// Single words, `words` of them or all, with several values each; and for each word four edits of several words, four twists, a row
/// of the hashes and of the interfaces, and marks.
pub fn each(tester: &mut impl Tester, shape: &Shape, words: usize) -> Result<(), String> {
    let n = shape.words.len();
    let all = words >= n;
    for k in 0..words.min(n) {
        let k = if all { k } else { sampled(tester.random(), &shape.words, k) };
        for value in shapes::values(tester.random(), &shape.words, k) {
            tester.with_edits(shape, vec![(k, value)])?;
        }
        for _ in 0..4 {
            let edits = [shapes::several(tester.random(), &shape.words), twists::twist(tester.random(), shape)];
            edits.into_iter().try_for_each(|edits| tester.with_edits(shape, edits))?;
        }
        let random = tester.random();
        let rows = [shapes::hash_row(random, shape), shapes::interface_row(random, shape), shapes::marks(random, shape)];
        rows.into_iter().try_for_each(|row| tester.with_edits(shape, row))?;
    }
    Ok(())
}

/// Cuts the list that made the tables and the edits down, while any disagreement remains, and prints them.
pub fn smallest(list: &[Call], mut edits: Edits, differs: impl Fn(&[Call], &Edits) -> Option<String>) -> String {
    let list = shorten(list.to_vec(), |l| differs(l, &edits).map(|_| l.len()));
    edits = shorten(edits, |e| differs(&list, &e.to_vec()).map(|_| e.len()));
    let shape = Shape::of(&list);
    let mut out = format!("cut down:\nsizes {}\n", engine::utils::mirror::sizes());
    list.iter().for_each(|call| out += &format!("{call}\n"));
    edits.iter().for_each(|&(k, value)| out += &format!("word {k}, {}, becomes {value}\n", shape.words[k]));
    out + &differs(&list, &edits).unwrap_or_default()
}
