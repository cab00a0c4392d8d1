//! Tests the converter of request 4: docs/TABLES.md's small example, changed in one place after another, with answers from the documents.

use reference::{closed, convert, Lent};
use shared::calls::Update;
use shared::sound;
use shared::tables::Tables;

/// The small example of docs/TABLES.md, as former tables had it.
#[rustfmt::skip]
const OLD: [u64; 129] = [
    2, 2, 3, 3, 1, 0, 1,
    1, 1, 0, 1, 0, 0,
    1, 1, 0, 3, 1, 0, 0, 0,
    1, 1, 0, 3, 1, 0, 0, 0,
    0, 5, 1, 1, 1, 2, 0, 0, 1, 0, 0,
    0, 0, 0, 0, 0, 0, 0, 0, 0, 0, 0,
    1, 1, 0, 0, 16, 3, 0, 0,
    0, 0, 0, 0, 0, 0, 0, 0,
    0, 0, 0, 0, 0, 0, 0, 0,
    0, 16, 1, 1, 1, 0, 0, 0, 0,
    0, 0, 0, 0, 0, 0, 0, 0, 0,
    0, 0, 0, 0, 0, 0, 0, 0, 0,
    1, 0, 0, 5,
    0, 0, 0, 0,
    0, 0, 0, 0, 0,
    0, 0, 0, 0, 0,
    0, 0, 0, 0, 0,
    26, 0,
    0, 0,
];

/// What is put behind: all five marks for the domain at place 0; place 1 is empty.
const MARKS: [u64; 2] = [31, 0];

/// The new tables' length.
const NEW: usize = 131;

/// The example with some words changed.
fn changed(words: &[(usize, u64)]) -> Vec<u64> {
    let mut old = OLD.to_vec();
    words.iter().for_each(|&(place, word)| old[place] = word);
    old
}

fn accepted(old: &[u64]) {
    becomes(old, &MARKS);
}

/// Sound old tables, with these marks behind.
fn becomes(old: &[u64], marks: &[u64; 2]) {
    assert_eq!(convert(old, Lent::of(NEW)), Ok([old, marks].concat()));
}

pub fn conversions() {
    accepted(&OLD);
    kept();
    marked();
    lengths();
    unsound();
    marks_words();
    println!("the converter passes its cases");
}

/// "keep the rest": what sound tables may hold in the example's place goes over as it is.
fn kept() {
    accepted(&changed(&[(30, u64::MAX)])); // the core map, while the domain is queued with another
    accepted(&changed(&[(12, 9)])); // a free domain slot's generation
    accepted(&changed(&[(11, 9), (104, 9)])); // the live domain's, queued with that
    accepted(&changed(&[(110, 1), (111, u64::MAX), (114, 7)])); // a hash
    accepted(&changed(&[(56, 67)])); // VITAL: no count knows it
    accepted(&changed(&[(125, u64::MAX), (126, 1)])); // a word, frozen
}

/// All five marks for a queued domain at whatever place, and none for anything else.
fn marked() {
    becomes(&changed(&[(6, 0), (102, 0), (105, 0)]), &[0, 0]); // the ring is empty
    becomes(&changed(&[(5, 1), (6, 1), (102, 0), (105, 0)]), &[0, 0]); // so it is at the other place
    becomes(&changed(&[(5, 1), (6, 0), (102, 0), (105, 0), (106, 1), (109, 5)]), &[0, 31]); // the domain is queued at place 1
    becomes(&changed(&[(102, 2), (103, 4), (104, 8), (105, 0)]), &[0, 0]); // a range to clean up
    becomes(&changed(&[(102, 2), (103, 1), (104, 1), (105, 0)]), &[0, 0]);
}

/// "1 for wrong lengths".
fn lengths() {
    let refused = |old: &[u64], lent: Lent| assert_eq!(convert(old, lent), Err(1));
    refused(&[], Lent::of(NEW));
    refused(&[], Lent::of(0));
    refused(&OLD[..4], Lent::of(NEW));
    refused(&OLD[..5], Lent::of(NEW));
    refused(&OLD[..128], Lent::of(NEW));
    refused(&OLD[..125], Lent::of(NEW)); // without the interfaces: the delivery before
    refused(&OLD[..110], Lent::of(NEW)); // without the hashes, too
    refused(&[&OLD[..], &[0]].concat(), Lent::of(NEW));
    refused(&[&OLD[..], &MARKS].concat(), Lent::of(NEW)); // converted already
    refused(&[&OLD[..], &MARKS].concat(), Lent::of(NEW + 2));
    for wrong in [0, OLD.len(), NEW - 1, NEW + 1] {
        refused(&OLD, Lent { tables: wrong, ..Lent::of(NEW) });
        refused(&OLD, Lent { work: wrong, ..Lent::of(NEW) });
        refused(&OLD, Lent { other_work: wrong, ..Lent::of(NEW) });
        refused(&OLD, Lent::of(wrong));
    }
}

/// "1 for .. unsound old tables": each change breaks one thing that document 01 asks, or a word of docs/TABLES.md.
fn unsound() {
    let unsound: [&[(usize, u64)]; 28] = [
        &[(0, 0)], // a stored size outside its limits
        &[(0, 33)],
        &[(4, 129)],
        &[(0, u64::MAX)],
        &[(0, 1)], // another length
        &[(5, 2)], // the ring's read place outside it
        &[(6, 0)], // an update in a place that is not queued
        &[(7, 0)], // the domain pool's head in use
        &[(8, 2)], // its count
        &[(9, 1)], // the live domain free
        &[(10, 0)], // the free one neither free nor a domain
        &[(29, 1)], // its own manager
        &[(34, 3)], // the region has no Region slot
        &[(36, 1)], // a handle newer than its slot
        &[(40, 7)], // a free domain's words
        &[(55, 0)], // an empty range
        &[(56, 1)], // counts that are not the regions'
        &[(76, 17)], // a record that is too long
        &[(103, 1)], // a queued domain that is not live
        &[(106, 1)], // a queued place behind the write place
        &[(110, 2)], // no row of the hashes
        &[(115, 1)], // a hash of no region
        &[(126, 2)], // no row of the interfaces
        &[(127, 26)], // a word of no domain
        &[(128, 1)],
        &[(102, 3)], // a place that holds nothing that it could
        &[(102, 2)], // a range with a core map
        &[(106, 2)], // a range behind the write place
    ];
    for words in unsound {
        assert_eq!(convert(&changed(words), Lent::of(NEW)), Err(1), "{words:?}");
    }
}

/// The marks' section: below 32, and 0 beside anything but a queued domain. A queued domain with none is sound, though no call makes it.
fn marks_words() {
    let fault = |old: &[(usize, u64)], marks: &[u64]| sound::fault(&[&changed(old), marks].concat());
    let (domain, empty, range): (&[_], &[_], &[_]) = (&[], &[(6, 0), (102, 0), (105, 0)], &[(102, 2), (103, 4), (104, 8), (105, 0)]);
    (0..32).for_each(|marks| assert_eq!(fault(domain, &[marks, 0]), None, "{marks}"));
    assert_eq!((fault(empty, &[0, 0]), fault(range, &[0, 0])), (None, None));
    let wrong: [(&[_], &[u64]); 10] = [
        (domain, &[32, 0]),
        (domain, &[39, 0]),
        (domain, &[u64::MAX, 0]),
        (domain, &[7, 7]),
        (domain, &[0, 7]),
        (empty, &[7, 0]),
        (empty, &[0, 7]),
        (range, &[7, 0]),
        (domain, &[7]),
        (domain, &[7, 0, 0]),
    ];
    wrong.iter().for_each(|(old, marks)| assert!(fault(old, marks).is_some(), "{marks:?}"));
}

/// The tables without their marks carry over: every queued domain has all five, whatever they were. Before the marks no domain was closed, so
/// tables that queue a closed one are left out.
pub fn carries_over(tables: &Tables, place: &str) {
    if tables.places.iter().flatten().any(|update| closed(tables, update).is_some()) {
        return;
    }
    let mut marked = tables.clone();
    for update in marked.places.iter_mut().flatten() {
        if let Update::Permission { marks, .. } = update {
            *marks = 31;
        }
    }
    let words = tables.words();
    let old = &words[..words.len() - tables.sizes.updates - 1];
    assert_eq!(convert(old, Lent::of(words.len())), Ok(marked.words()), "{place}");
}
