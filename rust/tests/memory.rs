//! Lent memory: damaged words, wrong lengths, what calls leave, lists that a run has no room for, and former tables.

use mityvurno::{raw, Domain, Marks, Permission, Refusal, Rights, Sizes, Tables, Update};

const SIZES: Sizes = Sizes { domains: 2, slots: 4, regions: 6, records: 4, updates: 2 };
const WORDS: usize = SIZES.words();
const RW: Rights = Rights::READ.union(Rights::WRITE);

type Memory = [u64; SIZES.memory()];

/// A domain with core map 5 and a root from 0 to 16, which is queued; 4 to 8 is carved out of it with READ alone.
fn started(memory: &mut Memory) -> Domain {
    let mut tables = Tables::make(memory, SIZES).unwrap();
    let a = tables.open_domain(5).unwrap();
    let root = tables.create_root_region(a, 0..16, RW).unwrap();
    tables.carve_region(a, root, 4..8, Rights::READ).unwrap();
    a
}

/// Any bits; the same in each run.
fn next(random: &mut u64) -> u64 {
    *random ^= *random << 13;
    *random ^= *random >> 7;
    *random ^= *random << 17;
    *random
}

#[test]
fn damaged_tables_are_refused_and_left() {
    let mut sound = [0; SIZES.memory()];
    let a = started(&mut sound);
    let (mut random, mut accepted) = (7, Vec::new());
    for word in 0..WORDS {
        for value in [0, 1, 2, u64::MAX, next(&mut random)].into_iter().filter(|value| *value != sound[word]) {
            let mut memory = sound;
            memory[word] = value;
            let lent = memory;
            if Tables::found(&mut memory).core_map(a) != Err(Refusal::Memory) {
                accepted.push(word);
            }
            assert!(memory == lent, "word {word}: the tables are as lent, and the work area is zero");
        }
    }
    accepted.dedup();
    let may_differ = [
        11, 12, // the domains' generations: a queued handle may be older
        23, 24, 25, 26, // those of free regions
        33, 34, 35, 36, // those of the records
        38, 158, // core maps: of the domain, and of its queued update
        126, 135, 144, // UNCACHEABLE counts
        167, 172, // whether a region has a hash
        197, 198, // the domain's interface, and whether it is frozen
        201, // the marks
    ];
    assert_eq!(accepted, sorted(may_differ));
}

fn sorted<const N: usize>(mut words: [usize; N]) -> [usize; N] {
    words.sort();
    words
}

#[test]
fn any_contents_and_any_length_are_answered() {
    let (mut random, mut run) = (11, [raw::Permission::default(); 9]);
    let a = Domain { slot: 0, generation: 0 };
    for length in 0..2 * SIZES.memory() {
        let mut memory: Vec<u64> = (0..length).map(|_| next(&mut random)).collect();
        let before = memory.clone();
        let mut tables = Tables::found(&mut memory);
        assert_eq!(tables.pop(), Err(Refusal::Memory));
        assert_eq!(tables.permissions(a, &mut run).unwrap_err(), Refusal::Memory);
        assert_eq!(tables.revoke(a, 0), Err(Refusal::Memory));
        assert_eq!(memory[..length / 2], before[..length / 2], "{length} words");
        assert_eq!(run, [raw::Permission::default(); 9]);
    }
}

#[test]
fn a_dirty_work_area_does_not_matter() {
    let mut memory = [0; SIZES.memory()];
    let a = started(&mut memory);
    memory[WORDS..].fill(u64::MAX);
    assert_eq!(Tables::found(&mut memory).core_map(a), Ok(5));
    assert!(memory[WORDS..].iter().all(|word| *word == 0));
}

#[test]
fn a_refused_call_changes_nothing() {
    let mut memory = [0; SIZES.memory()];
    let a = started(&mut memory);
    let before = memory;
    let mut tables = Tables::found(&mut memory);
    // One record is left of four, and this needs two.
    assert_eq!(tables.carve_region(a, 0, 9..10, Rights::READ), Err(Refusal::NoTracker));
    assert_eq!(tables.words(), &before[..WORDS]);
    assert_eq!(memory, before);
}

#[test]
fn words_go_on_elsewhere() {
    let mut memory = [0; SIZES.memory()];
    let a = started(&mut memory);
    let kept = Tables::found(&mut memory).words().to_vec();
    let mut elsewhere = [9; SIZES.memory()];
    elsewhere[..WORDS].copy_from_slice(&kept);
    let mut tables = Tables::found(&mut elsewhere);
    assert_eq!(tables.core_map(a), Ok(5));
    assert_eq!(format!("{tables:?}"), format!("Tables({WORDS} words)"));
}

#[test]
fn a_run_need_not_fit() {
    let mut memory = [0; SIZES.memory()];
    let a = started(&mut memory);
    let mut tables = Tables::found(&mut memory);
    let list = [(0, 4, RW), (4, 8, Rights::READ), (8, 16, RW)].map(|(start, end, rights)| Permission { start, end, rights });
    let untouched = raw::Permission { start: 7, end: 7, rights: 7 };
    for places in 0..5 {
        let mut run = vec![untouched; places];
        let permissions = tables.permissions(a, &mut run).unwrap();
        assert_eq!((permissions.total(), permissions.len()), (3, places.min(3)));
        assert!(permissions.eq(list.into_iter().take(places)));
        assert!(run.iter().skip(3).all(|place| *place == untouched));
    }
    assert_eq!(tables.holders(4, &mut []).unwrap().total(), 1);
    assert!(tables.holders(4, &mut [7, 7]).unwrap().eq([0]));
    assert_eq!(tables.holders(16, &mut [7]).unwrap().next(), None);
}

#[test]
fn a_refused_pop_is_no_empty_queue() {
    let mut memory = [0; SIZES.memory()];
    let a = started(&mut memory);
    let mut tables = Tables::found(&mut memory);
    let mut updates = tables.updates();
    let marks = Marks::REACH | Marks::READ | Marks::WRITE;
    assert_eq!(updates.next(), Some(Ok(Update::Permission { domain: a, cores: 5, marks })));
    assert_eq!(updates.next(), None);
    assert_eq!(updates.next(), None);
    memory[0] = 0;
    let mut tables = Tables::found(&mut memory);
    assert!(tables.updates().eq([Err(Refusal::Memory)]));
}

#[test]
fn former_tables_go_on() {
    let mut before = [0; SIZES.memory()];
    let a = started(&mut before);
    let former = &before[..SIZES.former_words()];
    let (mut memory, mut second) = ([7; SIZES.memory()], [7; WORDS]);
    let mut tables = Tables::convert(former, &mut memory, &mut second).unwrap();
    let all = Marks::REACH | Marks::READ | Marks::WRITE | Marks::EXEC | Marks::SUPER;
    assert_eq!(tables.pop(), Ok(Some(Update::Permission { domain: a, cores: 5, marks: all })));
    assert!(second.iter().chain(&memory[WORDS..]).all(|word| *word == 0));

    let refused = |former: &[u64], memory: &mut [u64], second: &mut [u64]| Tables::convert(former, memory, second).unwrap_err() == Refusal::Memory;
    assert!(refused(&former[1..], &mut memory, &mut second));
    assert!(refused(&former[..former.len() - 1], &mut memory, &mut second));
    assert!(refused(former, &mut memory[1..], &mut second));
    assert!(refused(former, &mut memory, &mut second[1..]));
    assert!(refused(former, &mut [], &mut []));
    before[3] += 1;
    assert!(refused(&before[..SIZES.former_words()], &mut memory, &mut second));
}
