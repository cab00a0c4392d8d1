//! Each refusal that a call can give, met once, and what a refused call leaves.

use mityvurno::{Domain, Interface, Refusal, Rights, Sizes, Tables, Update};

const SIZES: Sizes = Sizes { domains: 3, slots: 4, regions: 6, records: 5, updates: 2 };
const READ: Rights = Rights::READ;

type Memory = [u64; SIZES.memory()];

/// A with B under it (A's slot 0), and A's root from 0 to 16 in its slot 1; the queue is empty.
fn started(memory: &mut Memory) -> (Tables<'_>, Domain, Domain) {
    let mut tables = Tables::make(memory, SIZES).unwrap();
    let a = tables.open_domain(0).unwrap();
    let b = tables.open_under(a, 0).unwrap();
    assert_eq!(tables.create_root_region(a, 0..16, READ), Ok(1));
    assert!(matches!(tables.pop(), Ok(Some(Update::Permission { domain, .. })) if domain == a));
    (tables, a, b)
}

#[test]
fn of_the_host() {
    let mut memory = [0; SIZES.memory()];
    let refused = |memory: &mut [u64], sizes| Tables::make(memory, sizes).map(drop);
    for length in [0, 1, 2, SIZES.memory() - 2, SIZES.memory() - 1] {
        assert_eq!(refused(&mut memory[..length], SIZES), Err(Refusal::Memory), "{length} words");
    }
    assert_eq!(refused(&mut [0; SIZES.memory() + 1], SIZES), Err(Refusal::Memory));
    assert_eq!(refused(&mut memory, Sizes { slots: 0, ..SIZES }), Err(Refusal::Sizes));
    assert_eq!(refused(&mut [], Sizes { records: usize::MAX, ..SIZES }), Err(Refusal::Sizes));
    assert_eq!(Tables::found(&mut []).pop(), Err(Refusal::Memory));
    assert_eq!(Tables::found(&mut memory).pop(), Err(Refusal::Memory));
}

#[test]
fn of_a_handle_or_a_slot() {
    let mut memory = [0; SIZES.memory()];
    let (mut tables, a, b) = started(&mut memory);
    let handles = [Domain { slot: 2, generation: 0 }, Domain { slot: u64::MAX, generation: 0 }, Domain { generation: 1, ..a }];
    for none in handles {
        assert_eq!(tables.core_map(none), Err(Refusal::NoDomain), "{none}");
        assert_eq!(tables.open_under(none, 0), Err(Refusal::NoDomain));
        assert_eq!(tables.open_channel(a, none), Err(Refusal::NoDomain));
        assert_eq!(tables.get_refcount(none, 0..1), Err(Refusal::NoDomain));
        assert_eq!(tables.permissions(none, &mut []).unwrap_err(), Refusal::NoDomain);
    }
    assert_eq!(tables.revoke(a, 2), Err(Refusal::NoSlot));
    assert_eq!(tables.send(a, 1, u64::MAX), Err(Refusal::NoSlot));
    assert_eq!(tables.alias_region(a, 0, 0..4, READ), Err(Refusal::WrongKind));
    assert_eq!(tables.send(a, 0, 0), Err(Refusal::NotCarried));
    assert_eq!(tables.create_revoke_capa(a, 1), Err(Refusal::Root));
    assert_eq!(tables.revoke(a, 1), Err(Refusal::Root));
    // A region that was revoked from elsewhere leaves a dead slot.
    let alias = tables.alias_region(a, 1, 0..4, READ).unwrap();
    let way_back = tables.create_revoke_capa(a, alias).unwrap();
    assert_eq!(tables.send(a, alias, 0), Ok(0));
    tables.revoke(a, way_back).unwrap();
    assert_eq!(tables.create_revoke_capa(b, 0), Err(Refusal::Stale));
}

#[test]
fn of_a_range() {
    let mut memory = [0; SIZES.memory()];
    let (mut tables, a, _) = started(&mut memory);
    assert_eq!(tables.create_root_region(a, 5..5, READ), Err(Refusal::BadRange));
    let (start, end) = (8, 3);
    assert_eq!(tables.alias_region(a, 1, start..end, READ), Err(Refusal::BadRange));
    assert_eq!(tables.alias_region(a, 1, 0..17, READ), Err(Refusal::Beyond));
    assert_eq!(tables.carve_region(a, 1, 0..4, Rights::WRITE), Err(Refusal::Beyond));
    // Document 01: counts asked for (5, 5), (0, 0), (8, 3) are 1, 0, 1.
    let counts = [(5, 5), (0, 0), (start, end)].map(|(start, end)| tables.get_refcount(a, start..end));
    assert_eq!(counts, [Ok(1), Ok(0), Ok(1)]);
}

#[test]
fn of_a_full_table() {
    let mut memory = [0; SIZES.memory()];
    let (mut tables, a, b) = started(&mut memory);
    let c = tables.open_domain(0).unwrap();
    assert_eq!(tables.open_domain(0), Err(Refusal::NoDomainRoom));
    // Two places in the ring.
    tables.create_root_region(b, 0..1, READ).unwrap();
    tables.create_root_region(c, 0..1, READ).unwrap();
    assert_eq!(tables.create_root_region(a, 20..30, READ), Err(Refusal::RingFull));
    assert_eq!(tables.updates().count(), 2);
    // Five records: each of A, B and C has one.
    tables.create_root_region(a, 20..30, READ).unwrap();
    tables.create_root_region(a, 40..50, READ).unwrap();
    assert_eq!(tables.create_root_region(b, 40..50, READ), Err(Refusal::NoTracker));
    // A's four slots are in use; six regions.
    assert_eq!(tables.alias_region(a, 1, 0..4, READ), Err(Refusal::NoLocal));
    tables.alias_region(b, 0, 0..1, READ).unwrap();
    assert_eq!(tables.alias_region(c, 0, 0..1, READ), Err(Refusal::NoRegion));
}

/// The domain of an alias has the range with these rights already: nothing is queued, and a full ring is no refusal.
#[test]
fn not_of_an_alias_in_a_full_ring() {
    let mut memory = [0; SIZES.memory()];
    let (mut tables, a, b) = started(&mut memory);
    let c = tables.open_domain(0).unwrap();
    tables.create_root_region(b, 0..1, READ).unwrap();
    tables.create_root_region(c, 0..1, READ).unwrap();
    assert_eq!(tables.create_root_region(a, 20..30, READ), Err(Refusal::RingFull));
    tables.alias_region(a, 1, 0..4, READ).unwrap();
    assert!(tables.updates().all(|update| matches!(update, Ok(Update::Permission { domain, .. }) if domain != a)));
}

#[test]
fn of_a_spent_generation() {
    let mut memory = [0; SIZES.memory()];
    let (mut tables, a, _) = started(&mut memory);
    let alias = tables.alias_region(a, 1, 0..16, READ).unwrap();
    // The generation of region slot 1 (docs/TABLES.md), in the pool and in the capability that names it.
    let generation = 7 + (2 + 2 * SIZES.domains) + 2 + SIZES.regions + 1;
    let pools = 7 + (2 + 2 * SIZES.domains) + (2 + 2 * SIZES.regions) + (2 + 2 * SIZES.records);
    let capability = pools + 5 + 3 * alias as usize + 2;
    memory[generation] = u64::MAX;
    memory[capability] = u64::MAX;
    assert_eq!(Tables::found(&mut memory).revoke(a, alias), Err(Refusal::Spent));
}

#[test]
fn of_flags_and_interfaces() {
    let mut memory = [0; SIZES.memory()];
    let (mut tables, a, b) = started(&mut memory);
    assert_eq!(tables.send_with_flags(a, 1, 0, Rights::UNCACHEABLE), Err(Refusal::BadFlag));
    assert_eq!(tables.send_with_flags(a, 1, 0, Rights::HASH), Err(Refusal::NoHash));
    assert_eq!(tables.send_with_hash(a, 1, 0, Rights::WRITE, &[1; 32]), Err(Refusal::BadFlag));
    tables.set_interface(a, Interface::NONE).unwrap();
    assert_eq!(tables.alias_region(a, 1, 0..4, READ), Err(Refusal::NotAllowed));
    assert_eq!(tables.carve_region(a, 1, 0..4, READ), Err(Refusal::NotAllowed));
    assert_eq!(tables.send(a, 1, 0), Err(Refusal::NotAllowed));
    tables.freeze_interface(a).unwrap();
    tables.freeze_interface(a).unwrap();
    assert_eq!(tables.set_interface(a, Interface::from_bits(u64::MAX)), Err(Refusal::Frozen));
    tables.set_interface(b, Interface::from_bits(u64::MAX)).unwrap();
}

#[test]
fn of_a_close() {
    let mut memory = [0; SIZES.memory()];
    let (mut tables, a, b) = started(&mut memory);
    tables.set_core_map(b, 6).unwrap();
    assert_eq!(tables.send(a, 1, 0), Ok(0));
    assert_eq!(tables.revoke(a, 0), Err(Refusal::HoldsRoot));
    assert_eq!(tables.open_channel(b, a), Ok(1));
    tables.send(b, 0, 1).unwrap();
    assert_eq!(tables.revoke(a, 0), Err(Refusal::Running));
    tables.set_core_map(b, 0).unwrap();
    tables.revoke(a, 0).unwrap();
    assert_eq!(tables.core_map(b), Err(Refusal::NoDomain));
    assert_eq!(tables.open_under(a, 0), Ok(Domain { slot: 1, generation: 1 }));
    assert_eq!(tables.core_map(b), Err(Refusal::NoDomain));
}
