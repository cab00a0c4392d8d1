//! The crate's numbers, names and sentences are those of include/mityvurno.h.

use mityvurno::{Interface, Marks, Refusal, Rights, Sizes};

const HEADER: &str = include_str!("../../include/mityvurno.h");

/// The lines `MITYVURNO_NAME = 1,` of an enum.
fn numbers(name: &str) -> Vec<(&'static str, u64)> {
    let (_, rest) = HEADER.split_once(&format!("enum mityvurno_{name} {{")).unwrap_or_else(|| panic!("no enum {name}"));
    let (body, _) = rest.split_once("};").expect("the end of the enum");
    let entry = |line: &'static str| {
        let (name, rest) = line.trim().strip_prefix("MITYVURNO_")?.split_once(" = ")?;
        let digits = rest.find(|c: char| !c.is_ascii_digit()).unwrap_or(rest.len());
        Some((name, rest[..digits].parse().expect("a number")))
    };
    body.lines().filter_map(entry).collect()
}

/// The sentences of `mityvurno_refusal_text`: the lines `case MITYVURNO_NAME: return "text";`.
fn sentences() -> Vec<(&'static str, &'static str)> {
    let entry = |line: &'static str| {
        let (name, text) = line.trim().strip_prefix("case MITYVURNO_")?.split_once(": return \"")?;
        Some((name, text.strip_suffix("\";")?))
    };
    HEADER.lines().filter_map(entry).collect()
}

/// `NoDomain` as the header has it: `NO_DOMAIN`.
fn upper(name: &str) -> String {
    let apart = name.char_indices().map(|(k, c)| if k > 0 && c.is_uppercase() { format!("_{c}") } else { c.to_string() });
    apart.collect::<String>().to_uppercase()
}

#[test]
fn version() {
    assert!(HEADER.contains(&format!("#define MITYVURNO_VERSION \"{}\"\n", env!("CARGO_PKG_VERSION"))));
    let numbers = env!("CARGO_PKG_VERSION").split('.').map(|part| part.parse::<u64>().unwrap());
    assert_eq!(numbers.fold(0, |all, part| all * 100 + part), mityvurno::raw::version());
}

#[test]
fn refusals() {
    let names: Vec<String> = Refusal::ALL.iter().map(|refusal| upper(&format!("{refusal:?}"))).collect();
    let named = names.iter().zip(Refusal::ALL).map(|(name, refusal)| (name.as_str(), refusal.number()));
    assert!([("ACCEPTED", 0)].into_iter().chain(named).eq(numbers("refusal")));
    for (refusal, (name, text)) in Refusal::ALL.iter().zip(&sentences()[1..]) {
        assert_eq!((upper(&format!("{refusal:?}")).as_str(), refusal.to_string().as_str()), (*name, *text));
    }
    assert_eq!(sentences().len(), 1 + Refusal::ALL.len());
    for number in 0..30 {
        let refusal = Refusal::from_number(number);
        assert_eq!(refusal.is_some(), (1..=23).contains(&number));
        assert!(refusal.is_none_or(|refusal| refusal.number() == number));
    }
}

#[test]
fn flags() {
    let rights = [
        Rights::READ, Rights::WRITE, Rights::EXEC, Rights::SUPER, Rights::HASH, Rights::CLEANUP, Rights::VITAL, Rights::UNCACHEABLE,
    ];
    let names = ["READ", "WRITE", "EXEC", "SUPER", "HASH", "CLEANUP", "VITAL", "UNCACHEABLE"];
    assert!(names.into_iter().zip(rights.map(|right| u64::from(right.bits()))).eq(numbers("rights")));

    let interface = [("MAY_SEND", Interface::SEND), ("MAY_ALIAS", Interface::ALIAS), ("MAY_CARVE", Interface::CARVE)];
    assert!(interface.map(|(name, bit)| (name, bit.bits())).into_iter().eq(numbers("interface")));

    let marks = [Marks::REACH, Marks::READ, Marks::WRITE, Marks::EXEC, Marks::SUPER];
    let named = marks.map(|mark| (format!("MARK_{mark}").to_uppercase(), mark.bits()));
    assert!(numbers("mark").into_iter().map(|(name, bits)| (name.to_string(), bits)).eq(named));
}

#[test]
fn flags_are_printed() {
    assert_eq!(Rights::from_bits(255).to_string(), "RWXSHCVU");
    assert_eq!(Rights::NONE.to_string(), "-");
    assert_eq!(format!("{:?}", Rights::READ | Rights::EXEC), "Rights(RX)");
    assert_eq!(Interface::from_bits(0x107).to_string(), "SEND 0x105");
    assert_eq!(Interface::from_bits(1).to_string(), "0x1");
    assert_eq!(Marks::from_bits(31).to_string(), "reach READ WRITE EXEC SUPER");
}

#[test]
fn sizes() {
    let most = |name: &str| {
        let (_, rest) = HEADER.split_once(&format!("#define MITYVURNO_MOST_{name} ")).expect("a limit");
        rest.split_whitespace().next().and_then(|n| n.parse().ok()).expect("a number")
    };
    let [domains, slots, regions, records, updates] = ["DOMAINS", "SLOTS", "REGIONS", "RECORDS", "UPDATES"].map(most);
    let limits = Sizes { domains, slots, regions, records, updates };
    assert_eq!(limits, Sizes::MOST);
    assert!(limits.within_limits() && !Sizes { slots: slots + 1, ..limits }.within_limits() && !Sizes { updates: 0, ..limits }.within_limits());
    // docs/TABLES.md
    assert_eq!(limits.words(), 39_858);
    assert_eq!(Sizes { domains: 2, slots: 2, regions: 3, records: 3, updates: 1 }.words(), 131);
    assert_eq!(Sizes { domains: usize::MAX, ..limits }.memory(), usize::MAX);
}
