//! Tests the reference: document 01's example and marked cases, lists with answers from the documents, conversions,
//! drawn lists, closed domains, and a list for each fault.

mod check_answers;
mod check_book;
mod check_closing;
mod check_convert;
mod check_drawn;
mod check_marks;

use reference::{Engine, Fault};
use shared::calls::{show, Answer, Call, Handle, Reply, Sizes, Update};
use shared::lists::parse;

/// The script program's sizes.
const SCRIPT: Sizes = Sizes { domains: 8, slots: 16, regions: 128, records: 128, updates: 32 };

const EXAMPLE: &str = "open - 0; open 0.0 0; root 0.0 0 16 3; carve 0.0 1 4 8 1; alias 0.0 1 0 4 3; \
     send 0.0 2 0; alias 0.0 1 6 9 1";

/// One root 0 to 16 with rights 3, in local slot 0.
const ROOT: &str = "open - 0; root 0.0 0 16 3";

fn main() {
    example();
    edges();
    counts();
    ring_of_128();
    facts();
    check_answers::answers();
    check_convert::conversions();
    check_drawn::drawn();
    check_closing::closing();
    check_book::drawn();
    faults();
    println!("the reference passes document 01's example and cases");
}

fn calls(text: &str) -> Vec<Call> {
    let lines = text.split([';', '\n']);
    lines.filter_map(|line| parse(line).unwrap_or_else(|error| panic!("{line}: {error}"))).collect()
}

/// The engine after a list of calls, with their answers.
fn run(sizes: Sizes, text: &str) -> (Engine, Vec<Answer>) {
    let mut engine = Engine::new(sizes, None);
    let answers = calls(text).iter().map(|call| engine.perform(call)).collect();
    (engine, answers)
}

/// The last answer of a list at the script program's sizes.
fn last(text: &str) -> String {
    show(run(SCRIPT, text).1.last().expect("a call"))
}

// ---- the script program's lines

fn call_line(number: usize, answer: &Answer) -> String {
    match answer {
        Ok(Reply::Domain(handle)) => format!("{number} ok {}", handle.slot),
        Ok(Reply::Local(local)) => format!("{number} ok {local}"),
        Ok(_) => format!("{number} ok 0"),
        Err(refusal) => format!("{number} no {refusal}"),
    }
}

fn list_lines(engine: &mut Engine) -> Vec<String> {
    let mut out = Vec::new();
    for slot in 0..8 {
        let domain = Handle { slot, gen: 0 };
        let Ok(Reply::Permissions(list)) = engine.perform(&Call::Permissions { domain }) else { continue };
        for a in list {
            let reach = engine.perform(&Call::Refcount { domain, start: a.start, end: a.end });
            let Ok(Reply::Number(reach)) = reach else { panic!("a live domain") };
            out.push(format!("d {slot} {} {} {} {reach}", a.start, a.end, a.rights));
        }
    }
    while let Ok(Reply::Popped(Some(update))) = engine.perform(&Call::Pop) {
        out.push(match update {
            Update::Permission { domain, cores, .. } => format!("p {} {cores}", domain.slot),
            Update::Cleanup { start, end } => format!("c {start} {end}"),
        });
    }
    out
}

fn example() {
    let (mut engine, answers) = run(SCRIPT, EXAMPLE);
    let lines: Vec<String> = answers.iter().enumerate().map(|(i, a)| call_line(i + 1, a)).collect();
    assert_eq!(lines, ["1 ok 0", "2 ok 1", "3 ok 1", "4 ok 2", "5 ok 3", "6 ok 0", "7 no 8"]);
    assert_eq!(list_lines(&mut engine), ["d 0 0 4 3 2", "d 0 8 16 3 1", "d 1 4 8 1 1", "p 0 0", "p 1 0"]);
    // B's revoke of local 0.
    let (mut engine, answers) = run(SCRIPT, &format!("{EXAMPLE}; revoke 1.0 0"));
    assert_eq!(answers.last(), Some(&Ok(Reply::Done)));
    assert_eq!(list_lines(&mut engine), ["d 0 0 4 3 2", "d 0 4 16 3 1", "p 0 0", "p 1 0"]);
}

/// The paragraph "Edges".
fn edges() {
    let after_root = |call: &str| last(&format!("{ROOT}; {call}"));
    assert_eq!(after_root("alias 0.0 0 0 16 3"), "ok local 1");
    assert_eq!(after_root("alias 0.0 0 0 17 3"), "no 8");
    assert_eq!(after_root("alias 0.0 0 5 5 3"), "no 7");
    assert_eq!(after_root("alias 0.0 0 0 16 19"), "ok local 1");
    assert_eq!(after_root("alias 0.0 0 0 16 4"), "no 8");
    assert_eq!(after_root("carve 0.0 0 4 8 3; alias 0.0 0 8 16 3"), "ok local 2");
    assert_eq!(after_root("carve 0.0 0 4 8 3; alias 0.0 0 7 9 3"), "no 8");
    assert_eq!(after_root("alias 0.0 0 4 8 3; carve 0.0 0 6 7 3"), "no 8");
    // Carves 0 to 4 and 8 to 12 leave 4 to 8 and 12 to 16: those are sent away.
    let carved = format!("{ROOT}; open 0.0 0; carve 0.0 0 0 4 3; carve 0.0 0 8 12 3; send 0.0 0 1");
    let (mut engine, _) = run(SCRIPT, &carved);
    let lines = list_lines(&mut engine);
    assert_eq!(lines[..4], ["d 0 0 4 3 1", "d 0 8 12 3 1", "d 1 4 8 3 1", "d 1 12 16 3 1"]);
}

fn counts() {
    let count = |a: u64, b: u64| last(&format!("{ROOT}; refcount 0.0 {a} {b}"));
    assert_eq!([count(5, 5), count(0, 0), count(8, 3)], ["ok number 1", "ok number 0", "ok number 1"]);
}

/// Update 128 fits; the next gives 14.
fn ring_of_128() {
    let sizes = Sizes { domains: 32, slots: 128, regions: 1024, records: 1024, updates: 128 };
    let mut engine = Engine::new(sizes, None);
    let mut perform = |line: &str| calls(line).iter().map(|call| engine.perform(call)).last().expect("a call");
    assert!(perform(ROOT).is_ok());
    // The root is queued; each alias revoked then queues its CLEANUP.
    for _ in 2..=128 {
        let Ok(Reply::Local(local)) = perform("alias 0.0 0 0 4 32") else { panic!("an alias") };
        assert_eq!(perform(&format!("revoke 0.0 {local}")), Ok(Reply::Done));
    }
    let Ok(Reply::Local(local)) = perform("alias 0.0 0 0 4 32") else { panic!("an alias") };
    assert_eq!(perform(&format!("revoke 0.0 {local}")), Err(14));
}

/// Facts of the source that document 01 leaves to it.
fn facts() {
    let one_record = Sizes { records: 1, ..SCRIPT };
    let (_, answers) = run(one_record, &format!("{ROOT}; carve 0.0 0 4 8 3; revoke 0.0 1"));
    assert_eq!(answers[2..], [Ok(Reply::Local(1)), Err(13)]);
    let lists = "root 0.0 0 8 129; alias 0.0 1 0 8 1; send 0.0 1 0; permissions 0.0";
    assert_eq!(last(&format!("open - 0; open 0.0 0; {lists}")), "ok list [0 8 129]");
    assert_eq!(last("open - 0; root 0.0 0 8 1; root 0.0 0 8 129; permissions 0.0"), "ok list [0 8 1]");
    let two = "open - 0; root 0.0 0 2 1; root 0.0 2 4 1; root 0.0 2 4 1";
    assert_eq!(last(&format!("{two}; refcount 0.0 2 2")), "ok number 0");
    assert_eq!(last(&format!("{two}; refcount 0.0 3 3")), "ok number 2");
    let through = "open - 0; root 0.0 0 8 1; carve 0.0 0 0 4 1; region-revoke 0.0 1; revoke 0.0 2; revoke 0.0 1";
    assert_eq!(last(through), "no 6");
}

// ---- faults.txt and flags.txt

/// The five numbers of a line of sizes.
fn sizes(line: &str) -> Sizes {
    let numbers: Vec<usize> = line.split_whitespace().map(|word| word.parse().expect("a size")).collect();
    let [domains, slots, regions, records, updates] = numbers[..] else { panic!("five sizes: {line}") };
    Sizes { domains, slots, regions, records, updates }
}

/// The sizes line, the calls and the name in the first comment of one part of these.
fn part(text: &str) -> (String, Sizes, Vec<Call>) {
    let name = text.lines().next().unwrap_or("").trim().to_string();
    let rest = text.lines().skip(1).collect::<Vec<_>>().join("\n");
    let line = rest.lines().find_map(|line| line.strip_prefix("sizes ")).expect("a line of sizes");
    (name, sizes(line), calls(&rest))
}

/// Does the port with the fault differ from the one without?
fn told_apart(fault: Fault, sizes: Sizes, list: &[Call]) -> bool {
    let mut right = Engine::new(sizes, None);
    let mut wrong = Engine::new(sizes, Some(fault));
    list.iter().any(|call| right.perform(call) != wrong.perform(call) || right.tables() != wrong.tables())
}

/// Every fault has a list that tells it apart: in faults.txt, or in flags.txt behind the lists that have no fault.
fn faults() {
    let texts = [include_str!("faults.txt"), include_str!("flags.txt")];
    let parts: Vec<_> = texts.iter().flat_map(|text| text.split("# fault: ").skip(1)).map(part).collect();
    assert_eq!(parts.len(), Fault::ALL.len());
    for fault in Fault::ALL {
        let (_, sizes, list) = parts.iter().find(|(name, ..)| name == fault.name()).expect(fault.name());
        assert!(told_apart(fault, *sizes, list), "{}: not told apart", fault.name());
    }
    println!("{} faults told apart", parts.len());
}
