//! The rights word by name: the letters R, W, X and S for READ, WRITE, EXEC and SUPER, and behind them the other flags, as in `RW+CLEANUP`.

pub const HASH: u8 = 16;
pub const CLEANUP: u8 = 32;
pub const VITAL: u8 = 64;
const UNCACHEABLE: u8 = 128;

const LETTERS: [(char, u8); 4] = [('R', 1), ('W', 2), ('X', 4), ('S', 8)];
const FLAGS: [(&str, u8); 4] = [("HASH", HASH), ("CLEANUP", CLEANUP), ("VITAL", VITAL), ("UNCACHEABLE", UNCACHEABLE)];

/// The names of a rights word; `-` where it is 0.
pub fn names(rights: u8) -> String {
    let letters: String = LETTERS.iter().filter(|(_, bit)| rights & bit != 0).map(|(letter, _)| letter).collect();
    let flags = FLAGS.iter().filter(|(_, bit)| rights & bit != 0).map(|(name, _)| name.to_string());
    let parts: Vec<String> = [letters].into_iter().filter(|l| !l.is_empty()).chain(flags).collect();
    if parts.is_empty() { "-".to_string() } else { parts.join("+") }
}

/// The rights word of such names, each once.
pub fn of_names(word: &str) -> Option<u8> {
    word.split('+').try_fold(0, |rights, part| {
        let flag = FLAGS.iter().find(|(name, _)| *name == part).map(|(_, bit)| *bit);
        joined(rights, flag.or_else(|| of_letters(part))?)
    })
}

fn of_letters(part: &str) -> Option<u8> {
    let bits = part.chars().map(|c| LETTERS.iter().find(|(letter, _)| *letter == c).map(|(_, bit)| *bit));
    bits.into_iter().try_fold(0, |rights, bit| joined(rights, bit?)).filter(|rights| *rights != 0)
}

/// Both together, where neither has a bit of the other.
fn joined(a: u8, b: u8) -> Option<u8> {
    (a & b == 0).then_some(a | b)
}
