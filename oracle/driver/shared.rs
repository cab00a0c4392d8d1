//! What the judge and the reference share: calls, answers, lists, records, tables and their words, the test of soundness,
//! the names of rights and refusals. Nothing here decides an answer.

pub mod calls;
pub mod decode;
pub mod lists;
pub mod records;
pub mod refusals;
pub mod rights;
pub mod sound;
pub mod tables;
