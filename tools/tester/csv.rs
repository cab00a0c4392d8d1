//! Calls with their answers as CSV: a line each, quoted as RFC 4180 says.

use shared::calls::show;
use shared::refusals;

use crate::run::Answered;

pub const HEADER: &str = "list,line,number,call,text,answer,refusal,refusal_name,why";

/// The line of a call; `list` is the number of its list in the file.
pub fn line(list: usize, a: &Answered) -> String {
    let text = a.call.to_string();
    let refusal = a.answer.as_ref().err();
    let fields = [
        list.to_string(),
        a.line.to_string(),
        a.number.to_string(),
        text.split(' ').next().unwrap_or("").to_string(),
        text.clone(),
        show(&a.answer),
        refusal.map_or(String::new(), u8::to_string),
        refusal.map_or("", |n| refusals::name(*n)).to_string(),
        a.why.clone().unwrap_or_default(),
    ];
    fields.map(|field| quoted(&field)).join(",")
}

fn quoted(field: &str) -> String {
    if field.contains([',', '"', '\n', '\r']) { format!("\"{}\"", field.replace('"', "\"\"")) } else { field.to_string() }
}
