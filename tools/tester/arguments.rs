//! The command line of tools/calls.

use shared::calls::Sizes;
use shared::lists;

/// tools/calls shows it without this program where there is no library.
pub const USAGE: &str = include_str!("usage.txt");

/// How the answers are shown.
#[derive(Clone, Copy, PartialEq, Eq, Debug)]
pub enum Form {
    Text,
    Json,
    Csv,
    List,
    Check,
    Picture,
}

/// Where given tables come from: words as text, or memory.
pub enum Given {
    Words(String),
    Memory(String),
}

pub struct Options {
    pub form: Form,
    pub why: bool,
    pub dump: bool,
    pub sizes: Option<Sizes>,
    pub given: Option<Given>,
    pub write_words: Option<String>,
    pub file: Option<String>,
}

/// The options; none where help is asked for.
pub fn parse(args: impl Iterator<Item = String>) -> Result<Option<Options>, String> {
    let mut o = Options { form: Form::Text, why: false, dump: false, sizes: None, given: None, write_words: None, file: None };
    let mut args = args;
    while let Some(arg) = args.next() {
        let mut value = |what: &str| args.next().ok_or(format!("{arg}: expected {what}, found nothing"));
        match arg.as_str() {
            "--help" => return Ok(None),
            "--why" => o.why = true,
            "--dump" => o.dump = true,
            "--json" => once(&mut o.form, Form::Json)?,
            "--csv" => once(&mut o.form, Form::Csv)?,
            "--list" => once(&mut o.form, Form::List)?,
            "--check" => once(&mut o.form, Form::Check)?,
            "--picture" => once(&mut o.form, Form::Picture)?,
            "--sizes" => o.sizes = Some(sizes(&value("D,S,R,T,U")?)?),
            "--words" => given(&mut o.given, Given::Words(value("a file of words")?))?,
            "--memory" => given(&mut o.given, Given::Memory(value("a file of memory")?))?,
            "--write-words" => o.write_words = Some(value("a file to write")?),
            file if file.starts_with('-') && file != "-" => return Err(format!("expected an option or FILE, found {file}")),
            file if o.file.is_some() => return Err(format!("expected one FILE, found a second one, {file}")),
            file => o.file = Some(file.to_string()),
        }
    }
    fitting(o).map(Some)
}

fn once(form: &mut Form, new: Form) -> Result<(), String> {
    if *form != Form::Text {
        return Err("expected at most one of --json, --csv, --list, --check and --picture, found two".to_string());
    }
    *form = new;
    Ok(())
}

fn given(old: &mut Option<Given>, new: Given) -> Result<(), String> {
    if old.is_some() {
        return Err("expected at most one of --words and --memory, found two".to_string());
    }
    *old = Some(new);
    Ok(())
}

/// Five numbers with commas between them.
fn sizes(word: &str) -> Result<Sizes, String> {
    let read = lists::sizes(&format!("sizes {}", word.replace(',', " ")));
    read.ok().flatten().ok_or(format!("--sizes: expected five numbers as 8,16,128,128,32, found \"{word}\""))
}

/// The options, where they go together.
fn fitting(o: Options) -> Result<Options, String> {
    let (explained, dumped) = (!matches!(o.form, Form::List | Form::Picture), matches!(o.form, Form::Text | Form::Json));
    let wrong = match &o {
        Options { file: None, given: None, .. } => Some("expected FILE, found none"),
        Options { file: None, form: Form::Check | Form::List | Form::Csv, .. } => Some("--check, --list and --csv: expected FILE, found none"),
        Options { sizes: Some(_), given: Some(_), .. } => Some("--sizes: expected no --words or --memory, which have sizes"),
        Options { file: Some(file), given: Some(Given::Words(words) | Given::Memory(words)), .. } if file == "-" && words == "-" => {
            Some("expected one of the list and the tables on standard input, found both")
        }
        Options { why: true, .. } if !explained => Some("--why: expected no --list or --picture"),
        Options { dump: true, .. } if !dumped => Some("--dump: expected no --csv, --list, --check or --picture"),
        _ => None,
    };
    wrong.map_or(Ok(o), |wrong| Err(wrong.to_string()))
}
