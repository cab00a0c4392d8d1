//! Lists with their answers, in the form that was asked for.

use std::io::{self, Write};

use shared::calls::Sizes;
use shared::decode::decode;

use crate::arguments::{Form, Options};
use crate::output::{failed, Output};
use crate::run::Answered;
use crate::{csv, dump, faults, json, picture, text};

pub struct Shown<'a> {
    pub options: &'a Options,
    out: &'a mut Output,
    /// Nothing that was asked about is wrong so far.
    good: bool,
    /// Calls, those with an answer in the file, and those of them that differ.
    calls: usize,
    checked: usize,
    differ: usize,
}

impl Shown<'_> {
    pub fn new<'a>(options: &'a Options, out: &'a mut Output) -> Shown<'a> {
        Shown { options, out, good: true, calls: 0, checked: 0, differ: 0 }
    }

    fn line(&mut self, line: impl std::fmt::Display) -> Result<(), String> {
        writeln!(self.out, "{line}").map_err(failed)
    }

    fn lines(&mut self, lines: Vec<String>) -> Result<(), String> {
        lines.iter().try_for_each(|line| self.line(line))
    }

    /// Tables that were given without a list.
    pub fn tables(&mut self, words: Vec<u64>) -> Result<Vec<u64>, String> {
        self.good = faults::fault(&words).is_none();
        match self.options.form {
            Form::Text => self.lines(dump::lines(&words))?,
            Form::Json => self.line(json::tables::object(1, &words))?,
            Form::Csv | Form::List | Form::Check | Form::Picture => (),
        }
        Ok(words)
    }

    /// List number `number` of a file, run: its sizes where they stand there, its calls, and the words after the last.
    pub fn list(&mut self, file: &str, number: usize, sizes: Option<Sizes>, answered: &[Answered], words: &[u64]) -> Result<(), String> {
        self.good &= !answered.iter().any(|a| a.unexplained);
        match self.options.form {
            Form::Text => self.text(number, sizes, answered, words),
            Form::Json => self.json(number, answered, words),
            Form::Csv => {
                let header = (number == 1).then(|| csv::HEADER.to_string());
                self.lines(header.into_iter().chain(answered.iter().map(|a| csv::line(number, a))).collect())
            }
            Form::List => {
                let first = sizes.map(|sizes| format!("sizes {sizes}"));
                self.lines(first.into_iter().chain(text::list(answered)).collect())
            }
            Form::Check => {
                self.check(file, answered);
                Ok(())
            }
            Form::Picture => Ok(()),
        }
    }

    fn text(&mut self, number: usize, sizes: Option<Sizes>, answered: &[Answered], words: &[u64]) -> Result<(), String> {
        if number > 1 {
            self.line("")?;
        }
        self.lines(sizes.map(|sizes| format!("sizes {sizes}")).into_iter().collect())?;
        self.lines(text::lines(answered))?;
        if self.options.dump {
            self.line("")?;
            self.lines(dump::lines(words))?;
        }
        Ok(())
    }

    fn json(&mut self, number: usize, answered: &[Answered], words: &[u64]) -> Result<(), String> {
        answered.iter().try_for_each(|a| self.line(json::calls::object(number, a, self.options.why)))?;
        if self.options.dump { self.line(json::tables::object(number, words)) } else { Ok(()) }
    }

    fn check(&mut self, file: &str, answered: &[Answered]) {
        let differences: Vec<String> = answered.iter().filter_map(|a| text::difference(file, a)).collect();
        differences.iter().for_each(|line| drop(writeln!(io::stderr(), "{line}")));
        self.calls += answered.len();
        self.checked += answered.iter().filter(|a| a.expected.is_some()).count();
        self.differ += differences.len();
    }

    /// What is shown of all lists; false where something that was asked about is wrong.
    pub fn end(mut self, words: &[u64]) -> Result<bool, String> {
        match self.options.form {
            Form::Check if self.checked == 0 => return Err("--check: expected a call with an answer behind ->, found none".to_string()),
            Form::Check => {
                let (calls, checked, differ) = (self.calls, self.checked, self.differ);
                self.line(format!("{calls} calls, {checked} with an answer behind them, {differ} of these differ"))?;
                self.good &= differ == 0;
            }
            Form::Picture => self.picture(words)?,
            Form::Text | Form::Json | Form::Csv | Form::List => (),
        }
        Ok(self.good)
    }

    /// Tables that are not sound have no picture.
    fn picture(&mut self, words: &[u64]) -> Result<(), String> {
        match (faults::fault(words), decode(words)) {
            (None, Some(tables)) => write!(self.out, "{}", picture::svg(&tables)).map_err(failed),
            (fault, _) => {
                let _ = writeln!(io::stderr(), "--picture: expected sound tables, found: {}", fault.unwrap_or_default());
                self.good = false;
                Ok(())
            }
        }
    }
}
