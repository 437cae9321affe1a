//! Print settings, and the bytes that they stand in: three fields of a tag, a length of two bytes, the high one
//! first, and a content of one byte.

use crate::print::Format;
use crate::refusal::{Refusal, Result, LAYOUT, RANGE, SHORT_OUTPUT, VERSION};

pub const RECORD_LEN: usize = 12;
pub const MOST_STEP: usize = 8;
const VERSION_TAG: u8 = 1;
const STEP_TAG: u8 = 2;
const FORM_TAG: u8 = 3;
const CONTENT_LEN: u16 = 1;
const ONLY_VERSION: u8 = 1;
const STEP_PLACE: usize = 7;
const FORM_PLACE: usize = 11;

#[derive(Clone, Copy, Debug, PartialEq, Eq)]
pub enum Form {
    OneLine,
    Broken,
}

/// The spaces of an indent, and the form of expressions, in a program of function bodies and axioms.
#[derive(Clone, Copy, Debug, PartialEq, Eq)]
pub struct Settings {
    pub step: usize,
    pub form: Form,
}

impl Settings {
    pub const DEFAULT: Settings = Settings { step: 2, form: Form::Broken };

    /// Refusal 11: the step is judged before the form.
    pub fn new(step: u64, form: u64) -> Result<Settings> {
        if !(1..=MOST_STEP as u64).contains(&step) {
            return Err(Refusal::new(RANGE, STEP_PLACE));
        }
        let form = match form {
            0 => Form::OneLine,
            1 => Form::Broken,
            _ => return Err(Refusal::new(RANGE, FORM_PLACE)),
        };
        Ok(Settings { step: step as usize, form })
    }

    /// The settings that a record holds.
    pub fn read(bytes: &[u8]) -> Result<Settings> {
        let mut fields = Fields { bytes, at: 0 };
        let version = fields.field(VERSION_TAG)?;
        let step = fields.field(STEP_TAG)?;
        let form = fields.field(FORM_TAG)?;
        fields.end()?;
        if version != ONLY_VERSION {
            return Err(Refusal::new(VERSION, 0));
        }
        Settings::new(step.into(), form.into())
    }

    /// The format of an expression whose lines start from an indent.
    pub fn format(self, indent: usize) -> Format {
        match self.form {
            Form::OneLine => Format::SingleLine,
            Form::Broken => Format::MultipleLines(indent),
        }
    }
}

/// The record of a step and a form, of at most `limit` bytes.
pub fn write_settings(step: u64, form: u64, limit: usize) -> Result<Vec<u8>> {
    let settings = Settings::new(step, form)?;
    let mut record = Vec::new();
    let contents = [ONLY_VERSION, settings.step as u8, settings.form as u8];
    for (tag, content) in [VERSION_TAG, STEP_TAG, FORM_TAG].into_iter().zip(contents) {
        record.push(tag);
        record.extend_from_slice(&CONTENT_LEN.to_be_bytes());
        record.push(content);
    }
    if limit < record.len() {
        return Err(Refusal::new(SHORT_OUTPUT, 0));
    }
    Ok(record)
}

/// What is left of a record, read field by field.
struct Fields<'b> {
    bytes: &'b [u8],
    at: usize,
}

impl Fields<'_> {
    /// The content of the field with a tag.
    fn field(&mut self, tag: u8) -> Result<u8> {
        let [high, low] = CONTENT_LEN.to_be_bytes();
        for fixed in [tag, high, low] {
            if self.bytes.get(self.at) != Some(&fixed) {
                return self.refused();
            }
            self.at += 1;
        }
        match self.bytes.get(self.at) {
            Some(&content) => {
                self.at += 1;
                Ok(content)
            }
            None => self.refused(),
        }
    }

    fn end(&self) -> Result<()> {
        if self.at < self.bytes.len() {
            return self.refused();
        }
        Ok(())
    }

    fn refused<T>(&self) -> Result<T> {
        Err(Refusal::new(LAYOUT, self.at))
    }
}
