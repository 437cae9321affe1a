//! Judgements on seeded cases, against a plain definition over the outline: at each place of the words each rule is
//! asked anew, and a label is looked for among all statements before it.

use b3_compare::generate::{random_flow, NAMES};
use b3_compare::judge::{Breach, Rule, Verdict};
use b3_compare::random::Random;
use b3_compare::words::{encode_program, outline_program, Kind, Outline};
use b3_compare::{judge_program, on_deep_stack};

const CASES: u64 = 2000;
const SEED: u64 = 13;
/// A longer table is passed over.
const MOST_WORDS: usize = 2_000;

struct Table<'w> {
    words: &'w [u32],
    outline: Outline,
}

impl Table<'_> {
    fn is_kind(&self, kind: Kind, place: usize) -> bool {
        self.outline.kinds[place] == kind as u16
    }

    fn end(&self, place: usize) -> usize {
        self.outline.ends[place].into()
    }

    /// The constructor's word of the statement that begins at a place.
    fn statement(&self, place: usize) -> Option<u32> {
        self.is_kind(Kind::Stmt, place).then(|| self.words[place])
    }

    /// Whether a procedure begins at a place, whose last field is the option of a body.
    fn lacks_body(&self, place: usize) -> bool {
        let begins = place > 0 && self.is_kind(Kind::Procedures, place - 1) && self.words[place - 1] == 1;
        begins && {
            let body = self.end(self.end(self.end(self.end(place))));
            assert!(self.is_kind(Kind::OptionStmt, body));
            self.words[body] == 0
        }
    }

    fn name(&self, place: usize) -> &'static [u8] {
        let start = self.words[place] as usize;
        &NAMES[start..start + self.words[place + 1] as usize]
    }

    /// Whether a statement of that label begins before a place and ends after it.
    fn is_inside(&self, label: &[u8], place: usize) -> bool {
        (0..place).any(|around| {
            self.statement(around) == Some(35) && place < self.end(around) && self.name(around + 1) == label
        })
    }

    fn broken(&self, place: usize) -> Option<Rule> {
        match self.statement(place) {
            Some(28 | 30 | 31 | 38) => Some(Rule::Statements),
            Some(34) if self.words[place + 1] == 0 => Some(Rule::Invariants),
            Some(36) if self.words[place + 1] == 1 => {
                (!self.is_inside(self.name(place + 2), place)).then_some(Rule::Labels)
            }
            Some(_) => None,
            None => self.lacks_body(place).then_some(Rule::Bodies),
        }
    }
}

fn plain(words: &[u32]) -> Verdict {
    let outline = outline_program(NAMES.len(), words).expect("they are a program's words");
    let table = Table { words, outline };
    let mut breaches =
        (0..words.len()).filter_map(|place| table.broken(place).map(|rule| Breach { rule, place }));
    breaches.next().map_or(Verdict::Fits, Verdict::Breaks)
}

#[test]
fn judgements_are_the_plain_ones() {
    on_deep_stack(|| {
        let mut judged = 0;
        for index in 0..CASES {
            let words =
                encode_program(NAMES, &random_flow(&mut Random::new(SEED, index), index as usize % 60));
            if words.len() <= MOST_WORDS {
                judged += 1;
                assert_eq!(judge_program(NAMES, &words), Ok(plain(&words)), "{words:?}");
            }
        }
        assert!(judged > 1_000, "few tables are short");
    });
}
