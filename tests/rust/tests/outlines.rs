//! Outlines and numbers of names on seeded cases, against plain definitions: the datatypes as a table, with a list of
//! the kinds that are still expected; an end found anew for each word; names compared one by one.

use b3_compare::generate::{random_program, NAMES};
use b3_compare::numbering::number_spans;
use b3_compare::on_deep_stack;
use b3_compare::random::Random;
use b3_compare::words::{decode_program, encode_program, outline_program, Kind};

const CASES: u64 = 1000;
const SEED: u64 = 11;

/// The fields of what begins with a word where a kind is expected; none where the word doesn't fit.
fn fields(kind: Kind, word: u32) -> Option<Vec<Kind>> {
    use Kind::*;
    let items = |content: &[Kind]| match word {
        0 => Some(Vec::new()),
        1 => Some(content.to_vec()),
        _ => None,
    };
    match kind {
        SecondWord => Some(vec![]),
        Name | Natural => Some(vec![SecondWord]),
        Bool => (word <= 1).then(Vec::new),
        Operator => (1..=16).contains(&word).then(Vec::new),
        Mode => (1..=3).contains(&word).then(Vec::new),
        Expr => EXPRS.get((word as usize).wrapping_sub(1)).map(|fields| fields.to_vec()),
        Stmt => STMTS.get((word as usize).wrapping_sub(21)).map(|fields| fields.to_vec()),
        AExpr => [[Expr], [Stmt]].get((word as usize).wrapping_sub(1)).map(|fields| fields.to_vec()),
        OptionName => items(&[Name]),
        OptionExpr => items(&[Expr]),
        OptionStmt => items(&[Stmt]),
        OptionDefinition => items(&[Exprs, Expr]),
        Names => items(&[Name, Names]),
        Exprs => items(&[Expr, Exprs]),
        Bindings => items(&[Name, Name, Bindings]),
        Patterns => items(&[Exprs, Patterns]),
        ClosureBindings => items(&[Name, Bindings, Expr, ClosureBindings]),
        ClosureProperties => items(&[Patterns, Expr, ClosureProperties]),
        Stmts => items(&[Stmt, Stmts]),
        CallArguments => items(&[Mode, Expr, CallArguments]),
        Cases => items(&[Expr, Stmt, Cases]),
        AExprs => items(&[AExpr, AExprs]),
        Taggers => items(&[Name, Name, Taggers]),
        FParameters => items(&[Name, Bool, Name, FParameters]),
        Functions => items(&[Name, FParameters, Name, OptionName, OptionDefinition, Functions]),
        Axioms => items(&[Names, Expr, Axioms]),
        PParameters => items(&[Name, Mode, Name, OptionExpr, PParameters]),
        Procedures => items(&[Name, PParameters, AExprs, AExprs, OptionStmt, Procedures]),
    }
}

const EXPRS: [&[Kind]; 10] = {
    use Kind::*;
    [
        &[Bool],
        &[Natural],
        &[Name, Name],
        &[Name, Bool],
        &[Operator, Exprs],
        &[Name, Exprs],
        &[Name, Expr],
        &[Name, OptionName, Expr, Expr],
        &[Bool, Bindings, Patterns, Expr],
        &[ClosureBindings, Name, Name, ClosureProperties],
    ]
};

const STMTS: [&[Kind]; 18] = {
    use Kind::*;
    [
        &[Name, Bool, OptionName, OptionExpr, OptionExpr, Stmt],
        &[Name, Expr],
        &[Names],
        &[Stmts],
        &[Name, CallArguments],
        &[Expr],
        &[Expr],
        &[Expr],
        &[Expr],
        &[Name, Name, Stmt],
        &[Stmts],
        &[Expr, Stmt, Stmt],
        &[Cases],
        &[AExprs, Stmt],
        &[Name, Stmt],
        &[OptionName],
        &[],
        &[Expr],
    ]
};

const PROGRAM: [Kind; 5] = [Kind::Names, Kind::Taggers, Kind::Functions, Kind::Axioms, Kind::Procedures];

/// The kinds of the words where these are expected, as far as the words fit.
fn kinds(expected: &[Kind], words: &[u32]) -> Vec<Kind> {
    let mut stack: Vec<Kind> = expected.iter().rev().copied().collect();
    let mut passed = Vec::new();
    for &word in words {
        let Some(kind) = stack.pop() else { break };
        let Some(fields) = fields(kind, word) else { break };
        passed.push(kind);
        stack.extend(fields.into_iter().rev());
    }
    passed
}

fn random_table(random: &mut Random, fuel: usize) -> Vec<u32> {
    encode_program(NAMES, &random_program(random, fuel))
}

#[test]
fn outlines_are_the_plain_ones() {
    on_deep_stack(|| {
        for index in 0..CASES {
            let words = random_table(&mut Random::new(SEED, index), index as usize % 60);
            let outline = outline_program(NAMES.len(), &words).expect("they are a program's words");
            let plain = kinds(&PROGRAM, &words);
            assert_eq!(outline.kinds, plain.iter().map(|&kind| kind as u16).collect::<Vec<_>>());
            let end = |place: usize| (place + kinds(&[plain[place]], &words[place..]).len()) as u16;
            assert_eq!(outline.ends, (0..words.len()).map(end).collect::<Vec<_>>());
        }
    });
}

#[test]
fn outlines_are_refused_as_decoding_is() {
    on_deep_stack(|| {
        for index in 0..CASES {
            let random = &mut Random::new(SEED + 1, index);
            let mut words = random_table(random, index as usize % 40);
            let place = random.below(words.len());
            match random.below(3) {
                0 => words.truncate(place),
                1 => words[place] = random.below(40) as u32,
                _ => words.insert(place, random.below(3) as u32),
            }
            let outline = outline_program(NAMES.len(), &words).map(|outline| outline.kinds.len());
            assert_eq!(outline, decode_program(NAMES, &words).map(|_| words.len()));
        }
    });
}

#[test]
fn numbers_are_the_plain_ones() {
    for index in 0..CASES {
        let random = &mut Random::new(SEED + 2, index);
        let letters = random.between(1, 3);
        let text: Vec<u8> = (0..random.below(40)).map(|_| b'a' + random.below(letters) as u8).collect();
        let spans: Vec<u32> = (0..random.below(80)).map(|_| random.below(text.len() + 3) as u32).collect();
        let mut distinct: Vec<Vec<u8>> = Vec::new();
        let mut numbers = Vec::new();
        for span in spans.chunks_exact(2) {
            let name: Vec<u8> = text.iter().copied().skip(span[0] as usize).take(span[1] as usize).collect();
            let number = distinct.iter().position(|seen| *seen == name).unwrap_or(distinct.len());
            if number == distinct.len() {
                distinct.push(name);
            }
            numbers.push(number as u16);
        }
        assert_eq!(number_spans(&text, &spans), (numbers, distinct.len()));
    }
}
