//! Seeded cases: nothing overflows or panics, the reader's word count is the tree's, and what isn't read back
//! has a known cause.

use b3_compare::escape::escape;
use b3_compare::generate::{case, expression, expression_text, program, random_expression, random_program};
use b3_compare::generate::{random_record, random_settings, random_writing, Source, NAMES, ROOMY};
use b3_compare::outcome::Outcome;
use b3_compare::random::Random;
use b3_compare::readback::{exception, Cause};
use b3_compare::refusal::{INDENT_LIMIT, OUTPUT_LIMIT, TABLE_LIMIT, TEXT_LIMIT};
use b3_compare::words::{decode_expression, decode_program, encode_expression, encode_program};
use b3_compare::{on_deep_stack, print_expression, print_expression_by, print_program, print_program_by};
use b3_compare::{read_expression, read_program, tidy, write_settings, Form, Format, Refusal, Settings};

const CASES: u64 = 2000;
const SEED: u64 = 7;

#[test]
fn programs_are_tidied() {
    on_deep_stack(|| {
        for case in (0..CASES).map(|index| case(SEED, index)) {
            let outcome = Outcome::of(tidy, &case.text, case.out_len);
            assert!(outcome.leaves_the_rest());
            if let (Some(print), Ok(program)) = (outcome.print(), read_program(&case.text, TABLE_LIMIT)) {
                let cause = exception(&program, print).map(|exception| exception.cause);
                assert_ne!(cause, Some(Cause::Unexplained));
            }
        }
    });
}

#[test]
fn word_counts_are_the_trees() {
    on_deep_stack(|| {
        for case in (0..CASES).map(|index| case(SEED, index)) {
            let Ok(program) = read_program(&case.text, TABLE_LIMIT) else { continue };
            let words = encode_program(&case.text, &program);
            assert!(read_program(&case.text, words.len()).is_ok());
            assert!(read_program(&case.text, words.len() - 1).is_err());
            assert_eq!(decode_program(&case.text, &words), Ok(program));
        }
    });
}

/// How many texts of `whole` are read. Before a token of such a text, and at its end, a comment that closes changes
/// nothing, and one that never closes is refused.
fn read_with_comments(
    whole: fn(&mut Random) -> Source<'_>,
    read: fn(&[u8]) -> Result<String, Refusal>,
) -> usize {
    let mut count = 0;
    for index in 0..CASES {
        let random = &mut Random::new(SEED, index);
        let Source { text, starts, random, .. } = whole(random);
        let Ok(tree) = read(&text) else { continue };
        count += 1;
        let whole_line = [&text[..], b"\n"].concat();
        for part in 0..=starts.len().min(8) {
            let start = if part == 0 { whole_line.len() } else { starts[random.below(starts.len())] };
            let (before, after) = whole_line.split_at(start);
            assert_eq!(read(&[before, b"/* /* q */ */", after].concat()).as_ref(), Ok(&tree));
            let unclosed = [before, b"/* /* q */"].concat();
            assert_eq!(read(&unclosed), Err(Refusal::new(12, start)), "{}", escape(&unclosed));
        }
    }
    count
}

#[test]
fn comments_stand_before_each_token() {
    on_deep_stack(|| {
        let programs = read_with_comments(program, |text| {
            read_program(text, TABLE_LIMIT).map(|program| format!("{program:?}"))
        });
        let expressions = read_with_comments(expression, |text| {
            read_expression(text, TABLE_LIMIT).map(|expr| format!("{expr:?}"))
        });
        assert!(programs > 1000 && expressions > 1000, "{programs} programs, {expressions} expressions");
    });
}

/// Texts of `whole` that are read, cut before some of their tokens: how many cuts are read, how many end too soon, and
/// how many end with a name whose mark is cut off, which is refused. There are no others.
fn cuts(whole: fn(&mut Random) -> Source<'_>, read: fn(&[u8]) -> Result<(), Refusal>) -> [usize; 3] {
    let mut counts = [0; 3];
    for index in 0..CASES {
        let random = &mut Random::new(SEED, index);
        let Source { text, starts, random, .. } = whole(random);
        if read(&text).is_err() || starts.len() < 2 {
            continue;
        }
        for _ in 0..starts.len().min(16) {
            let next = random.between(1, starts.len() - 1);
            let (cut, rest) = text.split_at(starts[next]);
            let name = Refusal::new(2, starts[next - 1]);
            counts[match read(cut) {
                Ok(()) => 0,
                Err(refusal) if refusal == Refusal::new(13, cut.len()) => 1,
                Err(refusal) if refusal == name && matches!(rest[0], b':' | b'(') => 2,
                Err(refusal) => panic!("{refusal}: {}", escape(cut)),
            }] += 1;
        }
    }
    counts
}

#[test]
fn texts_cut_before_a_token_end_too_soon() {
    on_deep_stack(|| {
        let programs = cuts(program, |text| read_program(text, TABLE_LIMIT).map(drop));
        assert!(programs[0] > 500 && programs[1] > 5000 && programs[2] > 20, "{programs:?}");
        let expressions = cuts(expression, |text| read_expression(text, TABLE_LIMIT).map(drop));
        assert!(expressions[0] > 500 && expressions[1] > 5000 && expressions[2] == 0, "{expressions:?}");
    });
}

/// Among the cases are texts with an unusable token, with a comment that never closes, and such as end too soon, which
/// alone are refused at their end.
#[test]
fn tokens_comments_and_ends_are_met() {
    let mut numbers = [0; 14];
    for case in (0..CASES).map(|index| case(SEED, index)) {
        if let Err(refusal) = read_program(&case.text, TABLE_LIMIT) {
            numbers[refusal.number as usize] += 1;
            let at_end = refusal.place as usize == case.text.len();
            assert_eq!(refusal.number == 13, at_end, "{refusal}: {}", escape(&case.text));
        }
    }
    assert!(numbers[2] > 500 && numbers[12] > 50 && numbers[13] > 50, "{numbers:?}");
}

#[test]
fn cases_are_the_same_each_time() {
    assert!((0..100).all(|index| case(SEED, index) == case(SEED, index)));
    assert!((0..100).any(|index| case(SEED, index) != case(SEED + 1, index)));
    assert!((0..100).any(|index| case(SEED, index).out_len == ROOMY));
}

#[test]
fn random_trees_are_printed() {
    on_deep_stack(|| {
        for index in 0..CASES {
            let random = &mut Random::new(SEED, index);
            let program = random_program(random, index as usize % 60);
            assert!(print_program(&program, OUTPUT_LIMIT).is_ok());
            let words = encode_program(NAMES, &program);
            assert_eq!(decode_program(NAMES, &words), Ok(program));
        }
    });
}

#[test]
fn random_expressions_are_printed() {
    on_deep_stack(|| {
        for index in 0..CASES {
            let expr = random_expression(&mut Random::new(SEED, index), index as usize % 40);
            let line = print_expression(&expr, Format::SingleLine, OUTPUT_LIMIT).expect("it fits");
            let lines = print_expression(&expr, Format::MultipleLines(255), OUTPUT_LIMIT).expect("it fits");
            assert!(lines.len() >= line.len());
            let words = encode_expression(NAMES, &expr);
            assert_eq!(decode_expression(NAMES, &words), Ok(expr));
        }
    });
}

/// The plain definition of reading a record: its nine fixed bytes one by one, its length, then the three others.
fn read_plainly(bytes: &[u8]) -> Result<(u8, u8), Refusal> {
    const FIXED: [(usize, u8); 9] = [(0, 1), (1, 0), (2, 1), (4, 2), (5, 0), (6, 1), (8, 3), (9, 0), (10, 1)];
    for (place, byte) in FIXED {
        if place < bytes.len() && bytes[place] != byte {
            return Err(Refusal::new(9, place));
        }
    }
    match *bytes {
        [_, _, _, version, _, _, _, step, _, _, _, form] => match (version, step, form) {
            (1, 1..=8, 0 | 1) => Ok((step, form)),
            (1, 1..=8, _) => Err(Refusal::new(11, 11)),
            (1, _, _) => Err(Refusal::new(11, 7)),
            _ => Err(Refusal::new(10, 0)),
        },
        _ => Err(Refusal::new(9, bytes.len().min(12))),
    }
}

#[test]
fn records_are_read_as_the_plain_definition_has_it() {
    for index in 0..10 * CASES {
        let record = random_record(&mut Random::new(SEED, index), 2);
        let read = Settings::read(&record).map(|settings| (settings.step as u8, settings.form as u8));
        assert_eq!(read, read_plainly(&record), "{record:?}");
    }
}

#[test]
fn settings_are_read_as_they_were_written() {
    for index in 0..CASES {
        let random = &mut Random::new(SEED, index);
        let Settings { step, form } = random_settings(random);
        let record = write_settings(step as u64, form as u64, ROOMY).expect("they are in range");
        assert_eq!(Settings::read(&record), Ok(Settings { step, form }));
        let [step, form, room] = random_writing(random);
        let refusal = match (step, form, room) {
            (0 | 9.., _, _) => Some(Refusal::new(11, 7)),
            (_, 2.., _) => Some(Refusal::new(11, 11)),
            (_, _, 0..=11) => Some(Refusal::new(8, 0)),
            _ => None,
        };
        assert_eq!(write_settings(step as u64, form as u64, room).err(), refusal, "{step} {form} {room}");
    }
}

/// A print by a step of 2 with each indent beyond the start made of so many spaces a step.
fn stretched(print: &[u8], start: usize, step: usize) -> Vec<u8> {
    let mut lines = Vec::new();
    for (index, line) in print.split(|&byte| byte == b'\n').enumerate() {
        let spaces = line.iter().take_while(|&&byte| byte == b' ').count();
        let beyond = if index == 0 || line.is_empty() { 0 } else { spaces - start };
        let mut stretched = vec![b' '; spaces - beyond + beyond / 2 * step];
        stretched.extend_from_slice(&line[spaces..]);
        lines.push(stretched);
    }
    lines.join(&b'\n')
}

/// What stands between blanks.
fn words_of(print: &[u8]) -> Vec<&[u8]> {
    print.split(u8::is_ascii_whitespace).filter(|word| !word.is_empty()).collect()
}

/// By every step a program's print is the default one stretched; on one line it has the same between blanks. Both are
/// read back as the default one is.
#[test]
fn programs_are_printed_by_settings() {
    on_deep_stack(|| {
        for index in 0..CASES {
            let text = case(SEED, index).text;
            let Ok(program) = read_program(&text, TABLE_LIMIT) else { continue };
            let Ok(default) = print_program(&program, OUTPUT_LIMIT) else { continue };
            let settings = random_settings(&mut Random::new(SEED, index));
            let Ok(print) = print_program_by(&program, settings, OUTPUT_LIMIT) else {
                assert!(settings.step > 2, "a smaller step makes no longer print");
                continue;
            };
            match settings.form {
                Form::Broken => assert_eq!(print, stretched(&default, 0, settings.step)),
                Form::OneLine => assert_eq!(words_of(&print), words_of(&default)),
            }
            let cause = exception(&program, &print).map(|exception| exception.cause);
            assert_ne!(cause, Some(Cause::Unexplained));
            if cause != Some(Cause::LongPrint) && print.len().max(default.len()) <= TEXT_LIMIT {
                let [read, read_default] = [&print, &default].map(|print| read_program(print, TABLE_LIMIT));
                assert_eq!(read.ok(), read_default.ok());
            }
        }
    });
}

#[test]
fn expressions_are_printed_by_settings() {
    on_deep_stack(|| {
        for index in 0..CASES {
            let random = &mut Random::new(SEED, index);
            let text = expression_text(random);
            let Ok(expr) = read_expression(&text, TABLE_LIMIT) else { continue };
            let settings = random_settings(random);
            let indent = random.below(INDENT_LIMIT + 1);
            let by = print_expression_by(&expr, settings, indent, OUTPUT_LIMIT).expect("it fits");
            let lines = print_expression(&expr, Format::MultipleLines(indent), OUTPUT_LIMIT);
            let default = lines.expect("it fits");
            match settings.form {
                Form::Broken => assert_eq!(by, stretched(&default, indent, settings.step)),
                Form::OneLine => assert_eq!(words_of(&by), words_of(&default)),
            }
            assert_eq!(read_expression(&by, TABLE_LIMIT).ok(), read_expression(&default, TABLE_LIMIT).ok());
        }
    });
}

#[test]
fn random_trees_are_printed_by_settings() {
    let without_spaces =
        |print: Vec<u8>| -> Vec<u8> { print.into_iter().filter(|&byte| byte != b' ').collect() };
    on_deep_stack(|| {
        for index in 0..CASES {
            let random = &mut Random::new(SEED, index);
            let program = random_program(random, index as usize % 60);
            let expr = random_expression(random, index as usize % 40);
            let Settings { step, form } = random_settings(random);
            let indent = random.below(INDENT_LIMIT + 1);
            let programs = [step, 2].map(|step| {
                print_program_by(&program, Settings { step, form }, OUTPUT_LIMIT).expect("it fits")
            });
            let exprs = [step, 2].map(|step| {
                print_expression_by(&expr, Settings { step, form }, indent, OUTPUT_LIMIT).expect("it fits")
            });
            for [by, other] in [programs, exprs].map(|prints| prints.map(without_spaces)) {
                assert_eq!(by, other);
            }
            let line = Settings { step, form: Form::OneLine };
            assert_eq!(
                print_expression_by(&expr, line, indent, OUTPUT_LIMIT),
                print_expression(&expr, Format::SingleLine, OUTPUT_LIMIT)
            );
        }
    });
}
