//! Texts at each limit: length, depth by each rule, naturals, words, output; and long chains.

use super::depth::{at_depth, at_last_depth, else_ifs};
use super::program;
use crate::random::Random;
use crate::refusal::{OUTPUT_LIMIT, TABLE_LIMIT, TEXT_LIMIT};
use crate::{print_program, read_program};

pub fn text(random: &mut Random) -> Vec<u8> {
    match random.below(20) {
        0 => at_text_length(random),
        1..=6 => at_depth(random),
        7..=11 => at_last_depth(random),
        12 => else_ifs(random),
        13 | 14 => at_natural(random),
        15 | 16 => at_words(random),
        17 => at_output(random),
        _ => chain(random),
    }
}

/// A program and padding to a length next to the limit.
fn at_text_length(random: &mut Random) -> Vec<u8> {
    let text = program(random).text;
    let length = TEXT_LIMIT - 2 + random.below(5);
    let (before, filler, after) = *random.pick(&[
        &("", " ", ""),
        &("", "\n", ""),
        &("//", "c", "\n"),
        &("/*", "c", "*/"),
        &("/*", "c", ""),
        &("type ", "a", " "),
        &("axiom ", "0", "5 "),
        &("axiom |", "x", ":T| "),
        &("axiom ", "!", "a "),
        &("", "type a ", ""),
        &("axiom f(", "a,", "a) "),
    ]);
    let room = length.saturating_sub(text.len() + before.len() + after.len());
    let mut padding = before.as_bytes().to_vec();
    padding.extend(filler.bytes().cycle().take(room - room % filler.len()));
    padding.extend_from_slice(after.as_bytes());
    padding.resize(padding.len() + room % filler.len(), b' ');
    if random.once_in(2) {
        [padding, text].concat()
    } else {
        [text, b" ".to_vec(), padding].concat()
    }
}

fn at_natural(random: &mut Random) -> Vec<u8> {
    let value = u128::from(u64::MAX) - 1 + random.below(4) as u128;
    let digits = match random.below(6) {
        0 => format!("{}{value}", "0".repeat(random.below(40))),
        1 => format!("{value}{}", random.below(10)),
        2 => "9".repeat(random.between(18, 40)),
        3 => format!("{}", value / 10),
        _ => value.to_string(),
    };
    let (before, after) = *random.pick(&[
        &("axiom ", ""),
        &("axiom a ", ""),
        &("axiom |", ":int|"),
        &("axiom f(a, ", ")"),
        &("axiom a", ""),
        &("axiom -", "div 3"),
        &("axiom ", "x"),
        &("axiom (", ""),
        &("procedure p() { check ", " }"),
        &("procedure p() { exit ", " }"),
        &("function f(): T when ", " { 1 }"),
        &("type ", ""),
    ]);
    format!("{before}{digits}{after}").into_bytes()
}

/// A tree whose word count is next to the limit.
fn at_words(random: &mut Random) -> Vec<u8> {
    let target = TABLE_LIMIT - 6 + random.below(12);
    let mut text = match random.below(4) {
        0 => return empty_blocks(target).into_bytes(),
        1 => counted(target, 11, 9, "a", "+a"),
        2 => counted(target, 11, 5, "f(", "a,").replace(",~", ")"),
        _ => counted(target, 9, 7, "true", "*true"),
    };
    if random.once_in(8) {
        text.push_str(" )");
    }
    text.into_bytes()
}

/// `{}` are three words each, `return` two, the procedure round them fourteen.
fn empty_blocks(target: usize) -> String {
    let returns = (0..3).find(|returns| (target - 14 - 2 * returns).is_multiple_of(3)).unwrap_or(0);
    let blocks = (target - 14 - 2 * returns) / 3;
    format!("procedure p() {{ {}{}}}", "return ".repeat(returns), "{}".repeat(blocks))
}

/// An axiom of `base` words and `each` for every `repeated`; `type a` (3) and `!` (4) make up what is left.
/// A `~` marks the expression's end.
fn counted(target: usize, base: usize, each: usize, first: &str, repeated: &str) -> String {
    let left = target - base;
    let (count, types, nots) = (0..8)
        .map(|fewer| left / each - fewer)
        .find_map(|count| {
            let rest = left - count * each;
            (0..4)
                .find(|nots| rest >= 4 * nots && (rest - 4 * nots).is_multiple_of(3))
                .map(|nots| (count, (rest - 4 * nots) / 3, nots))
        })
        .expect("3 and 4 make up every number above 5");
    let end = if repeated.ends_with(',') { "~" } else { "" };
    format!("{}axiom {}{first}{}{end}", "type a ".repeat(types), "!".repeat(nots), repeated.repeat(count))
}

/// Lines far indented, and a name that brings the print's length next to the limit.
fn at_output(random: &mut Random) -> Vec<u8> {
    let depth = random.between(20, 150);
    let lines = (OUTPUT_LIMIT - 2000 - 2 * depth * (depth + 3)) / (4 * depth + 8);
    let body = format!("{}{}{}", "{".repeat(depth), "{}".repeat(lines), "}".repeat(depth));
    let text = format!("procedure p() {body}").into_bytes();
    let print = read_program(&text, TABLE_LIMIT).and_then(|program| print_program(&program, OUTPUT_LIMIT));
    let Ok(print) = print else { return text };
    let target = OUTPUT_LIMIT - 5 + random.below(10);
    let name = target.saturating_sub(print.len() + "\ntype \n".len()).max(1);
    [format!("type {} ", "a".repeat(name)).into_bytes(), text].concat()
}

/// One operator, argument, prefix, statement or declaration many times.
fn chain(random: &mut Random) -> Vec<u8> {
    let (before, each, after) = *random.pick(&[
        &("axiom ", "a <==> ", "a"),
        &("axiom ", "a ==> ", "a"),
        &("axiom ", "a<==", "a"),
        &("axiom ", "a && ", "a"),
        &("axiom ", "a||", "a"),
        &("axiom ", "a+", "a"),
        &("axiom ", "a - ", "a"),
        &("axiom ", "a*", "a"),
        &("axiom ", "1 div ", "a"),
        &("axiom ", "1mod ", "a"),
        &("axiom ", "!", "a"),
        &("axiom ", "- ", "a"),
        &("axiom f(", "a, ", "a)"),
        &("axiom forall x: T pattern ", "a, ", "a b"),
        &("axiom forall ", "x: T, ", "x: T a"),
        &("axiom explains ", "a, ", "a a"),
        &("procedure p() { ", "x := 1 ", "}"),
        &("procedure p() { ", "exit ", "}"),
        &("procedure p() { ", "{} ", "}"),
        &("procedure p() { if ", "case a {} ", "}"),
        &("procedure p() { choose {} ", "or {} ", "}"),
        &("procedure p() { reinit ", "a, ", "a }"),
        &("procedure p() { p(", "out a, ", "a) }"),
        &("procedure p() ", "requires a ", ""),
        &("procedure p() { loop ", "invariant {} ", "{} }"),
        &("", "type a ", ""),
        &("", "function f(): T ", ""),
        &("", "/* /* */ ", ""),
        &("/* ", "/* */ ", "*/"),
    ]);
    let most = (TEXT_LIMIT - 40) / each.len();
    let count = if random.once_in(2) { random.below(most) } else { random.below(most.min(2000)) };
    format!("{before}{}{after}", each.repeat(count)).into_bytes()
}

#[cfg(test)]
mod tests {
    use super::*;
    use crate::generate::ROOMY;
    use crate::outcome::Outcome;
    use crate::{on_deep_stack, tidy};

    /// Texts of one kind stand on both sides of their limit: some are tidied, some refused by `number`.
    fn both_sides(text: fn(&mut Random) -> Vec<u8>, number: u32) {
        on_deep_stack(|| {
            let (mut tidied, mut refused) = (0, 0);
            for index in 0..300 {
                let outcome = Outcome::of(tidy, &text(&mut Random::new(1, index)), ROOMY);
                match outcome.refusal() {
                    None => tidied += 1,
                    Some(refusal) => refused += usize::from(refusal.number == number),
                }
            }
            assert!(tidied > 20 && refused > 20, "{tidied} tidied, {refused} refused {number}");
        });
    }

    #[test]
    fn text_lengths() {
        both_sides(at_text_length, 1);
    }

    #[test]
    fn depths() {
        both_sides(at_depth, 3);
        both_sides(else_ifs, 3);
    }

    #[test]
    fn naturals() {
        both_sides(at_natural, 4);
    }

    #[test]
    fn word_counts() {
        both_sides(at_words, 5);
        both_sides(chain, 5);
    }

    #[test]
    fn outputs() {
        both_sides(at_output, 8);
    }

    #[test]
    fn word_counts_are_exact() {
        for target in TABLE_LIMIT - 6..TABLE_LIMIT + 6 {
            let texts = [
                empty_blocks(target),
                counted(target, 11, 9, "a", "+a"),
                counted(target, 9, 7, "true", "*true"),
            ];
            for text in texts {
                assert_eq!(read_program(text.as_bytes(), TABLE_LIMIT).is_ok(), target <= TABLE_LIMIT);
            }
        }
    }
}
