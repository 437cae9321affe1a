//! Print settings, and bytes that settings are read from.

use crate::random::Random;
use crate::settings::{Form, Settings, MOST_STEP, RECORD_LEN};

pub fn random_settings(random: &mut Random) -> Settings {
    let form = if random.once_in(2) { Form::OneLine } else { Form::Broken };
    Settings { step: random.between(1, MOST_STEP), form }
}

/// A record, once in so many times with up to three bytes changed, left out or put in.
pub fn random_record(random: &mut Random, times: usize) -> Vec<u8> {
    let Settings { step, form } = random_settings(random);
    let mut bytes = vec![1, 0, 1, 1, 2, 0, 1, step as u8, 3, 0, 1, form as u8];
    if random.once_in(times) {
        (0..random.between(1, 3)).for_each(|_| damage(random, &mut bytes));
    }
    bytes
}

fn damage(random: &mut Random, bytes: &mut Vec<u8>) {
    let at = random.below(bytes.len());
    match random.below(8) {
        0 => bytes.truncate(at),
        1 => bytes.insert(at, byte(random)),
        2 => bytes.push(byte(random)),
        _ => {
            if let Some(place) = bytes.get_mut(at) {
                *place = byte(random);
            }
        }
    }
}

/// Once in two one of those that a record has.
fn byte(random: &mut Random) -> u8 {
    let bound = if random.once_in(2) { 4 } else { 256 };
    random.below(bound) as u8
}

/// A step, a form and an output's length, mostly such as are written.
pub fn random_writing(random: &mut Random) -> [usize; 3] {
    [near(random, MOST_STEP), near(random, 1), near(random, RECORD_LEN)]
}

/// A number up to `most` or a little more, and seldom a greater one.
fn near(random: &mut Random, most: usize) -> usize {
    match random.below(8) {
        0 => 256 + random.below(most + 2),
        1 => random.below(1 << 17),
        _ => random.below(most + 3),
    }
}
