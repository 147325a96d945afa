//! Arbitrary byte strings.

use super::sound::Sheet;
use crate::compare::sheets::flipped_anywhere;
use crate::random::Random;

/// Of so many strings drawn without regard to a sound one, one is long.
const LONG_ONE_IN: usize = 40;
const LONG: usize = 70_000;
const SHORT: usize = 40;
const MIDDLE: usize = 700;

/// Bytes of any length, or a sound string changed: random behind its header, with a few bits flipped, cut, lengthened,
/// or going on as another.
pub fn arbitrary(random: &mut Random, sound: &Sheet, other: &Sheet) -> Vec<u8> {
    let bytes = &sound.bytes[..];
    match random.below(12) {
        0 | 1 => of_any_length(random),
        2 | 3 => behind_the_header(random, sound),
        4..=6 => a_few_bits_flipped(random, bytes),
        7 => bytes[..random.below(bytes.len() + 1)].to_vec(),
        8 => [bytes, &of_any_length(random)].concat(),
        9 | 10 => spliced(random, bytes, &other.bytes),
        _ => {
            let spliced = spliced(random, bytes, &other.bytes);
            a_few_bits_flipped(random, &spliced)
        }
    }
}

fn of_any_length(random: &mut Random) -> Vec<u8> {
    let most = if random.one_in(LONG_ONE_IN) {
        LONG
    } else {
        *random.pick(&[1, SHORT, SHORT, MIDDLE])
    };
    let length = random.below(most);
    random.bytes(length)
}

fn behind_the_header(random: &mut Random, sound: &Sheet) -> Vec<u8> {
    let header = sound.header.min(sound.bytes.len());
    let any = of_any_length(random);
    let as_long = random.bytes(sound.bytes.len() - header);
    let behind = *random.pick(&[&any, &as_long, &as_long]);
    [&sound.bytes[..header], behind].concat()
}

fn a_few_bits_flipped(random: &mut Random, bytes: &[u8]) -> Vec<u8> {
    if bytes.is_empty() {
        return vec![];
    }
    let flips = *random.pick(&[1, 1, 2, 3, 8]);
    flipped_anywhere(random, bytes, flips)
}

/// The beginning of the one and the end of the other, for the most part from the same place on.
fn spliced(random: &mut Random, bytes: &[u8], other: &[u8]) -> Vec<u8> {
    let place = random.below(bytes.len() + 1);
    let elsewhere = random.below(other.len() + 1);
    let from = *random.pick(&[place.min(other.len()), place.min(other.len()), elsewhere]);
    [&bytes[..place], &other[from..]].concat()
}

#[cfg(test)]
mod tests {
    use super::*;

    #[test]
    fn strings_are_empty_long_sound_in_their_header_and_neither() {
        let mut random = Random::new(1);
        let [sound, other] = [3, 9].map(|byte| Sheet {
            bytes: vec![byte; 50],
            header: 6,
        });
        let draws: Vec<_> = (0..3000)
            .map(|_| arbitrary(&mut random, &sound, &other))
            .collect();
        let often = |wanted: &dyn Fn(&[u8]) -> bool| {
            draws.iter().filter(|bytes| wanted(bytes)).count() >= 20
        };
        assert!(often(&|bytes| bytes.is_empty()));
        assert!(often(&|bytes| bytes.len() > 10_000));
        assert!(often(
            &|bytes| bytes.len() == 50 && bytes.starts_with(&[3; 6])
        ));
        assert!(often(
            &|bytes| bytes.len() > 1 && bytes.iter().all(|byte| *byte == 3)
        ));
        assert!(often(
            &|bytes| bytes.starts_with(&[3; 6]) && bytes.ends_with(&[9; 6])
        ));
        assert!(often(&|bytes| bytes.len() > 6 && !bytes.starts_with(&[3])));
    }
}
