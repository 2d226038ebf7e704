//! Operands of sums and differences.

use super::field::{double_bits, scalar, sound_mark_of};
use crate::peer::Value;
use crate::random::Random;

/// The relative and the absolute unit type of each pair.
const PAIRS: [[u8; 2]; 4] = [[3, 4], [16, 17], [23, 24], [25, 26]];

/// Two scalars to add or subtract.
pub fn operands(random: &mut Random) -> [Value; 2] {
    let units = match random.share(&[55, 20, 25]) {
        0 => {
            let pair = random.pick(&PAIRS);
            [random.pick(&pair), random.pick(&pair)]
        }
        1 => [0; 2].map(|_| {
            let pair = random.pick(&PAIRS);
            random.pick(&pair)
        }),
        _ => [known_unit(random), known_unit(random)],
    };
    let bits = doubles(random);
    let mut values = [0, 1].map(|k| {
        let mut value = Value { kind: 10, bits: bits[k], ..Value::default() };
        sound_mark_of(random, units[k], &mut value);
        value
    });
    for value in &mut values {
        match random.share(&[88, 5, 3, 2, 2]) {
            1 => *value = scalar(random),
            2 => value.kind = random.pick(&[5, 9, 11, 12, 26, 255]),
            3 => value.display = random.byte(),
            4 => value.currency = random.pick(&[0, 1, 840, 978, 65_535]),
            _ => {}
        }
    }
    values
}

/// Every unit type there is as often as every other.
fn known_unit(random: &mut Random) -> u8 {
    match random.index(36) as u8 {
        unit @ 0..=28 => unit,
        money => money - 29 + 100,
    }
}

/// The bits of two doubles, often ones whose sum shows how it is rounded.
fn doubles(random: &mut Random) -> [u64; 2] {
    let one = match random.share(&[60, 40]) {
        0 => random.bits() & !(1 << 62) | (1 << 61),
        _ => double_bits(random),
    };
    let near = |random: &mut Random| one ^ (random.below(2) << 63);
    let two = match random.share(&[22, 26, 12, 10, 10, 8, 2, 10]) {
        0 => double_bits(random),
        // Half a unit of the last place, exactly, a little more, a little less.
        1 => beside(random, one, 53),
        2 => {
            let apart = random.between(50, 66);
            beside(random, one, apart)
        }
        // The same size or one next to it, so that much cancels.
        3 => near(random),
        4 => near(random).wrapping_add(random.below(5)).wrapping_sub(2),
        // Both near the greatest, both zero, or both near the least.
        5 => return [0; 2].map(|_| greatest(random)),
        6 => return [0; 2].map(|_| random.below(2) << 63),
        _ => return [0; 2].map(|_| random.below(1 << 54) | (random.below(2) << 63)),
    };
    if random.chance(50) {
        [one, two]
    } else {
        [two, one]
    }
}

/// A double whose exponent is so much less, of few or of nearly all bits.
fn beside(random: &mut Random, one: u64, apart: u64) -> u64 {
    let exponent = ((one >> 52) & 0x7FF).saturating_sub(apart);
    let most = (1 << 52) - 1;
    let any = random.below(1 << 52);
    let fraction = random.pick(&[0, 0, 0, 1, 1 << 51, most, most - 1, any]);
    (random.below(2) << 63) | (exponent << 52) | fraction
}

/// A double at the greatest one, or one that decides whether the sum is above it.
fn greatest(random: &mut Random) -> u64 {
    let sign = random.below(2) << 63;
    let most: u64 = 0x7FEF_FFFF_FFFF_FFFF;
    let half = (1023 + 970) << 52;
    sign | match random.index(4) {
        0 => most - random.below(3),
        1 => half + random.below(3) - 1,
        2 => (random.between(2040, 2046) << 52) | random.below(1 << 52),
        _ => random.pick(&[0x7FE0_0000_0000_0000, 0x7FF0_0000_0000_0000, half]),
    }
}
