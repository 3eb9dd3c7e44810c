//! Numbers of every written form.

use crate::random::Random;

/// A number without its sign.
pub fn number(random: &mut Random) -> String {
    let mut text = match random.below(20) {
        0..=6 => random.below(12).to_string(),
        7..=11 => format!("{}.{}", random.below(4), random.below(100)),
        12 => tie(random),
        13 => format!("{}.{}", digits(random, 1, 10), digits(random, 1, 9)),
        14 => digits(random, 1, 10),
        15 => format!("0.{}", digits(random, 1, 9)),
        16 => random.pick(&["0", "00", "0.0", "007", "00.50", "0000000000", "0.000000000"]).into(),
        17 => random.pick(&["16777216", "16777217", "0.000000119", "0.00000012", "0.1"]).into(),
        _ => random.pick(&["1", "0.5", "100", "0.25", "2", "1.0", "10"]).into(),
    };
    if random.chance(12) {
        text.push('s');
    }
    text
}

/// A number of 02 (n) without its sign: long, with an exponent, among the very
/// small ones, or near the step to infinity.
pub fn long(random: &mut Random) -> String {
    let mut text = match random.below(9) {
        0 | 1 => format!("{}.{}", digits(random, 1, 40), digits(random, 1, 40)),
        2 | 3 => format!("{}.{}{}", random.below(10), digits(random, 1, 3), power(random)),
        4 => format!("{}{}", digits(random, 1, 40), power(random)),
        5 => format!("{}.{}{}", digits(random, 1, 40), digits(random, 1, 40), power(random)),
        6 => format!("{}e-{}", random.between(1, 999_999), random.between(38, 53)),
        7 => digits(random, 11, 40),
        _ => (u128::MAX - (1 << 103) + random.pick(&[0, 1, 1, 2])).to_string(),
    };
    if random.chance(12) {
        text.push('s');
    }
    text
}

/// An exponent.
fn power(random: &mut Random) -> String {
    let digits = if random.chance(50) { random.below(10).to_string() } else { format!("{:02}", random.below(100)) };
    format!("{}{}{digits}", random.pick(&["e", "E"]), random.pick(&["", "+", "-", "-"]))
}

fn digits(random: &mut Random, low: usize, high: usize) -> String {
    let count = random.between(low, high);
    (0..count).map(|_| (b'0' + random.below(10) as u8) as char).collect()
}

/// A number in the middle of two f32, or one unit of its last digit beside it.
fn tie(random: &mut Random) -> String {
    let odd = (1u64 << 24) + 2 * random.below(1 << 23) as u64 + 1;
    let point = random.below(10) as u32;
    // odd / 2^point, written with `point` digits after the point
    let scaled = odd as u128 * 5u128.pow(point);
    let scaled = scaled + random.pick(&[0, 0, 1, 2]) - 1 + random.pick(&[1, 1, 0]);
    let whole = scaled / 10u128.pow(point);
    if point == 0 {
        let shifted = whole << random.below(9);
        return shifted.to_string();
    }
    format!("{whole}.{:0width$}", scaled % 10u128.pow(point), width = point as usize)
}

/// A whole number that `parse_uint` takes.
pub fn whole(random: &mut Random) -> String {
    let mut text = match random.below(12) {
        0..=6 => random.below(9).to_string(),
        7 => "4294967295".to_string(),
        8 => format!("00{}", random.below(100)),
        9 => (random.next() as u32).to_string(),
        _ => random.between(1, 64).to_string(),
    };
    if random.chance(8) {
        text.push('s');
    }
    text
}

/// A whole number that `parse_uint` refuses.
pub fn wrong_whole(random: &mut Random) -> Vec<&'static str> {
    match random.below(7) {
        0 => vec!["-", "1"],
        1 => vec!["-", "0"],
        2 => vec!["4294967296"],
        3 => vec!["9999999999s"],
        4 => vec!["1.0"],
        5 => vec!["-", "x"],
        _ => vec!["-", "2.5"],
    }
}
