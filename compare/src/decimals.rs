//! Texts to read as numbers, in families: what the grammar, the reach and the nearest double could
//! get wrong.
use crate::random::Random;
use crate::texts::{self, Text};

const SIGNS: [&str; 5] = ["", "+", "-", "--", "+-"];
const LETTERS: &[u8] = b"0123456789.+-eE";

/// The edges and every family, each text once.
pub fn all() -> Vec<Text> {
    texts::distinct([edges(), families().concat()].concat())
}

pub fn families() -> [Vec<Text>; 11] {
    [
        short(),
        words(),
        forms(),
        counted_digits(),
        around_a_million(),
        zeros(),
        decimals(),
        near_halfway(),
        letters_of_the_grammar(),
        any_bytes(),
        damaged(),
    ]
}

/// Texts that stand right at a limit, or right past it.
pub fn edges() -> Vec<Text> {
    let texts = "0 -0 +0 0.0 -0.0 5. .5 -.5 +5. . - + -. 0,5 1e3 1E+3 1e 1e+ e3 .e3 5.e3 .5e3 \
        inf -inf +INF infinity nan NaN -nan infinit nano 1.5f 1_000 0x10 1..5 1.5.5 --1 +-1 \
        999999.999999999 999999.9999999999 999999.9995 1000000 -1000000 +1000000. 1000000.0 \
        1000000.00000000 1000000.000000000 1000000.00000001 -1000000.00000001 1000000.1 1000001 \
        000000001000000 0000000001000000 000000001000001 12345.6789012345 12345.67890123456 \
        123456.789012345 123456.7890123456 .123456789012345 .1234567890123456 \
        0.00000000000001 0.000000000000001 000000000000000 0000000000000000 999999999999999 \
        0.1 0.2 0.3 1.005 2.675 12.345 -12.345 0.000 -0.000 -0.0004";
    texts.split_whitespace().map(Text::from).collect()
}

/// Every text of at most five bytes over the letters that decide the grammar.
fn short() -> Vec<Text> {
    texts::exhaustive(b"01.-+e,naif", 5)
}

/// The words in every mixture of small and capital letters, cut short, and with a byte too many.
fn words() -> Vec<Text> {
    let mut texts = Vec::new();
    for word in ["inf", "infinity", "nan"] {
        for spelled in texts::in_every_case(word) {
            texts.extend(SIGNS.map(|sign| [sign.as_bytes(), &spelled].concat()));
        }
        for place in 0..=word.len() {
            let (before, after) = word.split_at(place);
            texts.push(Text::from(before));
            for extra in ["i", "f", "n", "t", "y", "0", "1", ".", "e", "+", "-", " "] {
                texts.push([before, extra, after].concat().into_bytes());
            }
        }
    }
    texts
}

/// Every sign with every body and every exponent, good and bad.
fn forms() -> Vec<Text> {
    let bodies = [
        "", "0", "5", "05", "12", "5.", ".5", ".", "1.5", "00.00", "..", "1..2", "1.2.3", "1,5",
        "1_0", "0x1", " 1", "1 ",
    ];
    let exponents = [
        "", "e", "E", "e3", "E3", "e+3", "E-3", "e+", "e-", "e++3", "e3.", "e3.5", "e 3", "ee3",
        "e400", "e-400", "e9999999", "f3", "d3",
    ];
    let mut texts = Vec::new();
    for sign in SIGNS {
        for body in bodies {
            texts.extend(exponents.map(|exponent| [sign, body, exponent].concat().into_bytes()));
        }
    }
    texts
}

/// One digit to 17, some of them leading zeros, with the point at every place and with none.
fn counted_digits() -> Vec<Text> {
    let mut random = Random::new(1);
    let mut texts = Vec::new();
    for turn in 0..4_000 {
        let fewest = if turn % 4 == 0 { 1 } else { 14 };
        let count = fewest + random.below(18 - fewest);
        let zeros = random.below(count + 1);
        let mut digits = vec![b'0'; zeros as usize];
        digits.extend((zeros..count).map(|_| digit(&mut random)));
        let sign = random.pick(&SIGNS[..3]).as_bytes();
        texts.push([sign, &digits].concat());
        for place in 0..=digits.len() {
            let (whole, fraction) = digits.split_at(place);
            texts.push([sign, whole, b".", fraction].concat());
        }
    }
    texts
}

fn digit(random: &mut Random) -> u8 {
    random.pick(b"0123456789")
}

/// The whole numbers around 1,000,000 with fractions of zeros, of nines, and of zeros ending in 1.
fn around_a_million() -> Vec<Text> {
    let mut texts = Vec::new();
    for whole in 999_998..=1_000_002 {
        for places in 0..=10 {
            let zeros = "0".repeat(places);
            let nines = "9".repeat(places);
            for fraction in [zeros.clone(), nines, zeros + "1"] {
                for sign in &SIGNS[..3] {
                    texts.push(format!("{sign}{whole}.{fraction}").into_bytes());
                    texts.push(format!("{sign}0{whole}.{fraction}").into_bytes());
                }
            }
        }
    }
    texts
}

/// Nothing but zeros: what is left is the sign.
fn zeros() -> Vec<Text> {
    let mut texts = Vec::new();
    for sign in &SIGNS[..3] {
        for whole in 0..=17 {
            texts.push(format!("{sign}{}", "0".repeat(whole)).into_bytes());
            for fraction in 0..=17 - whole {
                texts.push(format!("{sign}{:0<whole$}.{:0<fraction$}", "", "").into_bytes());
            }
        }
    }
    texts
}

/// Decimals as files have them, with up to ten places.
fn decimals() -> Vec<Text> {
    let mut random = Random::new(2);
    (0..80_000).map(|_| decimal(&mut random)).collect()
}

fn decimal(random: &mut Random) -> Text {
    let sign = random.pick(&["", "", "-", "-", "+"]);
    let greatest = random.pick(&[10, 100, 1000, 10_000, 1_000_001]);
    let whole = random.below(greatest);
    let places = random.pick(&[0, 1, 2, 3, 3, 3, 3, 4, 5, 6, 7, 8, 9, 10]);
    let fraction: String = (0..places).map(|_| char::from(digit(random))).collect();
    format!("{sign}{whole}.{fraction}").into_bytes()
}

/// Fifteen digits whose decimal lies almost halfway between two doubles, and one up and down.
fn near_halfway() -> Vec<Text> {
    let mut random = Random::new(3);
    let mut texts = Vec::new();
    while texts.len() < 9_000 {
        let digits = 100_000_000_000_000 + random.below(899_999_999_999_999);
        let places = 9 + random.below(7) as usize;
        if is_near_halfway(digits, places as u32) {
            for digits in digits - 1..=digits + 1 {
                let digits = digits.to_string();
                let (whole, fraction) = digits.split_at(15 - places);
                texts.push(format!("{whole}.{fraction}").into_bytes());
            }
        }
    }
    texts
}

/// Whether digits / 10^places is within a thousandth of the doubles' spacing of halfway.
fn is_near_halfway(digits: u64, places: u32) -> bool {
    let scaled = u128::from(digits) << 60;
    let power = 10u128.pow(places);
    // A double has 53 bits: the quotient's leading bit and 52 more.
    let spacing = power << ((scaled / power).ilog2() - 52);
    (2 * (scaled % spacing)).abs_diff(spacing) < spacing / 500
}

fn letters_of_the_grammar() -> Vec<Text> {
    texts::random(Random::new(5), 30_000, 18, |random| random.pick(LETTERS))
}

/// Each byte alone, before, in and after a number, and random runs of all bytes.
fn any_bytes() -> Vec<Text> {
    let mut texts = texts::random(Random::new(6), 15_000, 8, |random| random.bits() as u8);
    for byte in 0..=255 {
        for (before, after) in [("", ""), ("", "5"), ("5", ""), ("1", "5")] {
            texts.push([before.as_bytes(), &[byte], after.as_bytes()].concat());
        }
    }
    texts
}

/// Decimals with one byte changed, put in or left out.
fn damaged() -> Vec<Text> {
    let mut random = Random::new(4);
    let mut texts = Vec::new();
    for _ in 0..40_000 {
        let text = decimal(&mut random);
        texts.push(texts::damaged(&mut random, text, LETTERS, |random| {
            random.bits() as u8
        }));
    }
    texts
}
