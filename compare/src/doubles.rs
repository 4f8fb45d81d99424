//! Numbers to print, in families: what ties, tiny steps, signs and the reach could get wrong.
use crate::random::Random;

/// The edges and every family, each number once.
pub fn all() -> Vec<f64> {
    let mut numbers = [edges(), families().concat()].concat();
    numbers.sort_by_key(|x| x.to_bits());
    numbers.dedup_by_key(|x| x.to_bits());
    numbers
}

pub fn families() -> [Vec<f64>; 8] {
    [
        ties(),
        near_ties(),
        thousandths(),
        around_a_million(),
        powers_of_two(),
        subnormals(),
        any_bits(),
        coordinates(),
    ]
}

/// Numbers right at a limit, with the doubles beside them, and what is no number.
pub fn edges() -> Vec<f64> {
    let sizes = "0 5e-324 2.2250738585072014e-308 0.0005 0.001 0.0015 0.0625 0.1875 0.9995 1 9.9995 \
        99.9995 999.9995 9999.9995 99999.9995 999999.9985 999999.9995 1000000 1000000.001 1e15 \
        1e100 1.7976931348623157e308 inf nan";
    let sizes = sizes
        .split_whitespace()
        .map(|size| size.parse().expect("a number"));
    with_neighbours(sizes, 1)
}

/// Each size and the doubles up to `steps` beside it, with both signs.
fn with_neighbours(sizes: impl IntoIterator<Item = f64>, steps: u64) -> Vec<f64> {
    let mut numbers = Vec::new();
    for size in sizes {
        let bits = size.to_bits();
        for bits in bits.saturating_sub(steps)..=bits + steps {
            numbers.extend([f64::from_bits(bits), -f64::from_bits(bits)]);
        }
    }
    numbers
}

/// Exact ties between two thousandths: they are the odd sixteenths.
fn ties() -> Vec<f64> {
    let mut random = Random::new(1);
    let small = 0..4_000;
    let large = (0..8_000).map(|_| random.below(8_000_000));
    with_neighbours(small.chain(large).map(|n| (2 * n + 1) as f64 / 16.0), 1)
}

/// The doubles around the decimals halfway between two thousandths.
fn near_ties() -> Vec<f64> {
    let mut random = Random::new(2);
    let small = 0..5_000;
    let large = (0..5_000).map(|_| random.below(1_000_000_000));
    with_neighbours(small.chain(large).map(|n| (2 * n + 1) as f64 / 2000.0), 3)
}

/// The doubles around whole thousandths.
fn thousandths() -> Vec<f64> {
    let mut random = Random::new(3);
    let sizes = (0..10_000).map(|_| random.below(1_000_000_001) as f64 / 1000.0);
    with_neighbours(sizes, 1)
}

/// The doubles on both sides of 1,000,000, and of the thousandths and halves next to it.
fn around_a_million() -> Vec<f64> {
    let halves = 1_999_999_997_u64..=2_000_000_001;
    with_neighbours(halves.map(|n| n as f64 / 2000.0), 300)
}

/// Every power of two, with the doubles beside it.
fn powers_of_two() -> Vec<f64> {
    let normal = (1..2047).map(|exponent| f64::from_bits(exponent << 52));
    let subnormal = (0..52).map(|place| f64::from_bits(1 << place));
    with_neighbours(subnormal.chain(normal), 1)
}

fn subnormals() -> Vec<f64> {
    let mut random = Random::new(4);
    with_neighbours((0..2_000).map(|_| f64::from_bits(random.bits() >> 12)), 0)
}

fn any_bits() -> Vec<f64> {
    let mut random = Random::new(5);
    (0..80_000).map(|_| f64::from_bits(random.bits())).collect()
}

/// Coordinates as files have them, and as computing leaves them.
fn coordinates() -> Vec<f64> {
    let mut random = Random::new(6);
    let mut numbers = Vec::new();
    for _ in 0..40_000 {
        let thousandths = random.below(20_000_000) as f64 - 10_000_000.0;
        let turn = random.bits() as f64 / u64::MAX as f64;
        numbers.extend([thousandths / 1000.0, thousandths / 1000.0 * turn]);
    }
    numbers
}
