//! Texts of bytes, and the ways to make many of them that more than one concept needs.
use crate::random::Random;

pub type Text = Vec<u8>;

/// The bytes that may stand on a line: tab, and blank to tilde.
pub fn line_bytes() -> Vec<u8> {
    [b'\t'].into_iter().chain(b' '..=b'~').collect()
}

pub fn line_byte(random: &mut Random) -> u8 {
    random.pick(&line_bytes())
}

/// Each text once, the shorter ones first: the first difference shown is the smallest.
pub fn distinct(mut texts: Vec<Text>) -> Vec<Text> {
    texts.sort_by(|one, two| (one.len(), one).cmp(&(two.len(), two)));
    texts.dedup();
    texts
}

/// Every text of at most `longest` bytes over the letters, the shorter ones first.
pub fn exhaustive(letters: &[u8], longest: usize) -> Vec<Text> {
    let mut texts = vec![Text::new()];
    let mut last = 0..1;
    for _ in 0..longest {
        let end = texts.len();
        for place in last {
            for &letter in letters {
                texts.push([&texts[place][..], &[letter]].concat());
            }
        }
        last = end..texts.len();
    }
    texts
}

/// The word, given in small letters, in every mixture of small and capital ones.
pub fn in_every_case(word: &str) -> Vec<Text> {
    let mixtures = (0..1 << word.len()).map(|capitals: usize| {
        let mut spelled = Text::from(word);
        for (place, letter) in spelled.iter_mut().enumerate() {
            if capitals >> place & 1 == 1 {
                letter.make_ascii_uppercase();
            }
        }
        spelled
    });
    mixtures.collect()
}

/// Every text that is one byte away from the word: changed, put in or left out.
pub fn one_byte_away(word: &[u8], bytes: &[u8]) -> Vec<Text> {
    let mut texts = Vec::new();
    for place in 0..=word.len() {
        let (before, after) = word.split_at(place);
        for &byte in bytes {
            texts.push([before, &[byte], after].concat());
        }
        if let Some((_, rest)) = after.split_first() {
            texts.push([before, rest].concat());
            for &byte in bytes {
                texts.push([before, &[byte], rest].concat());
            }
        }
    }
    texts
}

/// Texts of one byte to `longest`.
pub fn random(
    mut random: Random,
    count: usize,
    longest: u64,
    byte: impl Fn(&mut Random) -> u8,
) -> Vec<Text> {
    let mut texts = Vec::new();
    for _ in 0..count {
        let length = 1 + random.below(longest);
        texts.push((0..length).map(|_| byte(&mut random)).collect());
    }
    texts
}

/// The text with one byte changed, put in or left out. It must not be empty.
pub fn damaged(
    random: &mut Random,
    mut text: Text,
    letters: &[u8],
    byte: impl Fn(&mut Random) -> u8,
) -> Text {
    let place = random.below(text.len() as u64) as usize;
    let letter = random.pick(letters);
    let byte = byte(random);
    match random.below(5) {
        0 => text[place] = letter,
        1 => text[place] = byte,
        2 => text.insert(place, letter),
        3 => text.insert(place, byte),
        _ => drop(text.remove(place)),
    }
    text
}
