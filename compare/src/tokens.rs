//! Tokens of which something is asked: which item a header names, what sequence number is written.
use crate::random::Random;
use crate::texts::{self, Text};
use crate::{answers, corpus};

/// The items that matter, in the order of their numbers.
pub const ITEMS: [&str; 15] = [
    "_atom_site.group_PDB",
    "_atom_site.auth_atom_id",
    "_atom_site.label_atom_id",
    "_atom_site.auth_comp_id",
    "_atom_site.label_comp_id",
    "_atom_site.auth_asym_id",
    "_atom_site.label_asym_id",
    "_atom_site.auth_seq_id",
    "_atom_site.label_seq_id",
    "_atom_site.pdbx_PDB_ins_code",
    "_atom_site.Cartn_x",
    "_atom_site.Cartn_y",
    "_atom_site.Cartn_z",
    "_atom_site.occupancy",
    "_atom_site.type_symbol",
];

/// The items, all that is one byte away from one, and every header of the corpus.
pub fn headers() -> Vec<Text> {
    let mut headers = vec![Text::new()];
    for item in ITEMS {
        headers.push(Text::from(item));
        headers.extend(texts::one_byte_away(item.as_bytes(), &texts::line_bytes()));
        headers.extend([item.to_ascii_lowercase(), item.to_ascii_uppercase()].map(Text::from));
        headers.push(Text::from(
            item.replace("_atom_site.", "_atom_site_anisotrop."),
        ));
    }
    let lines = corpus::lines();
    let tokens = lines.iter().flat_map(|line| answers::tokens(line));
    headers.extend(
        tokens
            .filter(|token| token.starts_with('_'))
            .map(Text::from),
    );
    texts::distinct(headers)
}

/// The edges and every family of tokens to read as sequence numbers, each once.
pub fn sequences() -> Vec<Text> {
    texts::distinct([sequence_edges(), sequence_families().concat()].concat())
}

pub fn sequence_families() -> [Vec<Text>; 4] {
    let families = [short(), around_limits(), counted_digits(), damaged_digits()];
    families.map(|mut family| {
        family.retain(can_be_a_token);
        family
    })
}

/// A token is not empty; with both quotes in it, it cannot be written in a row.
fn can_be_a_token(token: &Text) -> bool {
    let both_quotes = token.contains(&b'\'') && token.contains(&b'"');
    !token.is_empty() && !both_quotes
}

/// Tokens that stand right at a limit, or right past it.
pub fn sequence_edges() -> Vec<Text> {
    let tokens = ". ? .. ?? .? - + -- +- -+ 0 -0 +0 00 --0 1 -1 +1 ++1 1- 1+ 1. .1 1.0 1e3 0x1 \
        1_0 1a a1 007 -007 +007 2147483646 2147483647 2147483648 +2147483647 +2147483648 -2147483647 \
        -2147483648 -2147483649 02147483647 02147483648 -02147483648 -02147483649 4294967295 \
        4294967296 4294967297 -4294967295 -4294967297 6442450943 9223372036854775807 \
        9223372036854775808 18446744073709551615 18446744073709551616 18446744073709551617 \
        -18446744073709551617 0000000000000000000000000042 99999999999999999999999999999999";
    tokens.split_whitespace().map(Text::from).collect()
}

/// Every token of at most five bytes over the letters that decide.
fn short() -> Vec<Text> {
    texts::exhaustive(b"019+-.?", 5)
}

/// The numbers around the powers of two, with signs and leading zeros.
fn around_limits() -> Vec<Text> {
    let mut tokens = Vec::new();
    for power in [0, 16, 31, 32, 33, 63, 64] {
        for step in 0..40 {
            let number = (1_u128 << power) + step - u128::min(20, 1 << power);
            for zeros in ["", "0", "000000000000"] {
                tokens.extend(
                    ["", "-", "+"].map(|sign| format!("{sign}{zeros}{number}").into_bytes()),
                );
            }
        }
    }
    tokens
}

/// One digit to 22, some of them leading zeros, with and without a sign.
fn counted_digits() -> Vec<Text> {
    let mut random = Random::new(21);
    (0..20_000).map(|_| digits(&mut random)).collect()
}

fn digits(random: &mut Random) -> Text {
    let longest = random.pick(&[4, 10, 10, 10, 22]);
    let count = 1 + random.below(longest);
    let zeros = match random.below(4) {
        0 => random.below(count + 1),
        _ => 0,
    };
    let mut token = Text::from(random.pick(&["", "", "-", "-", "+"]));
    token.extend((0..zeros).map(|_| b'0'));
    token.extend((zeros..count).map(|_| random.pick(b"0123456789")));
    token
}

fn damaged_digits() -> Vec<Text> {
    let mut random = Random::new(22);
    let mut tokens = Vec::new();
    for _ in 0..30_000 {
        let token = digits(&mut random);
        tokens.push(texts::damaged(
            &mut random,
            token,
            b"0123456789+-.?",
            texts::line_byte,
        ));
    }
    tokens
}
