//! Stands for smol_str: a text that compares, hashes and prints as `str` does. As in the crate that
//! it stands for, 23 bytes are kept inline and longer texts are shared, so that it is no slower.
use std::cmp::Ordering;
use std::fmt;
use std::hash::{Hash, Hasher};
use std::ops::Deref;
use std::sync::Arc;

/// Few enough values that the rest of the byte can say that a text is shared: a text has 24 bytes.
#[derive(Clone, Copy)]
#[repr(u8)]
#[rustfmt::skip]
enum Length { L0, L1, L2, L3, L4, L5, L6, L7, L8, L9, L10, L11, L12, L13, L14, L15, L16, L17, L18, L19, L20, L21, L22, L23 }

#[rustfmt::skip]
const LENGTHS: [Length; 24] = {
    use Length::*;
    [L0, L1, L2, L3, L4, L5, L6, L7, L8, L9, L10, L11, L12, L13, L14, L15, L16, L17, L18, L19, L20, L21, L22, L23]
};
const LONGEST: usize = LENGTHS.len() - 1;
const _: () = assert!(size_of::<SmolStr>() == 24);

#[derive(Clone)]
enum Kept {
    /// The first bytes are those of a text, as many as the length says.
    Inline(Length, [u8; LONGEST]),
    Shared(Arc<str>),
}

#[derive(Clone)]
pub struct SmolStr(Kept);

impl SmolStr {
    pub fn new(text: &str) -> Self {
        match LENGTHS.get(text.len()) {
            Some(&length) => {
                let mut bytes = [0; LONGEST];
                bytes[..text.len()].copy_from_slice(text.as_bytes());
                Self(Kept::Inline(length, bytes))
            }
            None => Self(Kept::Shared(text.into())),
        }
    }
}

impl Deref for SmolStr {
    type Target = str;

    fn deref(&self) -> &str {
        match &self.0 {
            // SAFETY: `new` alone makes texts, and copies that many bytes of a `str`.
            Kept::Inline(length, bytes) => unsafe {
                str::from_utf8_unchecked(bytes.get_unchecked(..*length as usize))
            },
            Kept::Shared(text) => text,
        }
    }
}

impl PartialEq for SmolStr {
    fn eq(&self, other: &Self) -> bool {
        **self == **other
    }
}

impl Eq for SmolStr {}

impl PartialEq<&str> for SmolStr {
    fn eq(&self, other: &&str) -> bool {
        **self == **other
    }
}

impl PartialOrd for SmolStr {
    fn partial_cmp(&self, other: &Self) -> Option<Ordering> {
        Some(self.cmp(other))
    }
}

impl Ord for SmolStr {
    fn cmp(&self, other: &Self) -> Ordering {
        str::cmp(self, other)
    }
}

impl Hash for SmolStr {
    fn hash<H: Hasher>(&self, hasher: &mut H) {
        str::hash(self, hasher);
    }
}

impl fmt::Debug for SmolStr {
    fn fmt(&self, formatter: &mut fmt::Formatter<'_>) -> fmt::Result {
        fmt::Debug::fmt(&**self, formatter)
    }
}

impl fmt::Display for SmolStr {
    fn fmt(&self, formatter: &mut fmt::Formatter<'_>) -> fmt::Result {
        fmt::Display::fmt(&**self, formatter)
    }
}
