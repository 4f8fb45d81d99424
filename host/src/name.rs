//! The name of a chain, a residue or an atom: 1 to 8 bytes of ASCII.
use std::fmt;

/// Names are in the order of their bytes, and compare with texts: `atom.name == "CA"`.
#[derive(Clone, Copy, PartialEq, Eq, PartialOrd, Ord, Hash)]
pub struct Name([u8; 8]);

impl Name {
    /// A packed name has its first byte highest, and zeros after its last.
    pub(crate) fn of_packed(packed: u64) -> Self {
        Self(packed.to_be_bytes())
    }

    /// The bytes without padding.
    pub fn as_bytes(&self) -> &[u8] {
        let length = self.0.iter().position(|&byte| byte == 0);
        &self.0[..length.unwrap_or(self.0.len())]
    }
}

impl PartialEq<str> for Name {
    fn eq(&self, text: &str) -> bool {
        self.as_bytes() == text.as_bytes()
    }
}

impl PartialEq<&str> for Name {
    fn eq(&self, text: &&str) -> bool {
        *self == **text
    }
}

impl fmt::Display for Name {
    fn fmt(&self, formatter: &mut fmt::Formatter<'_>) -> fmt::Result {
        formatter.pad(&String::from_utf8_lossy(self.as_bytes()))
    }
}

impl fmt::Debug for Name {
    fn fmt(&self, formatter: &mut fmt::Formatter<'_>) -> fmt::Result {
        write!(formatter, "{:?}", self.to_string())
    }
}

#[cfg(test)]
mod tests {
    use super::*;

    #[test]
    fn the_first_byte_is_highest() {
        let name = Name::of_packed(0x4341_0000_0000_0000);
        assert_eq!(name.as_bytes(), b"CA");
        assert_eq!(format!("{name} {name:?} {name:>4}"), "CA \"CA\"   CA");
    }

    #[test]
    fn eight_bytes_need_no_zero() {
        let name = Name::of_packed(u64::from_be_bytes(*b"ABCDEFGH"));
        assert_eq!(name.as_bytes(), b"ABCDEFGH");
    }

    #[test]
    fn names_equal_their_own_text_alone() {
        let name = Name::of_packed(0x4341_0000_0000_0000);
        assert!(name == "CA" && name == *"CA");
        for other in ["", "C", "CA ", "CA\0", "CB", "ca"] {
            assert!(name != other && name != *other, "{other:?}");
        }
    }

    #[test]
    fn names_are_in_the_order_of_their_bytes() {
        let names = [*b"C\0\0\0\0\0\0\0", *b"CA\0\0\0\0\0\0", *b"CB\0\0\0\0\0\0"];
        let names = names.map(|bytes| Name::of_packed(u64::from_be_bytes(bytes)));
        assert!(names.is_sorted());
    }
}
