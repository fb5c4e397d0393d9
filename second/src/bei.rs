//! What a BEI says (document 02, K7), which is four bits of a status byte: "none, a number 1 to 8, or the BIAE mark".

#[derive(Clone, Copy, Debug, PartialEq, Eq)]
pub enum Bei {
    None,
    /// So many violations at the far end, 1 to 8.
    Number(u8),
    /// 1011.
    Biae,
}

impl Bei {
    /// Of the section, and of "every tandem level".
    pub fn of(code: u8) -> Bei {
        match code {
            1..=8 => Bei::Number(code),
            0b1011 => Bei::Biae,
            _ => Bei::None,
        }
    }

    /// Of the path: "save that in the path 1011 is none".
    pub fn of_path(code: u8) -> Bei {
        match Bei::of(code) {
            Bei::Biae => Bei::None,
            other => other,
        }
    }

    /// What a far block adds to the sum; nothing where there is no far block.
    pub fn violations(self) -> Option<u8> {
        match self {
            Bei::Number(violations) => Some(violations),
            Bei::None | Bei::Biae => None,
        }
    }
}
