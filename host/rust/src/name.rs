//! What a party is called by.

/// A primary address 0..30, and a secondary address 0..30 for an extended talker and listener.
#[derive(Clone, Copy, PartialEq, Eq, Hash, Debug)]
pub struct Name {
    pub primary: u8,
    pub secondary: Option<u8>,
}

/// Stands where a party has no secondary.
const NO_SECONDARY: u8 = 255;

/// What the library gives where there is no such party.
const NO_NAME: u16 = u16::MAX;

impl Name {
    /// A party that its primary address alone addresses.
    pub const fn plain(primary: u8) -> Name {
        Name {
            primary,
            secondary: None,
        }
    }

    /// A party that its primary and its secondary address together address.
    pub const fn extended(primary: u8, secondary: u8) -> Name {
        Name {
            primary,
            secondary: Some(secondary),
        }
    }

    /// The secondary as the library takes it. 255 is no address, and must not be taken for none.
    pub(crate) fn secondary_byte(&self) -> u8 {
        match self.secondary {
            None => NO_SECONDARY,
            Some(secondary) => secondary.min(NO_SECONDARY - 1),
        }
    }

    /// From the number that the library gives.
    pub(crate) fn of(packed: u16) -> Option<Name> {
        let [primary, secondary] = packed.to_le_bytes();
        (packed != NO_NAME).then_some(Name {
            primary,
            secondary: (secondary != NO_SECONDARY).then_some(secondary),
        })
    }
}
