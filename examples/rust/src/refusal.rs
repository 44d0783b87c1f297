//! The fixed list of refusals.

use crate::raw;
use std::fmt;

macro_rules! refusals {
    ($($number:literal => $name:ident, $when:literal;)*) => {
        /// Why a call did not do its work, with two figures: docs/REFUSALS.md has what they mean, and what to do.
        #[derive(Clone, Copy, Debug, PartialEq, Eq)]
        pub enum Refusal {
            $(#[doc = $when] $name(usize, usize),)*
        }

        impl Refusal {
            /// The number on the list.
            pub fn number(self) -> u8 {
                match self { $(Refusal::$name(..) => $number,)* }
            }

            /// The two figures.
            pub fn figures(self) -> (usize, usize) {
                match self { $(Refusal::$name(first, second) => (first, second),)* }
            }

            /// When it is given.
            pub fn meaning(self) -> &'static str {
                match self { $(Refusal::$name(..) => $when,)* }
            }
        }

        /// Nothing to tell where the number is 0, which stands for no refusal.
        pub(crate) fn fine(r: raw::Refusal) -> Result<(), Refusal> {
            match r.number {
                0 => Ok(()),
                $($number => Err(Refusal::$name(r.first, r.second)),)*
                other => unreachable!("no call has the number {other}"),
            }
        }
    };
}

refusals! {
    1 => TooShort, "fewer bytes were lent than the smallest section of the table has";
    2 => NotRct, "the first byte is not the related content section's table_id";
    3 => WrongLength, "section_length states a section shorter than the smallest, or longer than the bytes lent";
    4 => EntryCut, "the two bytes with a link's length are cut off by the end of the payload";
    5 => LinkTooLong, "a link_info_length goes past the end of the payload";
    6 => BodyTooShort, "a link has fewer than the four bytes of its first fields";
    7 => UriLengthCut, "the link's type asks for a URI, and the link ends before the URI's length";
    8 => UriCut, "the link ends within its URI";
    9 => NoLocator, "the link's type asks for a locator, and the link ends before it";
    10 => LocatorCut, "the link ends within its locator";
    11 => ItemCountCut, "the link ends before its number of items";
    12 => ItemCut, "the link ends within an item's language or before its text's length";
    13 => TextCut, "the link ends within an item's text";
    14 => IconCut, "the link ends before its icon and its descriptors' length";
    15 => DescriptorsTooLong, "a link's descriptors go past its end";
    16 => LinkSlack, "bytes are left in a link behind its descriptors";
    17 => LoopCut, "the two bytes with the descriptor loop's length are cut off by the end of the payload";
    18 => LoopTooLong, "the section's descriptor loop goes past the end of the payload";
    19 => SectionSlack, "bytes are left between the section's descriptor loop and its CRC";
    20 => WrongCrc, "the CRC in the section is not that of the bytes before it";
    21 => NoSuchNumber, "there is no link, item, provider or authority of that number";
    22 => TooWide, "a number in a record is greater than its field holds";
    23 => AgainstType, "a link has a URI or a locator that its type does not have, or lacks one that its type has";
    24 => AgainstRule, "a locator has windows and must not, or lacks them";
    25 => PastText, "a range of a record ends past the lent text";
    28 => SectionTooLong, "section_length is above 4093";
    29 => NoRoom, "the lent buffer is shorter than the section that would be written";
    30 => NoMoreLinks, "the section has 255 links, as many as its count can tell";
    38 => NoSyntaxIndicator, "section_syntax_indicator is 0";
    39 => DescriptorCut, "a descriptor of the section's loop goes past the end of the loop";
    40 => NotRnt, "the first byte is not the resolution notification section's table_id";
    41 => CommonTooLong, "the common descriptors go past the end of the payload";
    42 => ProviderCut, "the two bytes with a provider's length are cut off by the end of the payload";
    43 => ProviderTooLong, "a provider goes past the end of the payload";
    44 => ProviderNameCut, "a provider's name, or its length, is cut off by the provider's end";
    45 => ProviderDescriptorsCut, "a provider's descriptors, or their length, are cut off by the provider's end";
    46 => AuthorityCut, "an authority is cut off by its provider's end";
}

impl fmt::Display for Refusal {
    fn fmt(&self, f: &mut fmt::Formatter<'_>) -> fmt::Result {
        let (first, second) = self.figures();
        write!(f, "refused {} {first} {second}", self.number())
    }
}

impl std::error::Error for Refusal {}
