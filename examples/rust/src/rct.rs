//! The related content section.

use crate::records::{length, part};
use crate::refusal::fine;
use crate::{raw, Item, Link, RctHeader, Refusal};

/// The most bytes of a section that may be sent: a buffer of this length has room for every section.
pub const MOST_BYTES: usize = 4096;

/// A section that was read.
#[derive(Clone, Copy, Debug, PartialEq, Eq)]
#[non_exhaustive]
pub struct Section<'a> {
    /// All bytes of the section, its CRC included.
    pub bytes: &'a [u8],
    /// Its header.
    pub header: RctHeader,
    /// How many links it has.
    pub number_of_links: usize,
    /// The four bits before the length of the descriptor loop.
    pub reserved_descriptor_loop_length: u16,
    /// The descriptor loop.
    pub descriptors: &'a [u8],
}

/// The plain reading of the section that `s` begins with: its syntax, not its CRC.
pub fn read(s: &[u8]) -> Result<Section<'_>, Refusal> {
    // SAFETY: here and below, pointers and lengths are those of slices, and a slice that is written is borrowed alone.
    section(s, unsafe { raw::eallunsa_rct_read(s.as_ptr(), s.len()) })
}

/// The checked reading, of what may be edited and sent on: with the syntax indicator, the limit of the length, and the CRC.
pub fn check(s: &[u8]) -> Result<Section<'_>, Refusal> {
    section(s, unsafe { raw::eallunsa_rct_check(s.as_ptr(), s.len()) })
}

fn section(s: &[u8], answer: raw::RctAnswer) -> Result<Section<'_>, Refusal> {
    fine(answer.refusal)?;
    Ok(Section {
        bytes: &s[..answer.total],
        header: RctHeader::of(answer.header),
        number_of_links: answer.number_of_links,
        reserved_descriptor_loop_length: answer.reserved_descriptor_loop_length,
        descriptors: part(s, answer.descriptors),
    })
}

impl<'a> Section<'a> {
    /// Its links, one after the other, in one walk.
    pub fn links(&self) -> impl Iterator<Item = Link<'a>> {
        let payload = &self.bytes[..self.bytes.len().saturating_sub(4)];
        let mut at = raw::FIRST_ENTRY;
        (0..self.number_of_links).map_while(move |_| {
            let entry = unsafe { raw::eallunsa_rct_entry(payload.as_ptr(), payload.len(), at) };
            fine(entry.refusal).ok()?;
            at = entry.next;
            Some(Link::of(payload, entry.fields, items(payload, entry.items_at, entry.fields.number_items)))
        })
    }
}

fn items(payload: &[u8], mut at: u32, number: usize) -> Vec<Item<'_>> {
    let next = |_| {
        let step = unsafe { raw::eallunsa_item_from(payload.as_ptr(), payload.len(), at) };
        fine(step.refusal).ok()?;
        at = step.next;
        Some(Item::of(payload, step.item))
    };
    (0..number).map_while(next).collect()
}

/// Link by number, the first is 0.
pub fn link(s: &[u8], number: usize) -> Result<Link<'_>, Refusal> {
    let answer = unsafe { raw::eallunsa_rct_link(s.as_ptr(), s.len(), number) };
    fine(answer.refusal)?;
    let fields = answer.link.fields;
    let items = answer.link.items.iter().take(fields.number_items).map(|&item| Item::of(s, item)).collect();
    Ok(Link::of(s, fields, items))
}

/// Item by number of a link by number.
pub fn item(s: &[u8], number: usize, item: usize) -> Result<Item<'_>, Refusal> {
    let answer = unsafe { raw::eallunsa_rct_item(s.as_ptr(), s.len(), number, item) };
    fine(answer.refusal)?;
    Ok(Item::of(s, answer.item))
}

/// Makes a section with no links at the start of a buffer, and says how many bytes it has.
pub fn make(
    buffer: &mut [u8],
    header: &RctHeader,
    reserved_descriptor_loop_length: u16,
    descriptors: &[u8],
) -> Result<usize, Refusal> {
    let range = raw::Range { start: 0, length: length(descriptors) };
    edited(unsafe {
        raw::eallunsa_rct_make(
            buffer.as_mut_ptr(),
            buffer.len(),
            header.raw(),
            reserved_descriptor_loop_length,
            descriptors.as_ptr(),
            descriptors.len(),
            range,
        )
    })
}

/// Appends a link to the section that a buffer begins with, and says how many bytes it has then.
pub fn append(buffer: &mut [u8], link: &Link<'_>) -> Result<usize, Refusal> {
    let (link, text) = link.raw();
    let (b, room) = (buffer.as_mut_ptr(), buffer.len());
    edited(unsafe { raw::eallunsa_rct_append(b, room, text.as_ptr(), text.len(), link) })
}

/// Puts a link in place of link `number`, and says how many bytes the section has then.
pub fn replace(buffer: &mut [u8], number: usize, link: &Link<'_>) -> Result<usize, Refusal> {
    let (link, text) = link.raw();
    let (b, room) = (buffer.as_mut_ptr(), buffer.len());
    edited(unsafe { raw::eallunsa_rct_replace(b, room, number, text.as_ptr(), text.len(), link) })
}

fn edited(answer: raw::EditAnswer) -> Result<usize, Refusal> {
    fine(answer.refusal)?;
    Ok(answer.total)
}

/// An index beside a section: which links have a URI, a locator, the default icon flag, and where each link stands.
#[derive(Clone)]
pub struct Index(raw::Index);

impl Index {
    /// The index of the section that `s` begins with.
    pub fn of(s: &[u8]) -> Result<Index, Refusal> {
        let answer = unsafe { raw::eallunsa_rct_index(s.as_ptr(), s.len()) };
        fine(answer.refusal)?;
        Ok(Index(answer.index))
    }

    /// Where the entry of a link stands.
    pub fn place(&self, number: usize) -> Option<usize> {
        let at = unsafe { raw::eallunsa_index_place(self.0.places.as_ptr(), self.0.places.len(), number) };
        (at != 0).then_some(at.into())
    }

    /// Whether a link has a URI.
    pub fn has_uri(&self, number: usize) -> bool {
        has(self.0.uri, number)
    }

    /// Whether a link has a locator.
    pub fn has_locator(&self, number: usize) -> bool {
        has(self.0.locator, number)
    }

    /// Whether a link has the default icon flag.
    pub fn has_default_icon(&self, number: usize) -> bool {
        has(self.0.icon, number)
    }

    /// How many links have a URI, a locator, the default icon flag.
    pub fn counts(&self) -> (usize, usize, usize) {
        (count(self.0.uri), count(self.0.locator), count(self.0.icon))
    }

    /// How many descriptors the section's loop has.
    pub fn descriptors(&self) -> u16 {
        self.0.descriptors
    }

    /// [`append`], and this index of the section in the buffer becomes that of the new one.
    pub fn append(&mut self, buffer: &mut [u8], link: &Link<'_>) -> Result<usize, Refusal> {
        let (link, text) = link.raw();
        let (b, room) = (buffer.as_mut_ptr(), buffer.len());
        self.brought_up(unsafe { raw::eallunsa_rct_index_append(b, room, text.as_ptr(), text.len(), link, self.0) })
    }

    /// [`replace`], and this index of the section in the buffer becomes that of the new one.
    pub fn replace(&mut self, buffer: &mut [u8], number: usize, link: &Link<'_>) -> Result<usize, Refusal> {
        let (link, text) = link.raw();
        let (b, room) = (buffer.as_mut_ptr(), buffer.len());
        self.brought_up(unsafe {
            raw::eallunsa_rct_index_replace(b, room, number, text.as_ptr(), text.len(), link, self.0)
        })
    }

    fn brought_up(&mut self, answer: raw::IndexEditAnswer) -> Result<usize, Refusal> {
        fine(answer.refusal)?;
        self.0 = answer.index;
        Ok(answer.total)
    }
}

fn has(set: raw::Set, number: usize) -> bool {
    unsafe { raw::eallunsa_set_has(set, number) != 0 }
}

fn count(set: raw::Set) -> usize {
    unsafe { raw::eallunsa_set_count(set) }
}
