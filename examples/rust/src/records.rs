//! The records of a section and of a link, and how they become those of the library.

use crate::raw;

/// Bytes 1 to 7 of a section, section_length apart. Widest numbers: `reserved_b1` 3, `reserved_b5` 3, `version_number` 31;
/// the reserved bits of the standard are ones.
#[derive(Clone, Copy, Debug, PartialEq, Eq)]
#[allow(missing_docs)] // the fields have their names from the standard
pub struct Header {
    pub section_syntax_indicator: bool,
    pub private_indicator: bool,
    pub reserved_b1: u16,
    pub table_id_extension: u16,
    pub reserved_b5: u16,
    pub version_number: u16,
    pub current_next_indicator: bool,
    pub section_number: u8,
    pub last_section_number: u8,
}

/// The header of a related content section, in which `table_id_extension` is the service_id.
#[derive(Clone, Copy, Debug, PartialEq, Eq)]
#[allow(missing_docs)]
pub struct RctHeader {
    pub section: Header,
    pub year_offset: u16,
}

/// A locator's service: by a triplet's id (widest 1023), or in full (`reserved`: widest 3).
#[derive(Clone, Copy, Debug, PartialEq, Eq)]
#[allow(missing_docs)]
pub enum Service {
    Triplet(u16),
    Inline { reserved: u16, transport_stream_id: u16, original_network_id: u16, service_id: u16 },
}

/// What names the event besides its time.
#[derive(Clone, Copy, Debug, PartialEq, Eq)]
#[allow(missing_docs)]
pub enum Identifier {
    None,
    EventId(u16),
    TvaIdInEit(u16),
    TvaIdInPes { id: u16, component: u8 },
}

/// How much earlier (widest 7) and later (widest 31) than its time the event may be.
#[derive(Clone, Copy, Debug, PartialEq, Eq)]
#[allow(missing_docs)]
pub struct Windows {
    pub early_start: u16,
    pub late_end: u16,
}

/// The DVB binary locator. Widest numbers: `reserved` 1, `start_date` 511. Windows are there exactly where there is no
/// identifier and `scheduled_time_reliability` is set.
#[derive(Clone, Copy, Debug, PartialEq, Eq)]
#[allow(missing_docs)]
pub struct Locator {
    pub scheduled_time_reliability: bool,
    pub reserved: u16,
    pub start_date: u16,
    pub service: Service,
    pub start_time: u16,
    pub duration: u16,
    pub identifier: Identifier,
    pub windows: Option<Windows>,
}

/// An item: its ISO 639-2 language code, and its text of at most 255 bytes.
#[derive(Clone, Copy, Debug, PartialEq, Eq)]
#[allow(missing_docs)]
pub struct Item<'a> {
    pub language_code: [u8; 3],
    pub promotional_text: &'a [u8],
}

/// A link. A link of type 0 has a URI, of type 1 a locator, of type 2 both, of any other type neither. Widest numbers:
/// `reserved_link_info_length` 15, `link_type` 15, `reserved_link_type` 3, `how_related` 63, `term_id` 4095, `group_id` 15,
/// `precedence` 15, `reserved_number_items` 3, `icon_id` 7; 63 items; 255 bytes of a URI.
#[derive(Clone, Debug, PartialEq, Eq)]
#[allow(missing_docs)]
pub struct Link<'a> {
    pub reserved_link_info_length: u16,
    pub link_type: u16,
    pub reserved_link_type: u16,
    pub how_related: u16,
    pub term_id: u16,
    pub group_id: u16,
    pub precedence: u16,
    pub media_uri: Option<&'a [u8]>,
    pub dvb_binary_locator: Option<Locator>,
    pub reserved_number_items: u16,
    pub items: Vec<Item<'a>>,
    pub default_icon_flag: bool,
    pub icon_id: u16,
    pub descriptors: &'a [u8],
}

impl Header {
    pub(crate) fn of(h: raw::Header) -> Header {
        Header {
            section_syntax_indicator: h.section_syntax_indicator != 0,
            private_indicator: h.private_indicator != 0,
            reserved_b1: h.reserved_b1,
            table_id_extension: h.table_id_extension,
            reserved_b5: h.reserved_b5,
            version_number: h.version_number,
            current_next_indicator: h.current_next_indicator != 0,
            section_number: h.section_number,
            last_section_number: h.last_section_number,
        }
    }
}

impl RctHeader {
    pub(crate) fn of(h: raw::RctHeader) -> RctHeader {
        RctHeader { section: Header::of(h.section), year_offset: h.year_offset }
    }

    pub(crate) fn raw(&self) -> raw::RctHeader {
        let section = raw::Header {
            section_syntax_indicator: self.section.section_syntax_indicator.into(),
            private_indicator: self.section.private_indicator.into(),
            reserved_b1: self.section.reserved_b1,
            table_id_extension: self.section.table_id_extension,
            reserved_b5: self.section.reserved_b5,
            version_number: self.section.version_number,
            current_next_indicator: self.section.current_next_indicator.into(),
            section_number: self.section.section_number,
            last_section_number: self.section.last_section_number,
        };
        raw::RctHeader { section, year_offset: self.year_offset }
    }
}

impl Locator {
    fn of(l: raw::Locator) -> Locator {
        let service = match l.service.inline_service {
            0 => Service::Triplet(l.service.dvb_service_triplet_id),
            _ => Service::Inline {
                reserved: l.service.reserved_inline_service,
                transport_stream_id: l.service.transport_stream_id,
                original_network_id: l.service.original_network_id,
                service_id: l.service.service_id,
            },
        };
        let identifier = match (l.identifier.identifier_type, l.identifier.id) {
            (0, _) => Identifier::None,
            (1, id) => Identifier::EventId(id),
            (2, id) => Identifier::TvaIdInEit(id),
            (_, id) => Identifier::TvaIdInPes { id, component: l.identifier.component },
        };
        let windows = Windows { early_start: l.windows.early_start_window, late_end: l.windows.late_end_window };
        Locator {
            scheduled_time_reliability: l.scheduled_time_reliability != 0,
            reserved: l.reserved,
            start_date: l.start_date,
            service,
            start_time: l.start_time,
            duration: l.duration,
            identifier,
            windows: (l.windows.present != 0).then_some(windows),
        }
    }

    /// An absent locator's fields mean nothing to the library: zeros.
    fn raw(locator: Option<Locator>) -> raw::Locator {
        let l = locator.unwrap_or(Locator {
            scheduled_time_reliability: false,
            reserved: 0,
            start_date: 0,
            service: Service::Triplet(0),
            start_time: 0,
            duration: 0,
            identifier: Identifier::None,
            windows: None,
        });
        let (inline_service, triplet, reserved, stream, network, service) = match l.service {
            Service::Triplet(id) => (0, id, 0, 0, 0, 0),
            Service::Inline { reserved, transport_stream_id, original_network_id, service_id } => {
                (1, 0, reserved, transport_stream_id, original_network_id, service_id)
            }
        };
        let (identifier_type, id, component) = match l.identifier {
            Identifier::None => (0, 0, 0),
            Identifier::EventId(id) => (1, id, 0),
            Identifier::TvaIdInEit(id) => (2, id, 0),
            Identifier::TvaIdInPes { id, component } => (3, id, component),
        };
        let windows = l.windows.unwrap_or(Windows { early_start: 0, late_end: 0 });
        raw::Locator {
            scheduled_time_reliability: l.scheduled_time_reliability.into(),
            reserved: l.reserved,
            start_date: l.start_date,
            service: raw::Service {
                inline_service,
                dvb_service_triplet_id: triplet,
                reserved_inline_service: reserved,
                transport_stream_id: stream,
                original_network_id: network,
                service_id: service,
            },
            start_time: l.start_time,
            duration: l.duration,
            identifier: raw::Identifier { identifier_type, component, id },
            windows: raw::Windows {
                present: l.windows.is_some().into(),
                early_start_window: windows.early_start,
                late_end_window: windows.late_end,
            },
        }
    }
}

/// The bytes of `s` that a range says.
pub(crate) fn part(s: &[u8], range: raw::Range) -> &[u8] {
    let start = range.start as usize;
    &s[start..start + range.length as usize]
}

impl<'a> Item<'a> {
    pub(crate) fn of(s: &'a [u8], item: raw::Item) -> Item<'a> {
        Item { language_code: item.language_code, promotional_text: part(s, item.promotional_text) }
    }
}

impl<'a> Link<'a> {
    pub(crate) fn of(s: &'a [u8], f: raw::Fields, items: Vec<Item<'a>>) -> Link<'a> {
        Link {
            reserved_link_info_length: f.reserved_link_info_length,
            link_type: f.link_type,
            reserved_link_type: f.reserved_link_type,
            how_related: f.how_related,
            term_id: f.term_id,
            group_id: f.group_id,
            precedence: f.precedence,
            media_uri: (f.has_media_uri != 0).then(|| part(s, f.media_uri)),
            dvb_binary_locator: (f.has_dvb_binary_locator != 0).then(|| Locator::of(f.dvb_binary_locator)),
            reserved_number_items: f.reserved_number_items,
            items,
            default_icon_flag: f.default_icon_flag != 0,
            icon_id: f.icon_id,
            descriptors: part(s, f.descriptors),
        }
    }

    /// The record, and the text that its ranges are of.
    pub(crate) fn raw(&self) -> (raw::Link, Vec<u8>) {
        let mut text = Vec::new();
        let media_uri = put(&mut text, self.media_uri.unwrap_or(&[]));
        let no_item = raw::Item { language_code: [0; 3], promotional_text: raw::Range { start: 0, length: 0 } };
        let mut items = [no_item; raw::MOST_ITEMS];
        // More items than there is place for are not handed on, but counted: the library refuses their number.
        for (to, item) in items.iter_mut().zip(&self.items) {
            *to = raw::Item {
                language_code: item.language_code,
                promotional_text: put(&mut text, item.promotional_text),
            };
        }
        let fields = raw::Fields {
            reserved_link_info_length: self.reserved_link_info_length,
            link_type: self.link_type,
            reserved_link_type: self.reserved_link_type,
            how_related: self.how_related,
            term_id: self.term_id,
            group_id: self.group_id,
            precedence: self.precedence,
            has_media_uri: self.media_uri.is_some().into(),
            media_uri,
            has_dvb_binary_locator: self.dvb_binary_locator.is_some().into(),
            dvb_binary_locator: Locator::raw(self.dvb_binary_locator),
            reserved_number_items: self.reserved_number_items,
            number_items: self.items.len(),
            default_icon_flag: self.default_icon_flag.into(),
            icon_id: self.icon_id,
            descriptors: put(&mut text, self.descriptors),
        };
        (raw::Link { fields, items }, text)
    }
}

/// The widest length that a field of a link has.
const LONGEST: usize = 4095;

/// Puts bytes behind a text, and says where. Of more than any field holds only so many are copied: the length that is said
/// is that of all, and the library refuses it before it looks at the text.
fn put(text: &mut Vec<u8>, bytes: &[u8]) -> raw::Range {
    let start = text.len() as u32; // at most 65 parts of at most LONGEST bytes
    text.extend_from_slice(&bytes[..bytes.len().min(LONGEST)]);
    raw::Range { start, length: length(bytes) }
}

/// A length in 32 bits; beyond these the greatest, which no field holds either.
pub(crate) fn length(bytes: &[u8]) -> u32 {
    bytes.len().try_into().unwrap_or(u32::MAX)
}
