//! The records of the wrapper against the bytes of sections.hex, which were not encoded by the library: what is handed in
//! comes out as bytes, and bytes come out as records, with another number in each field as far as its width allows.
#![forbid(unsafe_code)]

use eallunsa::{crc, rct, rnt, version, Header, Identifier, Item, Link, Locator, RctHeader, Refusal, Service, Windows};

/// A related content section of no links, of one, two and three, and a resolution notification section.
fn sections() -> Vec<Vec<u8>> {
    let byte = |pair: &[u8]| u8::from_str_radix(std::str::from_utf8(pair).unwrap(), 16).unwrap();
    include_str!("../../sections.hex").lines().map(|line| line.as_bytes().chunks(2).map(byte).collect()).collect()
}

fn header() -> RctHeader {
    let section = Header {
        section_syntax_indicator: true,
        private_indicator: false,
        reserved_b1: 2,
        table_id_extension: 0x1234,
        reserved_b5: 1,
        version_number: 21,
        current_next_indicator: true,
        section_number: 5,
        last_section_number: 9,
    };
    RctHeader { section, year_offset: 2026 }
}

fn links() -> [Link<'static>; 3] {
    let first = Link {
        reserved_link_info_length: 9,
        link_type: 2,
        reserved_link_type: 1,
        how_related: 37,
        term_id: 0x5a7,
        group_id: 6,
        precedence: 11,
        media_uri: Some(b"www.a"),
        dvb_binary_locator: Some(Locator {
            scheduled_time_reliability: false,
            reserved: 0,
            start_date: 300,
            service: Service::Inline {
                reserved: 2,
                transport_stream_id: 1101,
                original_network_id: 1202,
                service_id: 1303,
            },
            start_time: 1404,
            duration: 1505,
            identifier: Identifier::TvaIdInPes { id: 1606, component: 77 },
            windows: None,
        }),
        reserved_number_items: 2,
        items: vec![
            Item { language_code: *b"deu", promotional_text: b"Titel" },
            Item { language_code: *b"fra", promotional_text: b"Titre!" },
        ],
        default_icon_flag: true,
        icon_id: 5,
        descriptors: b"\x4a\x01\x07",
    };
    let second = Link {
        reserved_link_info_length: 6,
        link_type: 1,
        reserved_link_type: 2,
        how_related: 14,
        term_id: 0x2c9,
        group_id: 9,
        precedence: 4,
        media_uri: None,
        dvb_binary_locator: Some(Locator {
            scheduled_time_reliability: true,
            reserved: 1,
            start_date: 411,
            service: Service::Triplet(617),
            start_time: 1707,
            duration: 1808,
            identifier: Identifier::None,
            windows: Some(Windows { early_start: 5, late_end: 19 }),
        }),
        reserved_number_items: 1,
        items: vec![],
        default_icon_flag: false,
        icon_id: 3,
        descriptors: &[],
    };
    let third = Link {
        reserved_link_info_length: 12,
        link_type: 0,
        reserved_link_type: 3,
        how_related: 63,
        term_id: 0xf0,
        group_id: 1,
        precedence: 2,
        media_uri: Some(b"www.a"),
        dvb_binary_locator: None,
        reserved_number_items: 3,
        items: vec![Item { language_code: *b"eng", promotional_text: b"" }],
        default_icon_flag: false,
        icon_id: 6,
        descriptors: &[],
    };
    [first, second, third]
}

const LOOP: &[u8] = b"\x4a\x01\x07\x5f\x00";

#[test]
fn written() {
    let want = sections();
    let (mut buffer, mut indexed) = ([0; 256], [0; 256]);
    assert_eq!(rct::make(&mut buffer, &header(), 10, LOOP), Ok(want[0].len()));
    assert_eq!(&buffer[..want[0].len()], want[0]);
    indexed.copy_from_slice(&buffer);
    let mut index = rct::Index::of(&indexed).unwrap();
    for (link, want) in links().iter().zip(&want[1..]) {
        assert_eq!(rct::append(&mut buffer, link), Ok(want.len()));
        assert_eq!(&buffer[..want.len()], want);
        assert_eq!(index.append(&mut indexed, link), Ok(want.len()));
        assert_eq!(buffer, indexed);
    }
    assert_eq!((index.counts(), index.descriptors()), ((2, 2, 1), 2));
    assert_eq!([0, 1, 2, 3, 255].map(|k| index.place(k)), [Some(11), Some(63), Some(80), None, None]);
    assert_eq!([0, 1, 2].map(|k| index.has_uri(k)), [true, false, true]);
    assert_eq!([0, 1, 2].map(|k| index.has_locator(k)), [true, true, false]);
    assert_eq!([0, 1, 2].map(|k| index.has_default_icon(k)), [true, false, false]);

    let total = rct::replace(&mut buffer, 0, &links()[2]);
    assert_eq!(index.replace(&mut indexed, 0, &links()[2]), total);
    assert_eq!(buffer, indexed);
    assert_eq!(index.counts(), (2, 1, 0));
    assert_eq!(index.replace(&mut indexed, 3, &links()[2]), Err(Refusal::NoSuchNumber(3, 3)));
}

#[test]
fn read_back() {
    let s = &sections()[3];
    let section = rct::check(s).unwrap();
    assert_eq!(rct::read(s), Ok(section));
    assert_eq!((section.bytes, section.header), (&s[..], header()));
    assert_eq!((section.number_of_links, section.reserved_descriptor_loop_length), (3, 10));
    assert_eq!(section.descriptors, LOOP);
    assert_eq!(section.links().collect::<Vec<_>>(), links());
    for (number, link) in links().iter().enumerate() {
        assert_eq!(&rct::link(s, number).unwrap(), link);
        for (k, item) in link.items.iter().enumerate() {
            assert_eq!(rct::item(s, number, k).as_ref(), Ok(item));
        }
    }
    assert_eq!(rct::link(s, 7), Err(Refusal::NoSuchNumber(7, 3)));
    assert_eq!(crc(s), 0);
    assert_eq!(rct::read(&[]), Err(Refusal::TooShort(17, 0)));
}

/// What no field holds is refused, however long it is, and never cut off.
#[test]
fn too_much() {
    let mut buffer = [0; 4096];
    rct::make(&mut buffer, &header(), 10, &[]).unwrap();
    let before = buffer;
    let [first, ..] = links();
    let long = vec![b'x'; 5000];
    let item = Item { language_code: *b"eng", promotional_text: &long[..256] };
    let cases = [
        (Link { media_uri: Some(&long), ..first.clone() }, Refusal::TooWide(7, 5000)),
        (Link { items: vec![first.items[0]; 64], ..first.clone() }, Refusal::TooWide(14, 64)),
        (Link { items: vec![item], ..first.clone() }, Refusal::TooWide(16, 256)),
        (Link { descriptors: &long[..4096], ..first.clone() }, Refusal::TooWide(17, 4096)),
        (Link { media_uri: None, ..first.clone() }, Refusal::AgainstType(2, 0)),
    ];
    for (link, refusal) in cases {
        assert_eq!(rct::append(&mut buffer, &link), Err(refusal));
        assert_eq!(buffer, before);
    }
    assert_eq!(rct::make(&mut buffer, &header(), 10, &long), Err(Refusal::TooWide(23, 5000)));
    assert_eq!(buffer, before);
}

#[test]
fn resolution() {
    let s = &sections()[4];
    let section = rnt::check(s).unwrap();
    assert_eq!(rnt::read(s), Ok(section));
    let header = Header {
        section_syntax_indicator: true,
        private_indicator: true,
        reserved_b1: 1,
        table_id_extension: 0x4321,
        reserved_b5: 2,
        version_number: 13,
        current_next_indicator: false,
        section_number: 3,
        last_section_number: 7,
    };
    assert_eq!((section.bytes, section.header, section.context_id_type), (&s[..], header, 8));
    assert_eq!((section.reserved_common_descriptors_length, section.number_of_providers), (11, 2));
    assert_eq!(section.common_descriptors, b"\x5f\x02\x01\x02");
    let provider = rnt::Provider {
        reserved_info_length: 9,
        name: b"p.org",
        reserved_descriptors_length: 6,
        descriptors: b"\x4a\x01\x09",
        number_of_authorities: 2,
    };
    assert_eq!(rnt::provider(s, 0), Ok(provider));
    let authority =
        rnt::Authority { name: b"second.org", reserved: 3, crid_authority_policy: 1, descriptors: b"\x40\x02\x11\x22" };
    assert_eq!(rnt::authority(s, 0, 1), Ok(authority));
    assert_eq!(rnt::authority(s, 1, 0), Err(Refusal::NoSuchNumber(0, 0)));
    // the walk lists what the calls by number answer
    let walked: Vec<_> = section.providers().collect();
    assert_eq!(walked.len(), section.number_of_providers);
    for (k, (provider, authorities)) in walked.into_iter().enumerate() {
        assert_eq!(rnt::provider(s, k), Ok(provider));
        assert_eq!(authorities.len(), provider.number_of_authorities);
        for (i, authority) in authorities.into_iter().enumerate() {
            assert_eq!(rnt::authority(s, k, i), Ok(authority));
        }
    }
    assert_eq!(rct::read(s), Err(Refusal::NotRct(0x76, 0x79)));
}

#[test]
fn of_this_version() {
    let (major, minor, patch) = version();
    assert_eq!(format!("{major}.{minor}.{patch}"), env!("CARGO_PKG_VERSION"));
}
