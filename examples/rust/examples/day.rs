//! The inserter's day of examples/c/day.c, without a line of unsafe code.
#![forbid(unsafe_code)]

use eallunsa::{rct, Header, Identifier, Item, Link, Locator, RctHeader, Refusal, Service, Windows};

const ROOM: usize = 160;

/// Tonight's programme by its time: a link of type 1 has a locator.
fn programme(start_time: u16) -> Link<'static> {
    Link {
        reserved_link_info_length: 15,
        link_type: 1,
        reserved_link_type: 3,
        how_related: 2,
        term_id: 17,
        group_id: 1,
        precedence: 1,
        media_uri: None,
        dvb_binary_locator: Some(Locator {
            scheduled_time_reliability: true,
            reserved: 1,
            start_date: 320,
            service: Service::Triplet(77),
            start_time,
            duration: 1350,
            identifier: Identifier::None,
            windows: Some(Windows { early_start: 2, late_end: 5 }),
        }),
        reserved_number_items: 3,
        items: vec![Item { language_code: *b"eng", promotional_text: b"Tonight at eight" }],
        default_icon_flag: false,
        icon_id: 1,
        descriptors: &[],
    }
}

/// The page about the programme: a link of type 0 has a URI.
fn page() -> Link<'static> {
    Link {
        link_type: 0,
        term_id: 23,
        precedence: 2,
        media_uri: Some(b"https://www.example.org/"),
        dvb_binary_locator: None,
        items: vec![Item { language_code: *b"eng", promotional_text: b"The making of" }],
        icon_id: 0,
        ..programme(0)
    }
}

fn later_programme() -> Link<'static> {
    let mut link = programme(54016);
    link.items.push(Item { language_code: *b"deu", promotional_text: b"Heute um acht" });
    link
}

/// The page also leads to a broadcast: a link of type 2 has both.
fn page_and_broadcast() -> Link<'static> {
    Link {
        link_type: 2,
        dvb_binary_locator: Some(Locator {
            scheduled_time_reliability: false,
            reserved: 1,
            start_date: 321,
            service: Service::Inline {
                reserved: 3,
                transport_stream_id: 1101,
                original_network_id: 1,
                service_id: 28106,
            },
            start_time: 46592,
            duration: 900,
            identifier: Identifier::EventId(7041),
            windows: None,
        }),
        ..page()
    }
}

fn header() -> RctHeader {
    let section = Header {
        section_syntax_indicator: true,
        private_indicator: true,
        reserved_b1: 3,
        table_id_extension: 28106,
        reserved_b5: 3,
        version_number: 4,
        current_next_indicator: true,
        section_number: 0,
        last_section_number: 0,
    };
    RctHeader { section, year_offset: 2026 }
}

fn print_edit(what: &str, buffer: &[u8], answer: Result<usize, Refusal>) {
    match answer {
        Ok(total) => {
            let hex: String = buffer[..total].iter().map(|byte| format!("{byte:02x}")).collect();
            println!("{what}: {total} bytes\n{hex}");
        }
        Err(refusal) => println!("{what}: {refusal}"),
    }
}

fn print_locator(l: &Locator) {
    print!("  locator: date {} time {} duration {}", l.start_date, l.start_time, l.duration);
    match l.service {
        Service::Triplet(id) => print!(" triplet {id}"),
        Service::Inline { transport_stream_id, original_network_id, service_id, .. } => {
            print!(" service {original_network_id}.{transport_stream_id}.{service_id}")
        }
    }
    match l.identifier {
        Identifier::None => {}
        Identifier::EventId(id) => print!(" identifier {id} of type 1"),
        Identifier::TvaIdInEit(id) => print!(" identifier {id} of type 2"),
        Identifier::TvaIdInPes { id, .. } => print!(" identifier {id} of type 3"),
    }
    if let Some(windows) = l.windows {
        print!(" windows {} {}", windows.early_start, windows.late_end);
    }
    println!();
}

fn print_section(s: &[u8]) -> Result<(), Refusal> {
    let section = rct::check(s)?;
    let Header { table_id_extension, version_number, .. } = section.header.section;
    println!(
        "section of service {table_id_extension}, version {version_number}, year {}, {} links",
        section.header.year_offset, section.number_of_links
    );
    for (k, link) in section.links().enumerate() {
        println!("link {k}: type {} how_related {} term {}", link.link_type, link.how_related, link.term_id);
        if let Some(uri) = link.media_uri {
            println!("  uri: {}", String::from_utf8_lossy(uri));
        }
        if let Some(locator) = &link.dvb_binary_locator {
            print_locator(locator);
        }
        for item in &link.items {
            let language = String::from_utf8_lossy(&item.language_code);
            println!("  item {language}: {}", String::from_utf8_lossy(item.promotional_text));
        }
    }
    Ok(())
}

fn print_changed(before: &[u8], after: &[u8]) {
    println!("{}", if before == after { "no byte has changed" } else { "BYTES HAVE CHANGED" });
}

fn main() -> Result<(), Refusal> {
    let mut buffer = [0; ROOM];
    let made = rct::make(&mut buffer, &header(), 15, &[]);
    print_edit("make", &buffer, made);
    for link in [programme(52224), page()] {
        let appended = rct::append(&mut buffer, &link);
        print_edit("append", &buffer, appended);
    }

    // An editor clears the locator and leaves the type at 1.
    let cleared = Link { dvb_binary_locator: None, ..programme(52224) };
    let before = buffer;
    let refused = rct::replace(&mut buffer, 0, &cleared);
    print_edit("replace 0 without its locator", &buffer, refused);
    print_changed(&before, &buffer);
    assert_eq!(refused, Err(Refusal::AgainstType(1, 0)));

    let replaced = rct::replace(&mut buffer, 0, &later_programme());
    print_edit("replace 0", &buffer, replaced);
    let replaced = rct::replace(&mut buffer, 1, &page_and_broadcast());
    print_edit("replace 1", &buffer, replaced);
    let total = replaced?;
    print_section(&buffer[..total])?;

    // Evening: a byte was damaged on the way. The section is not edited, and its CRC is not made good.
    buffer[total - 1] ^= 1;
    if let Err(refusal) = print_section(&buffer[..total]) {
        println!("check: {refusal}");
    }
    let before = buffer;
    let refused = rct::replace(&mut buffer, 0, &programme(52224));
    print_edit("replace 0", &buffer, refused);
    let refused = rct::append(&mut buffer, &programme(52224));
    print_edit("append", &buffer, refused);
    print_changed(&before, &buffer);
    Ok(())
}
