/* The texts and the links of the day in scripts/day.txt, and what the examples share. */
#ifndef LINKS_H
#define LINKS_H

#include "eallunsa.h"

#include <stdio.h>
#include <string.h>

/* One text for all links: a record has ranges of it. */
static const uint8_t text[] = "https://www.example.org/Tonight at eightHeute um achtThe making of";
enum { TEXT_LENGTH = sizeof text - 1 };
static const eallunsa_range page_uri = {0, 24}, tonight = {24, 16}, heute = {40, 13}, making_of = {53, 13};

static inline eallunsa_rct_header day_header(void)
{
    eallunsa_rct_header header = {.year_offset = 2026};
    header.section.section_syntax_indicator = 1;
    header.section.private_indicator = 1; /* table_id_extension_flag: the extension is a service_id */
    header.section.reserved_b1 = 3;       /* the standard's reserved bits are ones */
    header.section.table_id_extension = 28106;
    header.section.reserved_b5 = 3;
    header.section.version_number = 4;
    header.section.current_next_indicator = 1;
    return header;
}

static inline void add_item(eallunsa_link *link, const char *language, eallunsa_range range)
{
    eallunsa_item *item = &link->items[link->fields.number_items++];
    memcpy(item->language_code, language, 3);
    item->promotional_text = range;
}

static inline eallunsa_link any_link(uint16_t type, uint16_t term, uint16_t precedence)
{
    eallunsa_link link = {0};
    link.fields.reserved_link_info_length = 15;
    link.fields.link_type = type;
    link.fields.reserved_link_type = 3;
    link.fields.how_related = 2;
    link.fields.term_id = term;
    link.fields.group_id = 1;
    link.fields.precedence = precedence;
    link.fields.reserved_number_items = 3;
    return link;
}

/* Tonight's programme by its time: a link of type 1 has a locator. */
static inline eallunsa_link programme(uint16_t start_time)
{
    eallunsa_link link = any_link(1, 17, 1);
    link.fields.has_dvb_binary_locator = 1;
    link.fields.dvb_binary_locator = (eallunsa_locator){
        .scheduled_time_reliability = 1,
        .reserved = 1,
        .start_date = 320,
        .service = {.dvb_service_triplet_id = 77},
        .start_time = start_time,
        .duration = 1350,
        .windows = {.present = 1, .early_start_window = 2, .late_end_window = 5},
    };
    link.fields.icon_id = 1;
    add_item(&link, "eng", tonight);
    return link;
}

/* Desk A: the programme starts later, and has a German text too. */
static inline eallunsa_link later_programme(void)
{
    eallunsa_link link = programme(54016);
    add_item(&link, "deu", heute);
    return link;
}

/* The page about the programme: a link of type 0 has a URI. */
static inline eallunsa_link page(void)
{
    eallunsa_link link = any_link(0, 23, 2);
    link.fields.has_media_uri = 1;
    link.fields.media_uri = page_uri;
    add_item(&link, "eng", making_of);
    return link;
}

/* Desk B: the page also leads to a broadcast: a link of type 2 has both. */
static inline eallunsa_link page_and_broadcast(void)
{
    eallunsa_link link = page();
    link.fields.link_type = 2;
    link.fields.has_dvb_binary_locator = 1;
    link.fields.dvb_binary_locator = (eallunsa_locator){
        .reserved = 1,
        .start_date = 321,
        .service = {.inline_service = 1,
                    .reserved_inline_service = 3,
                    .transport_stream_id = 1101,
                    .original_network_id = 1,
                    .service_id = 28106},
        .start_time = 46592,
        .duration = 900,
        .identifier = {.identifier_type = 1, .id = 7041},
    };
    return link;
}

static inline void print_bytes(const uint8_t *s, size_t n)
{
    for (size_t k = 0; k < n; k++)
        printf("%02x", s[k]);
    printf("\n");
}

/* What an edit answered: the section in the buffer, or the refusal. */
static inline void print_edit(const char *what, const uint8_t *buffer, eallunsa_edit_answer answer)
{
    if (answer.refusal.number != 0) {
        printf("%s: refused %u %zu %zu\n", what, answer.refusal.number, answer.refusal.first, answer.refusal.second);
        return;
    }
    printf("%s: %zu bytes\n", what, answer.total);
    print_bytes(buffer, answer.total);
}

/* Morning: a section without links, and the two links. */
static inline void morning(uint8_t *buffer, size_t room)
{
    const eallunsa_range no_descriptors = {0, 0};
    memset(buffer, 0, room);
    print_edit("make", buffer, eallunsa_rct_make(buffer, room, day_header(), 15, text, TEXT_LENGTH, no_descriptors));
    print_edit("append", buffer, eallunsa_rct_append(buffer, room, text, TEXT_LENGTH, programme(52224)));
    print_edit("append", buffer, eallunsa_rct_append(buffer, room, text, TEXT_LENGTH, page()));
}

#endif
