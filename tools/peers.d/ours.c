/* ours make: sections that the library writes, a line 'NAME HEX' each.
   ours read: takes such lines and holds each section to the checked reading of its table; a line 'NAME accepted COUNT', of
   links or providers, or 'NAME refused NUMBER' each. Standard input and output. */
#include "eallunsa.h"
#include <stdio.h>
#include <stdlib.h>
#include <string.h>

enum { LIMIT = 4096, FREE_ROOM = 4200 };

static uint8_t section[FREE_ROOM], text[FREE_ROOM];
static size_t total;
static eallunsa_rct_header header;

static void fail(const char *what, unsigned long number)
{
    fprintf(stderr, "ours: %s: %lu\n", what, number);
    exit(1);
}

static void show(const char *name)
{
    printf("%s ", name);
    for (size_t i = 0; i < total; i++) printf("%02x", section[i]);
    putchar('\n');
}

/* ---- making: each step has to be accepted */

static void done(eallunsa_edit_answer answer)
{
    if (answer.refusal.number) fail("an edit is refused", answer.refusal.number);
    total = answer.total;
}

static void start(size_t descriptors)
{
    memset(section, 0, sizeof section);
    done(eallunsa_rct_make(section, sizeof section, header, 15, text, sizeof text, (eallunsa_range){0, descriptors}));
}

/* A link of a type with items of so many bytes of text each, the last one's apart, and with so many bytes of descriptors. The
   lowest two bits of the locator's kind are the identifier type, then come reliability and an inline service. */
static eallunsa_link link_of(unsigned type, size_t uri, unsigned kind, size_t items, size_t each, size_t last, size_t descriptors)
{
    eallunsa_link l;
    memset(&l, 0, sizeof l);
    l.fields.reserved_link_info_length = 15;
    l.fields.link_type = (uint16_t)type;
    l.fields.reserved_link_type = 3;
    l.fields.how_related = (uint16_t)(kind * 3 % 64);
    l.fields.term_id = (uint16_t)(total % 4096);
    l.fields.group_id = 9;
    l.fields.precedence = 4;
    l.fields.has_media_uri = type == 0 || type == 2;
    l.fields.media_uri = (eallunsa_range){7, (uint32_t)uri};
    l.fields.has_dvb_binary_locator = type == 1 || type == 2;
    l.fields.dvb_binary_locator.scheduled_time_reliability = kind >> 2 & 1;
    l.fields.dvb_binary_locator.reserved = 1;
    l.fields.dvb_binary_locator.start_date = 365;
    l.fields.dvb_binary_locator.service = (eallunsa_service){kind >> 3 & 1, 1001, 3, 0x0401, 0x2114, 0x6dca};
    l.fields.dvb_binary_locator.start_time = 0x2a30;
    l.fields.dvb_binary_locator.duration = 0x0546;
    l.fields.dvb_binary_locator.identifier = (eallunsa_identifier){kind & 3, 0x51, 0x77aa};
    l.fields.dvb_binary_locator.windows = (eallunsa_windows){(kind & 7) == 4, 5, 21};
    l.fields.reserved_number_items = 3;
    l.fields.number_items = items;
    l.fields.default_icon_flag = kind & 1;
    l.fields.icon_id = kind % 8;
    l.fields.descriptors = (eallunsa_range){0, (uint32_t)descriptors};
    for (size_t i = 0; i < items; i++)
        l.items[i] = (eallunsa_item){{'d', 'e', 'u'}, {(uint32_t)(13 * i), (uint32_t)(i + 1 < items ? each : last)}};
    return l;
}

static void append(eallunsa_link l) { done(eallunsa_rct_append(section, sizeof section, text, sizeof text, l)); }
static void replace(size_t k, eallunsa_link l) { done(eallunsa_rct_replace(section, sizeof section, k, text, sizeof text, l)); }

/* A link with descriptors up to the section's limit. */
static void fill(unsigned type) { append(link_of(type, 0, 0, 0, 0, 0, LIMIT - total - 2 - 4 - (type == 0) - 1 - 2)); }

static void make(void)
{
    char name[64];
    for (size_t i = 0; i + 1 < sizeof text; i += 2) text[i] = 0x5f, text[i + 1] = 0; /* descriptors of no bytes */
    header = (eallunsa_rct_header){{1, 1, 3, 0x6dca, 3, 0, 1, 0, 0}, 2026};

    start(0), show("empty");
    append(link_of(0, 31, 0, 0, 0, 0, 0)), show("one-link-uri");
    replace(0, link_of(0, 255, 0, 2, 20, 255, 8)), show("replaced-by-longer");
    replace(0, link_of(3, 0, 0, 0, 0, 0, 0)), show("replaced-by-shorter");
    start(0);
    for (int k = 0; k < 255; k++) append(link_of(3, 0, (unsigned)k, 0, 0, 0, 0));
    show("255-links");
    start(0), append(link_of(0, 0, 0, 63, 0, 0, 0)), show("63-items-empty");
    start(0), append(link_of(2, 100, 12, 63, 55, 255, 0)), show("63-items-texts");
    start(0), fill(0), show("one-link-to-the-limit");
    start(LIMIT - 17), show("descriptors-to-the-limit");
    start(400), append(link_of(2, 255, 15, 14, 195, 200, 16)), fill(3), show("all-to-the-limit");
    if (total != LIMIT) fail("not at the limit", total);

    /* URI, locator, both, neither, by link type, with the locator's forms */
    for (unsigned i = 0; i < 64; i++) {
        start(i % 5 * 2), append(link_of(i % 4 == 3 ? 3 + i % 13 : i % 4, i, i / 4, i % 3, i, 2 * i, i % 7 * 2));
        sprintf(name, "link-form-%02u", i), show(name);
    }
    /* the header's fields */
    for (unsigned i = 0; i < 32; i++) {
        header.section.version_number = (uint16_t)i;
        header.section.current_next_indicator = i % 2;
        header.section.private_indicator = i / 2 % 2;
        header.section.section_number = (uint8_t)i;
        header.section.last_section_number = (uint8_t)(31 + i);
        header.section.table_id_extension = (uint16_t)(i * 2111);
        header.year_offset = (uint16_t)(1990 + i);
        start(2), append(link_of(1, 0, i % 16, 1, 0, i, 2)), sprintf(name, "header-%02u", i), show(name);
    }
    header.section.version_number = 7;
    /* one section of each length from 17 to 399, each with a small one behind it, which then begins at each place of a packet */
    for (size_t n = 17; n <= 399; n++) {
        header.section.table_id_extension = (uint16_t)n;
        start(n - 17), sprintf(name, "length-%03zu", n), show(name);
        start(0), sprintf(name, "behind-%03zu", n), show(name);
    }
}

/* ---- reading */

static void read_all(void)
{
    static char name[64], hex[2 * FREE_ROOM + 1];
    while (scanf("%63s %8400s", name, hex) == 2) {
        size_t n = strlen(hex) / 2, count, read;
        unsigned byte, refusal;
        for (size_t i = 0; i < n; i++) {
            if (sscanf(hex + 2 * i, "%2x", &byte) != 1) fail("not hex", i);
            section[i] = (uint8_t)byte;
        }
        if (n && section[0] == 0x79) {
            eallunsa_rnt_answer r = eallunsa_rnt_check(section, n);
            refusal = r.refusal.number, read = r.total, count = r.number_of_providers;
        } else {
            eallunsa_rct_answer r = eallunsa_rct_check(section, n);
            refusal = r.refusal.number, read = r.total, count = r.number_of_links;
        }
        if (refusal) printf("%s refused %u\n", name, refusal);
        else if (read == n) printf("%s accepted %zu\n", name, count);
        else printf("%s accepted with %zu bytes of %zu\n", name, read, n);
    }
}

int main(int argc, char **argv)
{
    if (argc == 2 && !strcmp(argv[1], "make")) make();
    else if (argc == 2 && !strcmp(argv[1], "read")) read_all();
    else fail("usage: ours make | ours read", 0);
    return 0;
}
