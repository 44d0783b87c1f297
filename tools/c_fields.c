/* Holds the records of eallunsa.h to those of the library: what is handed in has to come out as bytes, and bytes have to
 * come out as records, field by field, with another number in each as far as its width allows. The bytes are those of
 * examples/sections.hex, handed in on standard input: encoded from the tables of the standard, not by the library. Prints
 * the version, and what differs. */
#include "eallunsa.h"

#include <stdio.h>
#include <string.h>

static int bad;

static void same(int line, const char *what, unsigned long long got, unsigned long long want)
{
    if (got != want) {
        printf("c_fields.c:%d: %s is %llu, not %llu\n", line, what, got, want);
        bad = 1;
    }
}
#define SAME(got, want) same(__LINE__, #got, (unsigned long long)(got), (unsigned long long)(want))

static size_t from_hex(uint8_t *s, const char *hex)
{
    size_t n = 0;
    for (unsigned byte; sscanf(hex + 2 * n, "%2x", &byte) == 1; n++)
        s[n] = (uint8_t)byte;
    return n;
}

static const uint8_t text[] = "..www.aTitelTitre!\x4a\x01\x07\x5f";
enum { TEXT = sizeof text }; /* with its last 0, which is the length of the second descriptor */

/* A related content section of no links, of one, two and three, and a resolution notification section, in hex. */
enum { SECTIONS = 5, RESOLUTION = 4 };
static char sections[SECTIONS][300];

static eallunsa_rct_header header(void)
{
    return (eallunsa_rct_header){{.section_syntax_indicator = 1,
                                  .private_indicator = 0,
                                  .reserved_b1 = 2,
                                  .table_id_extension = 0x1234,
                                  .reserved_b5 = 1,
                                  .version_number = 21,
                                  .current_next_indicator = 200, /* a flag: anything but 0 */
                                  .section_number = 5,
                                  .last_section_number = 9},
                                 .year_offset = 2026};
}

static void same_header(eallunsa_header h)
{
    SAME(h.section_syntax_indicator, 1);
    SAME(h.private_indicator, 0);
    SAME(h.reserved_b1, 2);
    SAME(h.table_id_extension, 0x1234);
    SAME(h.reserved_b5, 1);
    SAME(h.version_number, 21);
    SAME(h.current_next_indicator, 1);
    SAME(h.section_number, 5);
    SAME(h.last_section_number, 9);
}

static eallunsa_link link_of(size_t k)
{
    eallunsa_link l;
    memset(&l, 0xA5, sizeof l); /* what does not count is not looked at */
    eallunsa_fields f = {0};
    if (k == 0) {
        f = (eallunsa_fields){.reserved_link_info_length = 9,
                              .link_type = 2,
                              .reserved_link_type = 1,
                              .how_related = 37,
                              .term_id = 0x5a7,
                              .group_id = 6,
                              .precedence = 11,
                              .has_media_uri = 77,
                              .media_uri = {2, 5},
                              .has_dvb_binary_locator = 88,
                              .reserved_number_items = 2,
                              .number_items = 2,
                              .default_icon_flag = 99,
                              .icon_id = 5,
                              .descriptors = {18, 3}};
        f.dvb_binary_locator = (eallunsa_locator){.start_date = 300, .start_time = 1404, .duration = 1505};
        f.dvb_binary_locator.service = (eallunsa_service){.inline_service = 66,
                                                          .dvb_service_triplet_id = 9999,
                                                          .reserved_inline_service = 2,
                                                          .transport_stream_id = 1101,
                                                          .original_network_id = 1202,
                                                          .service_id = 1303};
        f.dvb_binary_locator.identifier = (eallunsa_identifier){.identifier_type = 3, .component = 77, .id = 1606};
        l.items[0] = (eallunsa_item){{'d', 'e', 'u'}, {7, 5}};
        l.items[1] = (eallunsa_item){{'f', 'r', 'a'}, {12, 6}};
    } else if (k == 1) {
        f = (eallunsa_fields){.reserved_link_info_length = 6,
                              .link_type = 1,
                              .reserved_link_type = 2,
                              .how_related = 14,
                              .term_id = 0x2c9,
                              .group_id = 9,
                              .precedence = 4,
                              .media_uri = {9999, 9999},
                              .has_dvb_binary_locator = 1,
                              .reserved_number_items = 1,
                              .icon_id = 3};
        f.dvb_binary_locator = (eallunsa_locator){
            .scheduled_time_reliability = 55, .reserved = 1, .start_date = 411, .start_time = 1707, .duration = 1808};
        f.dvb_binary_locator.service = (eallunsa_service){.dvb_service_triplet_id = 617, .service_id = 9999};
        f.dvb_binary_locator.windows =
            (eallunsa_windows){.present = 44, .early_start_window = 5, .late_end_window = 19};
    } else {
        f = (eallunsa_fields){.reserved_link_info_length = 12,
                              .link_type = 0,
                              .reserved_link_type = 3,
                              .how_related = 63,
                              .term_id = 0xf0,
                              .group_id = 1,
                              .precedence = 2,
                              .has_media_uri = 1,
                              .media_uri = {2, 5},
                              .reserved_number_items = 3,
                              .number_items = 1,
                              .icon_id = 6};
        l.items[0] = (eallunsa_item){{'e', 'n', 'g'}, {0, 0}};
    }
    l.fields = f;
    return l;
}

/* The first link and the second as they are read; places are counted from the section's first byte. */
static void same_first(eallunsa_fields f)
{
    SAME(f.reserved_link_info_length, 9);
    SAME(f.link_type, 2);
    SAME(f.reserved_link_type, 1);
    SAME(f.how_related, 37);
    SAME(f.term_id, 0x5a7);
    SAME(f.group_id, 6);
    SAME(f.precedence, 11);
    SAME(f.has_media_uri, 1);
    SAME(f.media_uri.start, 18);
    SAME(f.media_uri.length, 5);
    SAME(f.has_dvb_binary_locator, 1);
    SAME(f.dvb_binary_locator.scheduled_time_reliability, 0);
    SAME(f.dvb_binary_locator.reserved, 0);
    SAME(f.dvb_binary_locator.start_date, 300);
    SAME(f.dvb_binary_locator.service.inline_service, 1);
    SAME(f.dvb_binary_locator.service.dvb_service_triplet_id, 0);
    SAME(f.dvb_binary_locator.service.reserved_inline_service, 2);
    SAME(f.dvb_binary_locator.service.transport_stream_id, 1101);
    SAME(f.dvb_binary_locator.service.original_network_id, 1202);
    SAME(f.dvb_binary_locator.service.service_id, 1303);
    SAME(f.dvb_binary_locator.start_time, 1404);
    SAME(f.dvb_binary_locator.duration, 1505);
    SAME(f.dvb_binary_locator.identifier.identifier_type, 3);
    SAME(f.dvb_binary_locator.identifier.component, 77);
    SAME(f.dvb_binary_locator.identifier.id, 1606);
    SAME(f.dvb_binary_locator.windows.present, 0);
    SAME(f.reserved_number_items, 2);
    SAME(f.number_items, 2);
    SAME(f.default_icon_flag, 1);
    SAME(f.icon_id, 5);
    SAME(f.descriptors.start, 60);
    SAME(f.descriptors.length, 3);
}

static void same_second(eallunsa_fields f)
{
    SAME(f.has_media_uri, 0);
    SAME(f.media_uri.start, 0);
    SAME(f.media_uri.length, 0);
    SAME(f.has_dvb_binary_locator, 1);
    SAME(f.dvb_binary_locator.scheduled_time_reliability, 1);
    SAME(f.dvb_binary_locator.reserved, 1);
    SAME(f.dvb_binary_locator.start_date, 411);
    SAME(f.dvb_binary_locator.service.inline_service, 0);
    SAME(f.dvb_binary_locator.service.dvb_service_triplet_id, 617);
    SAME(f.dvb_binary_locator.service.service_id, 0);
    SAME(f.dvb_binary_locator.identifier.identifier_type, 0);
    SAME(f.dvb_binary_locator.windows.present, 1);
    SAME(f.dvb_binary_locator.windows.early_start_window, 5);
    SAME(f.dvb_binary_locator.windows.late_end_window, 19);
    SAME(f.number_items, 0);
    SAME(f.default_icon_flag, 0);
    SAME(f.icon_id, 3);
}

static void same_item(eallunsa_item item, const char *language, uint32_t start, uint32_t length)
{
    SAME(memcmp(item.language_code, language, 3), 0);
    SAME(item.promotional_text.start, start);
    SAME(item.promotional_text.length, length);
}

static int same_index(const eallunsa_index *a, const eallunsa_index *b)
{
    return memcmp(&a->uri, &b->uri, sizeof a->uri) == 0 && memcmp(&a->locator, &b->locator, sizeof a->locator) == 0 &&
           memcmp(&a->icon, &b->icon, sizeof a->icon) == 0 && memcmp(a->places, b->places, sizeof a->places) == 0 &&
           a->descriptors == b->descriptors;
}

static void written(void)
{
    uint8_t b[256] = {0}, indexed[256] = {0}, want[256];
    eallunsa_edit_answer made = eallunsa_rct_make(b, sizeof b, header(), 10, text, TEXT, (eallunsa_range){18, 5});
    eallunsa_index index = eallunsa_rct_index(b, made.total).index;
    memcpy(indexed, b, sizeof b);
    for (size_t k = 0; k <= 3; k++) {
        size_t n = from_hex(want, sections[k]);
        SAME(made.refusal.number, 0);
        SAME(made.total, n);
        SAME(memcmp(b, want, n), 0);
        SAME(memcmp(indexed, want, n), 0);
        eallunsa_index_answer anew = eallunsa_rct_index(want, n);
        SAME(anew.refusal.number, 0);
        SAME(same_index(&anew.index, &index), 1);
        if (k == 3)
            break;
        made = eallunsa_rct_append(b, sizeof b, text, TEXT, link_of(k));
        eallunsa_index_edit_answer edit = eallunsa_rct_index_append(indexed, sizeof indexed, text, TEXT, link_of(k), index);
        SAME(edit.refusal.number, 0);
        SAME(edit.total, made.total);
        index = edit.index;
    }
    made = eallunsa_rct_replace(b, sizeof b, 0, text, TEXT, link_of(2));
    eallunsa_index_edit_answer edit = eallunsa_rct_index_replace(indexed, sizeof indexed, 0, text, TEXT, link_of(2), index);
    SAME(edit.total, made.total);
    SAME(memcmp(b, indexed, sizeof b), 0);
    eallunsa_index_answer anew = eallunsa_rct_index(b, made.total);
    SAME(same_index(&anew.index, &edit.index), 1);
    SAME(edit.index.locator.words[0], 2);

    eallunsa_edit_answer refused = eallunsa_rct_append(b, 21, text, TEXT, link_of(0));
    SAME(refused.refusal.number, EALLUNSA_WRONG_LENGTH);
    SAME(refused.refusal.first, made.total - 3);
    SAME(refused.refusal.second, 21);
    SAME(refused.total, 0);
}

static void read_back(void)
{
    uint8_t s[256];
    size_t n = from_hex(s, sections[3]);
    eallunsa_rct_answer plain = eallunsa_rct_read(s, n), r = eallunsa_rct_check(s, n);
    SAME(plain.total, n);
    SAME(r.refusal.number, 0);
    SAME(r.total, n);
    same_header(r.header.section);
    SAME(r.header.year_offset, 2026);
    SAME(r.number_of_links, 3);
    SAME(r.reserved_descriptor_loop_length, 10);
    SAME(r.descriptors.start, 101);
    SAME(r.descriptors.length, 5);

    eallunsa_link_answer first = eallunsa_rct_link(s, n, 0), second = eallunsa_rct_link(s, n, 1);
    SAME(first.refusal.number, 0);
    same_first(first.link.fields);
    same_item(first.link.items[0], "deu", 43, 5);
    same_item(first.link.items[1], "fra", 52, 6);
    same_item(first.link.items[62], "\0\0\0", 0, 0);
    same_second(second.link.fields);
    same_item(eallunsa_rct_item(s, n, 0, 1).item, "fra", 52, 6);
    same_item(eallunsa_rct_item(s, n, 2, 0).item, "eng", 97, 0);

    eallunsa_entry_answer entry = eallunsa_rct_entry(s, n - 4, EALLUNSA_RCT_FIRST_ENTRY);
    same_first(entry.fields);
    SAME(entry.items_at, 39);
    SAME(entry.next, 63);
    eallunsa_step_answer step = eallunsa_item_from(s, n - 4, entry.items_at);
    same_item(step.item, "deu", 43, 5);
    SAME(step.next, 48);
    entry = eallunsa_rct_entry(s, n - 4, entry.next);
    same_second(entry.fields);
    SAME(entry.next, 80);

    eallunsa_link_answer none = eallunsa_rct_link(s, n, 7);
    SAME(none.refusal.number, EALLUNSA_NO_SUCH_NUMBER);
    SAME(none.refusal.first, 7);
    SAME(none.refusal.second, 3);
}

static void indexes(void)
{
    uint8_t s[256];
    size_t n = from_hex(s, sections[3]);
    eallunsa_index index = eallunsa_rct_index(s, n).index;
    SAME(index.uri.words[0], 5);
    SAME(index.locator.words[0], 3);
    SAME(index.icon.words[0], 1);
    SAME(index.places[0], 11);
    SAME(index.places[1], 63);
    SAME(index.places[2], 80);
    SAME(index.places[3], 0);
    SAME(index.descriptors, 2);
    SAME(eallunsa_index_place(index.places, EALLUNSA_MOST_LINKS, 2), 80);
    SAME(eallunsa_index_place(index.places, EALLUNSA_MOST_LINKS, 255), 0);

    eallunsa_set set = {{1ull << 3, 1ull << 5, 1ull << 7, 1ull << 63}};
    SAME(eallunsa_set_count(set), 4);
    for (size_t k = 0; k < 300; k++)
        SAME(eallunsa_set_has(set, k), k == 3 || k == 69 || k == 135 || k == 255);

    /* An edit that is refused hands the index back as it was, whatever it was. */
    for (uint64_t k = 0; k < 4; k++) {
        index.uri.words[k] = 0x0101010101010101 * (k + 1);
        index.locator.words[k] = 0x0101010101010101 * (k + 5);
        index.icon.words[k] = 0x0101010101010101 * (k + 9);
    }
    for (uint16_t k = 0; k < EALLUNSA_MOST_LINKS; k++)
        index.places[k] = (uint16_t)(257 * k + 1);
    index.descriptors = 54321;
    eallunsa_index_edit_answer edit = eallunsa_rct_index_replace(s, n, 9, text, TEXT, link_of(0), index);
    SAME(edit.refusal.number, EALLUNSA_NO_SUCH_NUMBER);
    SAME(edit.refusal.first, 9);
    SAME(edit.refusal.second, 3);
    SAME(edit.total, 0);
    SAME(same_index(&edit.index, &index), 1);
}

static void resolution(void)
{
    uint8_t s[128];
    size_t n = from_hex(s, sections[RESOLUTION]);
    eallunsa_rnt_answer plain = eallunsa_rnt_read(s, n), r = eallunsa_rnt_check(s, n);
    SAME(plain.total, n);
    SAME(r.refusal.number, 0);
    SAME(r.total, n);
    SAME(r.header.section_syntax_indicator, 1);
    SAME(r.header.private_indicator, 1);
    SAME(r.header.reserved_b1, 1);
    SAME(r.header.table_id_extension, 0x4321);
    SAME(r.header.reserved_b5, 2);
    SAME(r.header.version_number, 13);
    SAME(r.header.current_next_indicator, 0);
    SAME(r.header.section_number, 3);
    SAME(r.header.last_section_number, 7);
    SAME(r.context_id_type, 8);
    SAME(r.reserved_common_descriptors_length, 11);
    SAME(r.common_descriptors.start, 11);
    SAME(r.common_descriptors.length, 4);
    SAME(r.number_of_providers, 2);

    eallunsa_provider_answer p = eallunsa_rnt_provider(s, n, 0);
    SAME(p.refusal.number, 0);
    SAME(p.provider.reserved_info_length, 9);
    SAME(p.provider.name.start, 18);
    SAME(p.provider.name.length, 5);
    SAME(p.provider.reserved_descriptors_length, 6);
    SAME(p.provider.descriptors.start, 25);
    SAME(p.provider.descriptors.length, 3);
    SAME(p.provider.authorities_at, 28);
    SAME(p.provider.end, 55);
    SAME(p.number_of_authorities, 2);
    eallunsa_provider_found found = eallunsa_rnt_provider_at(s, n, (uint16_t)(n - 4), 55);
    SAME(found.refusal.number, 0);
    SAME(found.provider.reserved_info_length, 12);
    SAME(found.provider.reserved_descriptors_length, 3);
    SAME(found.provider.name.start, 58);
    SAME(found.provider.end, n - 4);

    eallunsa_authority_answer a = eallunsa_rnt_authority(s, n, 0, 1);
    SAME(a.refusal.number, 0);
    SAME(a.authority.name.start, 39);
    SAME(a.authority.name.length, 10);
    SAME(a.authority.reserved, 3);
    SAME(a.authority.crid_authority_policy, 1);
    SAME(a.authority.descriptors.start, 51);
    SAME(a.authority.descriptors.length, 4);
    eallunsa_authority_found first = eallunsa_rnt_authority_at(s, n, p.provider.end, p.provider.authorities_at);
    SAME(first.refusal.number, 0);
    SAME(first.authority.name.start, 29);
    SAME(first.authority.name.length, 7);
    SAME(first.authority.reserved, 1);
    SAME(first.authority.crid_authority_policy, 2);
    SAME(first.next, 38);
    SAME(eallunsa_rnt_authority(s, n, 1, 0).refusal.number, EALLUNSA_NO_SUCH_NUMBER);
}

int main(void)
{
    for (size_t k = 0; k < SECTIONS; k++)
        SAME(scanf("%299s", sections[k]), 1);
    eallunsa_version_number version = eallunsa_version();
    printf("%u.%u.%u\n", version.major, version.minor, version.patch);
    SAME(eallunsa_crc((const uint8_t *)"123456789", 9), 0x0376E6E7); /* the check value of CRC-32/MPEG-2 */
    written();
    read_back();
    indexes();
    resolution();
    return bad;
}
