/* An inserter's day: a section is made, gets two links, is edited and read back; what must not happen is refused. */
#include "links.h"

enum { ROOM = 160 };

/* A range of a link that was read is of the bytes that it was read from. */
static void print_text(const char *what, const uint8_t *s, eallunsa_range range)
{
    printf("  %s %.*s\n", what, (int)range.length, (const char *)s + range.start);
}

static void print_locator(eallunsa_locator l)
{
    printf("  locator: date %u time %u duration %u", l.start_date, l.start_time, l.duration);
    if (l.service.inline_service)
        printf(" service %u.%u.%u", l.service.original_network_id, l.service.transport_stream_id, l.service.service_id);
    else
        printf(" triplet %u", l.service.dvb_service_triplet_id);
    if (l.identifier.identifier_type != 0)
        printf(" identifier %u of type %u", l.identifier.id, l.identifier.identifier_type);
    if (l.windows.present)
        printf(" windows %u %u", l.windows.early_start_window, l.windows.late_end_window);
    printf("\n");
}

static void print_section(const uint8_t *s, size_t n)
{
    eallunsa_rct_answer section = eallunsa_rct_check(s, n);
    if (section.refusal.number != 0) {
        printf("check: refused %u %zu %zu\n", section.refusal.number, section.refusal.first, section.refusal.second);
        return;
    }
    printf("section of service %u, version %u, year %u, %zu links\n", section.header.section.table_id_extension,
           section.header.section.version_number, section.header.year_offset, section.number_of_links);
    for (size_t k = 0; k < section.number_of_links; k++) {
        eallunsa_link link = eallunsa_rct_link(s, n, k).link; /* the section was read: link k is there */
        printf("link %zu: type %u how_related %u term %u\n", k, link.fields.link_type, link.fields.how_related,
               link.fields.term_id);
        if (link.fields.has_media_uri)
            print_text("uri:", s, link.fields.media_uri);
        if (link.fields.has_dvb_binary_locator)
            print_locator(link.fields.dvb_binary_locator);
        for (size_t i = 0; i < link.fields.number_items; i++) {
            char what[] = "item ...:";
            memcpy(what + 5, link.items[i].language_code, 3);
            print_text(what, s, link.items[i].promotional_text);
        }
    }
}

int main(void)
{
    uint8_t buffer[ROOM], before[ROOM];
    morning(buffer, ROOM);

    /* An editor clears the locator and leaves the type at 1. */
    eallunsa_link cleared = programme(52224);
    cleared.fields.has_dvb_binary_locator = 0;
    memcpy(before, buffer, ROOM);
    eallunsa_edit_answer answer = eallunsa_rct_replace(buffer, ROOM, 0, text, TEXT_LENGTH, cleared);
    print_edit("replace 0 without its locator", buffer, answer);
    printf("%s\n", memcmp(before, buffer, ROOM) == 0 ? "no byte has changed" : "BYTES HAVE CHANGED");
    if (answer.refusal.number != EALLUNSA_AGAINST_TYPE)
        return 1;

    answer = eallunsa_rct_replace(buffer, ROOM, 0, text, TEXT_LENGTH, later_programme());
    print_edit("replace 0", buffer, answer);
    answer = eallunsa_rct_replace(buffer, ROOM, 1, text, TEXT_LENGTH, page_and_broadcast());
    print_edit("replace 1", buffer, answer);
    print_section(buffer, answer.total);

    /* Evening: a byte was damaged on the way. The section is not edited, and its CRC is not made good. */
    buffer[answer.total - 1] ^= 1;
    print_section(buffer, answer.total);
    memcpy(before, buffer, ROOM);
    print_edit("replace 0", buffer, eallunsa_rct_replace(buffer, ROOM, 0, text, TEXT_LENGTH, programme(52224)));
    print_edit("append", buffer, eallunsa_rct_append(buffer, ROOM, text, TEXT_LENGTH, programme(52224)));
    printf("%s\n", memcmp(before, buffer, ROOM) == 0 ? "no byte has changed" : "BYTES HAVE CHANGED");
    return 0;
}
