#include "plain.h"
#include <string.h>

enum { LIMIT = 4096, SMALLEST = 17, FIRST = EALLUNSA_RCT_FIRST_ENTRY };

static size_t be16(const uint8_t *s) { return (size_t)s[0] << 8 | s[1]; }
static size_t be12(const uint8_t *s) { return be16(s) & 4095; }

static uint8_t *put16(uint8_t *s, size_t x)
{
    s[0] = (uint8_t)(x >> 8);
    s[1] = (uint8_t)x;
    return s + 2;
}

/* ---- the CRC by a table of 256 words, a byte at a time */

static uint32_t table[256];

__attribute__((constructor)) static void fill_table(void)
{
    for (uint32_t i = 0; i < 256; i++) {
        uint32_t c = i << 24;
        for (int k = 0; k < 8; k++) c = c << 1 ^ (c >> 31 ? 0x04C11DB7 : 0);
        table[i] = c;
    }
}

uint32_t plain_crc(const uint8_t *s, size_t n)
{
    uint32_t c = 0xFFFFFFFF;
    for (size_t i = 0; i < n; i++) c = c << 8 ^ table[c >> 24 ^ s[i]];
    return c;
}

/* ---- reading */

static size_t locator_size(uint8_t first)
{
    size_t type = first >> 6, n = first & 16 ? 12 : 7;
    return n + (type == 0 ? first >> 5 & 1 : type == 3 ? 3 : 2);
}

/* The rows of a link's body, which are refusals 6 to 16. */
static uint8_t body(const uint8_t *s, size_t n)
{
    if (n < 4) return EALLUNSA_BODY_TOO_SHORT;
    size_t type = s[0] >> 4, p = 4;
    if (type == 0 || type == 2) {
        if (n < 5) return EALLUNSA_URI_LENGTH_CUT;
        p = 5 + (size_t)s[4];
        if (n < p) return EALLUNSA_URI_CUT;
    }
    if (type == 1 || type == 2) {
        if (n <= p) return EALLUNSA_NO_LOCATOR;
        p += locator_size(s[p]);
        if (n < p) return EALLUNSA_LOCATOR_CUT;
    }
    if (n <= p) return EALLUNSA_ITEM_COUNT_CUT;
    for (size_t k = s[p++] & 63; k; k--) {
        if (n < p + 4) return EALLUNSA_ITEM_CUT;
        p += 4 + (size_t)s[p + 3];
        if (n < p) return EALLUNSA_TEXT_CUT;
    }
    if (n < p + 2) return EALLUNSA_ICON_CUT;
    p += 2 + be12(s + p);
    return n < p ? EALLUNSA_DESCRIPTORS_TOO_LONG : n > p ? EALLUNSA_LINK_SLACK : 0;
}

/* The rows of a section; where its loop begins, and its bytes. checked: with 38 and 28, and 20 at the end. */
static uint8_t rows(const uint8_t *s, size_t n, int checked, size_t *loop, size_t *total)
{
    if (n < SMALLEST) return EALLUNSA_TOO_SHORT;
    if (s[0] != 0x76) return EALLUNSA_NOT_RCT;
    if (checked && !(s[1] & 128)) return EALLUNSA_NO_SYNTAX_INDICATOR;
    size_t all = 3 + be12(s + 1), end = all - 4, p = FIRST;
    if (all < SMALLEST || n < all) return EALLUNSA_WRONG_LENGTH;
    if (checked && all > LIMIT) return EALLUNSA_SECTION_TOO_LONG;
    for (size_t k = s[10]; k; k--) {
        if (end < p + 2) return EALLUNSA_ENTRY_CUT;
        size_t m = be12(s + p);
        p += 2;
        if (end < p + m) return EALLUNSA_LINK_TOO_LONG;
        uint8_t refusal = body(s + p, m);
        if (refusal) return refusal;
        p += m;
    }
    if (end < p + 2) return EALLUNSA_LOOP_CUT;
    size_t last = p + 2 + be12(s + p);
    if (end < last) return EALLUNSA_LOOP_TOO_LONG;
    if (end > last) return EALLUNSA_SECTION_SLACK;
    if (checked && plain_crc(s, all)) return EALLUNSA_WRONG_CRC;
    *loop = p;
    *total = all;
    return 0;
}

static uint8_t answer(const uint8_t *s, size_t n, int checked, eallunsa_rct_answer *out)
{
    size_t loop, total;
    uint8_t refusal = rows(s, n, checked, &loop, &total);
    if (refusal) return refusal;
    eallunsa_header *h = &out->header.section;
    out->total = total;
    h->section_syntax_indicator = s[1] >> 7;
    h->private_indicator = s[1] >> 6 & 1;
    h->reserved_b1 = s[1] >> 4 & 3;
    h->table_id_extension = (uint16_t)be16(s + 3);
    h->reserved_b5 = s[5] >> 6;
    h->version_number = s[5] >> 1 & 31;
    h->current_next_indicator = s[5] & 1;
    h->section_number = s[6];
    h->last_section_number = s[7];
    out->header.year_offset = (uint16_t)be16(s + 8);
    out->number_of_links = s[10];
    out->reserved_descriptor_loop_length = s[loop] >> 4;
    out->descriptors = (eallunsa_range){(uint32_t)loop + 2, (uint32_t)be12(s + loop)};
    return 0;
}

uint8_t plain_read(const uint8_t *s, size_t n, eallunsa_rct_answer *out) { return answer(s, n, 0, out); }
uint8_t plain_check(const uint8_t *s, size_t n, eallunsa_rct_answer *out) { return answer(s, n, 1, out); }

/* ---- records: of an entry that was checked; where its items begin, or its icon where there are none */

static size_t fields(const uint8_t *s, size_t at, eallunsa_fields *f)
{
    const uint8_t *p = s + at + 2;
    f->reserved_link_info_length = s[at] >> 4;
    f->link_type = p[0] >> 4;
    f->reserved_link_type = p[0] >> 2 & 3;
    f->how_related = (uint16_t)((p[0] & 3) << 4 | p[1] >> 4);
    f->term_id = (uint16_t)be12(p + 1);
    f->group_id = p[3] >> 4;
    f->precedence = p[3] & 15;
    f->has_media_uri = f->link_type == 0 || f->link_type == 2;
    f->has_dvb_binary_locator = f->link_type == 1 || f->link_type == 2;
    p += 4;
    if (f->has_media_uri) {
        f->media_uri = (eallunsa_range){(uint32_t)(p + 1 - s), p[0]};
        p += 1 + p[0];
    }
    if (f->has_dvb_binary_locator) {
        eallunsa_locator *l = &f->dvb_binary_locator;
        memset(l, 0, sizeof *l);
        l->identifier.identifier_type = p[0] >> 6;
        l->scheduled_time_reliability = p[0] >> 5 & 1;
        l->service.inline_service = p[0] >> 4 & 1;
        l->reserved = p[0] >> 3 & 1;
        l->start_date = (uint16_t)((p[0] & 7) << 6 | p[1] >> 2);
        if (l->service.inline_service) {
            l->service.reserved_inline_service = p[1] & 3;
            l->service.transport_stream_id = (uint16_t)be16(p + 2);
            l->service.original_network_id = (uint16_t)be16(p + 4);
            l->service.service_id = (uint16_t)be16(p + 6);
            p += 8;
        } else {
            l->service.dvb_service_triplet_id = (uint16_t)(be16(p + 1) & 1023);
            p += 3;
        }
        l->start_time = (uint16_t)be16(p);
        l->duration = (uint16_t)be16(p + 2);
        p += 4;
        if (l->identifier.identifier_type) {
            l->identifier.id = (uint16_t)be16(p);
            p += 2;
            if (l->identifier.identifier_type == 3) l->identifier.component = *p++;
        } else if (l->scheduled_time_reliability) {
            l->windows = (eallunsa_windows){1, p[0] >> 5, p[0] & 31};
            p++;
        }
    }
    f->reserved_number_items = p[0] >> 6;
    f->number_items = p[0] & 63;
    return (size_t)(p + 1 - s);
}

static size_t item(const uint8_t *s, size_t at, eallunsa_item *i)
{
    memcpy(i->language_code, s + at, 3);
    i->promotional_text = (eallunsa_range){(uint32_t)at + 4, s[at + 3]};
    return at + 4 + s[at + 3];
}

static void icon(const uint8_t *s, size_t at, eallunsa_fields *f)
{
    f->default_icon_flag = s[at] >> 7;
    f->icon_id = s[at] >> 4 & 7;
    f->descriptors = (eallunsa_range){(uint32_t)at + 2, (uint32_t)be12(s + at)};
}

static size_t find(const uint8_t *s, size_t number)
{
    size_t p = FIRST;
    while (number--) p += 2 + be12(s + p);
    return p;
}

uint8_t plain_link(const uint8_t *s, size_t n, size_t number, eallunsa_link *out)
{
    size_t loop, total;
    uint8_t refusal = rows(s, n, 0, &loop, &total);
    if (refusal) return refusal;
    if (number >= s[10]) return EALLUNSA_NO_SUCH_NUMBER;
    size_t p = fields(s, find(s, number), &out->fields);
    for (size_t k = 0; k < out->fields.number_items; k++) p = item(s, p, &out->items[k]);
    icon(s, p, &out->fields);
    return 0;
}

uint8_t plain_walk(const uint8_t *s, size_t n, plain_visit_link *visit_link, plain_visit_item *visit_item)
{
    size_t loop, total, p = FIRST;
    uint8_t refusal = rows(s, n, 0, &loop, &total);
    if (refusal) return refusal;
    for (size_t k = 0; k < s[10]; k++) {
        eallunsa_fields f;
        eallunsa_item i;
        size_t next = p + 2 + be12(s + p), q = fields(s, p, &f), end = q;
        for (size_t j = 0; j < f.number_items; j++) end += 4 + (size_t)s[end + 3];
        icon(s, end, &f);
        visit_link(&f);
        for (size_t j = 0; j < f.number_items; j++) q = item(s, q, &i), visit_item(&i);
        p = next;
    }
    return 0;
}

/* ---- editing */

static int past(eallunsa_range r, size_t text) { return r.start > text || r.length > text - r.start; }

/* The rows of a link to be written, 23, 22, 24, 25; and the bytes of its body. */
static uint8_t draft(const eallunsa_link *link, size_t text, size_t *size)
{
    const eallunsa_fields *f = &link->fields;
    const eallunsa_locator *l = &f->dvb_binary_locator;
    int uri = f->has_media_uri != 0, locator = f->has_dvb_binary_locator != 0, in = l->service.inline_service != 0;
    if (uri != (f->link_type == 0 || f->link_type == 2) || locator != (f->link_type == 1 || f->link_type == 2))
        return EALLUNSA_AGAINST_TYPE;
    if (f->reserved_link_info_length > 15 || f->link_type > 15 || f->reserved_link_type > 3 || f->how_related > 63 ||
        f->term_id > 4095 || f->group_id > 15 || f->precedence > 15 || (uri && f->media_uri.length > 255) ||
        f->reserved_number_items > 3 || f->number_items > 63 || f->icon_id > 7 || f->descriptors.length > 4095)
        return EALLUNSA_TOO_WIDE;
    if (locator && (l->reserved > 1 || l->start_date > 511 ||
                    (in ? l->service.reserved_inline_service > 3 : l->service.dvb_service_triplet_id > 1023) ||
                    (l->windows.present && (l->windows.early_start_window > 7 || l->windows.late_end_window > 31))))
        return EALLUNSA_TOO_WIDE;
    for (size_t k = 0; k < f->number_items; k++)
        if (link->items[k].promotional_text.length > 255) return EALLUNSA_TOO_WIDE;
    size_t n = 4 + 1 + 2 + f->descriptors.length;
    if (locator) {
        size_t type = l->identifier.identifier_type > 3 ? 3 : l->identifier.identifier_type;
        int windows = type == 0 && l->scheduled_time_reliability;
        if ((l->windows.present != 0) != windows) return EALLUNSA_AGAINST_RULE;
        n += (in ? 12u : 7u) + (type == 0 ? (size_t)windows : type == 3 ? 3 : 2);
    }
    if ((uri && past(f->media_uri, text)) || past(f->descriptors, text)) return EALLUNSA_PAST_TEXT;
    if (uri) n += 1 + f->media_uri.length;
    for (size_t k = 0; k < f->number_items; k++) {
        if (past(link->items[k].promotional_text, text)) return EALLUNSA_PAST_TEXT;
        n += 4 + link->items[k].promotional_text.length;
    }
    *size = n;
    return 0;
}

static uint8_t *put_text(uint8_t *p, const uint8_t *text, eallunsa_range r)
{
    memcpy(p, text + r.start, r.length);
    return p + r.length;
}

static void put_link(uint8_t *p, const uint8_t *text, const eallunsa_link *link, size_t size)
{
    const eallunsa_fields *f = &link->fields;
    p = put16(p, (size_t)f->reserved_link_info_length << 12 | size);
    *p++ = (uint8_t)(f->link_type << 4 | f->reserved_link_type << 2 | f->how_related >> 4);
    p = put16(p, (size_t)(f->how_related & 15) << 12 | f->term_id);
    *p++ = (uint8_t)(f->group_id << 4 | f->precedence);
    if (f->has_media_uri) {
        *p++ = (uint8_t)f->media_uri.length;
        p = put_text(p, text, f->media_uri);
    }
    if (f->has_dvb_binary_locator) {
        const eallunsa_locator *l = &f->dvb_binary_locator;
        size_t type = l->identifier.identifier_type > 3 ? 3 : l->identifier.identifier_type;
        int in = l->service.inline_service != 0, reliable = l->scheduled_time_reliability != 0;
        *p++ = (uint8_t)(type << 6 | (size_t)reliable << 5 | (size_t)in << 4 | (size_t)l->reserved << 3 | l->start_date >> 6);
        if (in) {
            *p++ = (uint8_t)(l->start_date << 2 | l->service.reserved_inline_service);
            p = put16(p, l->service.transport_stream_id);
            p = put16(p, l->service.original_network_id);
            p = put16(p, l->service.service_id);
        } else {
            p = put16(p, (size_t)(l->start_date & 63) << 10 | l->service.dvb_service_triplet_id);
        }
        p = put16(p, l->start_time);
        p = put16(p, l->duration);
        if (type) p = put16(p, l->identifier.id);
        if (type == 3) *p++ = l->identifier.component;
        if (l->windows.present) *p++ = (uint8_t)(l->windows.early_start_window << 5 | l->windows.late_end_window);
    }
    *p++ = (uint8_t)(f->reserved_number_items << 6 | f->number_items);
    for (size_t k = 0; k < f->number_items; k++) {
        memcpy(p, link->items[k].language_code, 3);
        p[3] = (uint8_t)link->items[k].promotional_text.length;
        p = put_text(p + 4, text, link->items[k].promotional_text);
    }
    p = put16(p, (size_t)(f->default_icon_flag != 0) << 15 | (size_t)f->icon_id << 12 | f->descriptors.length);
    put_text(p, text, f->descriptors);
}

/* The link in place of the old bytes from a place on. */
static uint8_t put(uint8_t *b, size_t room, size_t total, size_t at, size_t old, const uint8_t *text, size_t text_length,
                   const eallunsa_link *link, size_t *out)
{
    size_t size;
    uint8_t refusal = draft(link, text_length, &size);
    if (refusal) return refusal;
    size_t now = total - old + 2 + size;
    if (now > LIMIT) return EALLUNSA_SECTION_TOO_LONG;
    if (now > room) return EALLUNSA_NO_ROOM;
    memmove(b + at + 2 + size, b + at + old, total - 4 - at - old);
    put_link(b + at, text, link, size);
    put16(b + 1, (size_t)(b[1] & 0xF0) << 8 | (now - 3));
    if (!old) b[10]++;
    uint32_t crc = plain_crc(b, now - 4);
    put16(put16(b + now - 4, crc >> 16), crc & 0xFFFF);
    if (now < total) memset(b + now, 0xFF, total - now);
    *out = now;
    return 0;
}

uint8_t plain_append(uint8_t *b, size_t room, const uint8_t *text, size_t text_length, const eallunsa_link *link, size_t *total)
{
    size_t loop, n;
    uint8_t refusal = rows(b, room, 1, &loop, &n);
    if (refusal) return refusal;
    if (b[10] == 255) return EALLUNSA_NO_MORE_LINKS;
    return put(b, room, n, loop, 0, text, text_length, link, total);
}

uint8_t plain_replace(uint8_t *b, size_t room, size_t number, const uint8_t *text, size_t text_length, const eallunsa_link *link,
                      size_t *total)
{
    size_t loop, n;
    uint8_t refusal = rows(b, room, 1, &loop, &n);
    if (refusal) return refusal;
    if (number >= b[10]) return EALLUNSA_NO_SUCH_NUMBER;
    size_t at = find(b, number);
    return put(b, room, n, at, 2 + be12(b + at), text, text_length, link, total);
}
