/* Eallunsa: the DVB related content section (ETSI TS 102 323), read, written and edited, and the resolution
 * notification section, read. Every call takes whatever it is given, ends, and does its work or refuses with a
 * number of the list below; a refused call changes no byte.
 *
 * What is assumed. Calls are those of x86-64, the System V ABI. Lent bytes are two parameters, a pointer and a
 * number of elements. The pointer is never null, not even where the number is 0; all of the number may be read,
 * and of a buffer (`uint8_t *`) also written. A buffer overlaps nothing else that the same call is lent, and
 * nobody else touches it meanwhile. That is all: of the bytes and the numbers nothing is assumed.
 *
 * Who owns memory. All of it is the caller's. The library has none of its own, allocates and frees nothing, and
 * keeps no pointer beyond a call. Records go in and out by value. Where a record tells of text, a URI or
 * descriptors, these are places in lent bytes, never copies: of the text that is lent with a record to be
 * written, and of the bytes that a record was read from; they mean nothing once these bytes change.
 *
 * Threads. Nothing is kept between calls: any number of threads may call at a time, each with its own buffer.
 *
 * Flags and presences are numbers. Handed in, 0 is no and anything else is yes; in an answer yes is 1. Where
 * something is absent its fields mean nothing when handed in, and are 0 in an answer.
 *
 * Stack. No call takes more than 6,144 bytes, the records that are handed in by value included. What a call
 * answers goes where its caller has it.
 *
 * To link: libeallunsa.a, and a C library for memcpy and memset. */
#ifndef EALLUNSA_H
#define EALLUNSA_H

#include <stddef.h>
#include <stdint.h>

#ifdef __cplusplus
extern "C" {
#endif

/* ---- refusals */

/* What each answer begins with. number 0: no refusal, and both figures are 0. Else number is one of the list
 * below, the figures are what the list says, and the rest of the answer is 0 (of an edit with an index: the
 * index as it was). */
typedef struct {
    uint8_t number;
    size_t first;
    size_t second;
} eallunsa_refusal;

/* The list. It is fixed: no call has another number. Each is given exactly under its condition, and of several
 * that hold the first in the call's order is answered; each call below has its order. The two figures stand
 * behind the condition. `need` is the place where a missing field ends, `have` the place where the bytes end
 * that it has to stand in, both counted from where it is said; `declared` is a length that a field states,
 * `available` the number of bytes left for it. The payload of a section are its bytes before the CRC.
 * docs/REFUSALS.md has for each what to do about it. */
enum {
    /* Fewer bytes were lent than the smallest section of the table has: its bytes (related content 17,
     * resolution notification 15), bytes lent. */
    EALLUNSA_TOO_SHORT = 1,
    /* The first byte is not the related content section's table_id: 118 (0x76), the first byte. */
    EALLUNSA_NOT_RCT = 2,
    /* section_length states a section shorter than the smallest of its table, or longer than the bytes lent:
     * section_length, bytes lent. */
    EALLUNSA_WRONG_LENGTH = 3,
    /* The two bytes with a link's length are cut off by the end of the payload: need, have, from the section's
     * start. */
    EALLUNSA_ENTRY_CUT = 4,
    /* A link_info_length goes past the end of the payload: declared, available. */
    EALLUNSA_LINK_TOO_LONG = 5,
    /* A link has fewer than the four bytes of its first fields: 4, the link's bytes. */
    EALLUNSA_BODY_TOO_SHORT = 6,
    /* The link's type asks for a URI, and the link ends before the URI's length: need, have, from behind the
     * link's length. */
    EALLUNSA_URI_LENGTH_CUT = 7,
    /* The link ends within its URI: need, have, from behind the link's length. */
    EALLUNSA_URI_CUT = 8,
    /* The link's type asks for a locator, and the link ends before it: need, have, from behind the link's
     * length. */
    EALLUNSA_NO_LOCATOR = 9,
    /* The link ends within its locator: need, have, from the locator's start. */
    EALLUNSA_LOCATOR_CUT = 10,
    /* The link ends before its number of items: need, have, from behind the link's length. */
    EALLUNSA_ITEM_COUNT_CUT = 11,
    /* The link ends within an item's language or before its text's length: need, have, from behind the link's
     * length. */
    EALLUNSA_ITEM_CUT = 12,
    /* The link ends within an item's text: need, have, from behind the link's length. */
    EALLUNSA_TEXT_CUT = 13,
    /* The link ends before its icon and its descriptors' length: need, have, from behind the link's length. */
    EALLUNSA_ICON_CUT = 14,
    /* A link's descriptors go past its end: declared, available. */
    EALLUNSA_DESCRIPTORS_TOO_LONG = 15,
    /* Bytes are left in a link behind its descriptors: bytes left, 0. */
    EALLUNSA_LINK_SLACK = 16,
    /* The two bytes with the descriptor loop's length are cut off by the end of the payload: need, have, from
     * the section's start. */
    EALLUNSA_LOOP_CUT = 17,
    /* The section's descriptor loop goes past the end of the payload: declared, available. */
    EALLUNSA_LOOP_TOO_LONG = 18,
    /* Bytes are left between the section's descriptor loop and its CRC: bytes left, 0. */
    EALLUNSA_SECTION_SLACK = 19,
    /* The CRC in the section is not that of the bytes before it: the CRC in the section, the computed CRC. An
     * edit never makes a wrong CRC good. */
    EALLUNSA_WRONG_CRC = 20,
    /* There is no link, item, provider or authority of that number, the first of which is 0: the number asked
     * for, how many there are. */
    EALLUNSA_NO_SUCH_NUMBER = 21,
    /* A number in a record is greater than its field holds: the field's place (EALLUNSA_PLACE_.. below), the
     * number. */
    EALLUNSA_TOO_WIDE = 22,
    /* A link to be written has a URI or a locator that its type does not have, or lacks one that its type has
     * (type 0 has a URI, 1 a locator, 2 both, any other neither): link type, 0. */
    EALLUNSA_AGAINST_TYPE = 23,
    /* A locator to be written has windows and must not, or lacks them (they are there exactly if the identifier
     * type is 0 and the reliability flag is set): 0, 0. */
    EALLUNSA_AGAINST_RULE = 24,
    /* A range of a record ends past the lent text: the range's start, its length. Of a link the URI's range
     * comes first, then the items', then the descriptors'. */
    EALLUNSA_PAST_TEXT = 25,
    /* section_length is above 4093, of the section that is there or of the one that would be written:
     * section_length, 4093. */
    EALLUNSA_SECTION_TOO_LONG = 28,
    /* The lent buffer is shorter than the section that would be written: bytes of that section, bytes of the
     * buffer. A buffer of EALLUNSA_MOST_BYTES holds every section. */
    EALLUNSA_NO_ROOM = 29,
    /* The section has as many links as its count can tell: 255, 0. */
    EALLUNSA_NO_MORE_LINKS = 30,
    /* section_syntax_indicator is 0: byte 1 of the section or, of a header to be written, 0; and 0. */
    EALLUNSA_NO_SYNTAX_INDICATOR = 38,
    /* A descriptor of the section's loop goes past the end of the loop: place of its tag, from the section's
     * start; bytes of the loop from there on. */
    EALLUNSA_DESCRIPTOR_CUT = 39,
    /* The first byte is not the resolution notification section's table_id: 121 (0x79), the first byte. */
    EALLUNSA_NOT_RNT = 40,
    /* The common descriptors go past the end of the payload: declared, available. */
    EALLUNSA_COMMON_TOO_LONG = 41,
    /* The two bytes with a provider's length are cut off by the end of the payload: need, have, from the
     * section's start. */
    EALLUNSA_PROVIDER_CUT = 42,
    /* A provider goes past the end of the payload: declared, available. */
    EALLUNSA_PROVIDER_TOO_LONG = 43,
    /* A provider's name, or its length, is cut off by the provider's end: need, have, from the section's start. */
    EALLUNSA_PROVIDER_NAME_CUT = 44,
    /* A provider's descriptors, or their length, are cut off by the provider's end: need, have, from the
     * section's start. */
    EALLUNSA_PROVIDER_DESCRIPTORS_CUT = 45,
    /* An authority's name or descriptors, or the length of either, are cut off by its provider's end: need,
     * have, from the section's start. */
    EALLUNSA_AUTHORITY_CUT = 46
};

/* The first figure of EALLUNSA_TOO_WIDE: which field, with the widest number that it holds. Of several that are
 * too wide the lowest place answers, and of several items the first one. A field that is absent is not looked
 * at. */
enum {
    EALLUNSA_PLACE_HOW_RELATED = 1,            /* 63 */
    EALLUNSA_PLACE_TERM_ID = 2,                /* 4095 */
    EALLUNSA_PLACE_LINK_TYPE = 3,              /* 15 */
    EALLUNSA_PLACE_LINK_TYPE_RESERVED = 4,     /* 3 */
    EALLUNSA_PLACE_GROUP_ID = 5,               /* 15 */
    EALLUNSA_PLACE_PRECEDENCE = 6,             /* 15 */
    EALLUNSA_PLACE_URI_LENGTH = 7,             /* 255 */
    EALLUNSA_PLACE_START_DATE = 8,             /* 511 */
    EALLUNSA_PLACE_LOCATOR_RESERVED = 9,       /* 1 */
    EALLUNSA_PLACE_TRIPLET_ID = 10,            /* 1023 */
    EALLUNSA_PLACE_INLINE_RESERVED = 11,       /* 3 */
    EALLUNSA_PLACE_EARLY_START = 12,           /* 7 */
    EALLUNSA_PLACE_LATE_END = 13,              /* 31 */
    EALLUNSA_PLACE_NUMBER_ITEMS = 14,          /* 63; above it no item is looked at */
    EALLUNSA_PLACE_NUMBER_ITEMS_RESERVED = 15, /* 3 */
    EALLUNSA_PLACE_TEXT_LENGTH = 16,           /* 255 */
    EALLUNSA_PLACE_DESCRIPTOR_LENGTH = 17,     /* 4095 */
    EALLUNSA_PLACE_ICON_ID = 18,               /* 7 */
    EALLUNSA_PLACE_LINK_LENGTH_RESERVED = 19,  /* 15 */
    EALLUNSA_PLACE_SECTION_RESERVED = 20,      /* 3 */
    EALLUNSA_PLACE_VERSION_NUMBER = 21,        /* 31 */
    EALLUNSA_PLACE_VERSION_RESERVED = 22,      /* 3 */
    EALLUNSA_PLACE_LOOP_LENGTH = 23,           /* 4095 */
    EALLUNSA_PLACE_LOOP_LENGTH_RESERVED = 24   /* 15 */
};

/* ---- version and CRC */

typedef struct {
    uint16_t major;
    uint16_t minor;
    uint16_t patch;
} eallunsa_version_number;

/* The version of the calls and of the records below. Refusals: none. */
eallunsa_version_number eallunsa_version(void);

/* The CRC of ISO/IEC 13818-1 of n bytes; of a whole section, its stored CRC included, it is 0 if that one is
 * right.
 * Refusals: none. */
uint32_t eallunsa_crc(const uint8_t *s, size_t n);

/* ---- parts of records */

/* Bytes of a lent text: where they start, and how many there are. */
typedef struct {
    uint32_t start;
    uint32_t length;
} eallunsa_range;

/* The same with the width of a size. */
typedef struct {
    size_t start;
    size_t length;
} eallunsa_span;

/* Bytes 1 to 7 of a section, section_length apart. In a related content section private_indicator is
 * table_id_extension_flag and table_id_extension is service_id; in a resolution notification section the latter
 * is context_id. Widest numbers: reserved_b1 3, reserved_b5 3, version_number 31. The reserved bits of the
 * standard are ones. */
typedef struct {
    uint8_t section_syntax_indicator; /* flag */
    uint8_t private_indicator;        /* flag */
    uint16_t reserved_b1;
    uint16_t table_id_extension;
    uint16_t reserved_b5;
    uint16_t version_number;
    uint8_t current_next_indicator; /* flag */
    uint8_t section_number;
    uint8_t last_section_number;
} eallunsa_header;

/* The header of a related content section. */
typedef struct {
    eallunsa_header section;
    uint16_t year_offset;
} eallunsa_rct_header;

/* A locator's service. inline_service 0: dvb_service_triplet_id counts (widest 1023); anything else: the other
 * four do (reserved_inline_service: widest 3). */
typedef struct {
    uint8_t inline_service;
    uint16_t dvb_service_triplet_id;
    uint16_t reserved_inline_service;
    uint16_t transport_stream_id;
    uint16_t original_network_id;
    uint16_t service_id;
} eallunsa_service;

/* What names the event besides its time. identifier_type 0: nothing; 1: id is an event_id; 2: id is a TVA_id in
 * the EIT; 3, and anything above: id is a TVA_id in a PES, and component counts. */
typedef struct {
    uint8_t identifier_type;
    uint8_t component;
    uint16_t id;
} eallunsa_identifier;

/* How much earlier (widest 7) and later (widest 31) than its time the event may be. */
typedef struct {
    uint8_t present;
    uint16_t early_start_window;
    uint16_t late_end_window;
} eallunsa_windows;

/* The DVB binary locator. Widest numbers: reserved 1, start_date 511. Windows are present exactly where there
 * is no identifier and scheduled_time_reliability is set. */
typedef struct {
    uint8_t scheduled_time_reliability; /* flag */
    uint16_t reserved;
    uint16_t start_date;
    eallunsa_service service;
    uint16_t start_time;
    uint16_t duration;
    eallunsa_identifier identifier;
    eallunsa_windows windows;
} eallunsa_locator;

/* A link without its items. A link of type 0 has a URI, of type 1 a locator, of type 2 both, of any other type
 * neither. Ranges are of the text that is lent with the record or, of a link that was read, of the bytes that
 * it was read from. Widest numbers: reserved_link_info_length 15, link_type 15, reserved_link_type 3,
 * how_related 63, term_id 4095, group_id 15, precedence 15, reserved_number_items 3, number_items 63, icon_id
 * 7; the URI and each item's text have at most 255 bytes. */
typedef struct {
    uint16_t reserved_link_info_length;
    uint16_t link_type;
    uint16_t reserved_link_type;
    uint16_t how_related;
    uint16_t term_id;
    uint16_t group_id;
    uint16_t precedence;
    uint8_t has_media_uri; /* presence */
    eallunsa_range media_uri;
    uint8_t has_dvb_binary_locator; /* presence */
    eallunsa_locator dvb_binary_locator;
    uint16_t reserved_number_items;
    size_t number_items;
    uint8_t default_icon_flag; /* flag */
    uint16_t icon_id;
    eallunsa_range descriptors;
} eallunsa_fields;

/* An item: the three bytes of its ISO 639-2 language code, and its text. */
typedef struct {
    uint8_t language_code[3];
    eallunsa_range promotional_text;
} eallunsa_item;

/* The most items of a link, the most links of a section, and the most bytes of a section that may be sent. */
#define EALLUNSA_MOST_ITEMS 63
#define EALLUNSA_MOST_LINKS 255
#define EALLUNSA_MOST_BYTES 4096

/* A link: number_items of the items count, the others mean nothing. */
typedef struct {
    eallunsa_fields fields;
    eallunsa_item items[EALLUNSA_MOST_ITEMS];
} eallunsa_link;

/* ---- the related content section: reading */

/* A section that was read: total is the number of its bytes. Its payload are the first total - 4 of them. */
typedef struct {
    eallunsa_refusal refusal;
    size_t total;
    eallunsa_rct_header header;
    size_t number_of_links;
    uint16_t reserved_descriptor_loop_length;
    eallunsa_range descriptors;
} eallunsa_rct_answer;

/* The plain reading of the section that s begins with: its syntax, not its CRC.
 * Refusals: EALLUNSA_TOO_SHORT (1), EALLUNSA_NOT_RCT (2), EALLUNSA_WRONG_LENGTH (3); link by link
 * EALLUNSA_ENTRY_CUT (4), EALLUNSA_LINK_TOO_LONG (5), EALLUNSA_BODY_TOO_SHORT (6), EALLUNSA_URI_LENGTH_CUT (7),
 * EALLUNSA_URI_CUT (8), EALLUNSA_NO_LOCATOR (9), EALLUNSA_LOCATOR_CUT (10), EALLUNSA_ITEM_COUNT_CUT (11), item
 * by item EALLUNSA_ITEM_CUT (12), EALLUNSA_TEXT_CUT (13), then EALLUNSA_ICON_CUT (14),
 * EALLUNSA_DESCRIPTORS_TOO_LONG (15), EALLUNSA_LINK_SLACK (16); behind the links EALLUNSA_LOOP_CUT (17),
 * EALLUNSA_LOOP_TOO_LONG (18), EALLUNSA_SECTION_SLACK (19). */
eallunsa_rct_answer eallunsa_rct_read(const uint8_t *s, size_t n);

/* The checked reading: what may be edited and sent on. The syntax indicator is set, the length is within the
 * limit, and the CRC is right.
 * Refusals: EALLUNSA_TOO_SHORT (1), EALLUNSA_NOT_RCT (2), EALLUNSA_NO_SYNTAX_INDICATOR (38),
 * EALLUNSA_WRONG_LENGTH (3), EALLUNSA_SECTION_TOO_LONG (28); link by link those of eallunsa_rct_entry;
 * EALLUNSA_LOOP_CUT (17), EALLUNSA_LOOP_TOO_LONG (18), EALLUNSA_SECTION_SLACK (19); EALLUNSA_WRONG_CRC (20). */
eallunsa_rct_answer eallunsa_rct_check(const uint8_t *s, size_t n);

typedef struct {
    eallunsa_refusal refusal;
    eallunsa_link link;
} eallunsa_link_answer;

/* Link by number, the first is 0. Its ranges are of s.
 * Refusals: those of eallunsa_rct_read; EALLUNSA_NO_SUCH_NUMBER (21). */
eallunsa_link_answer eallunsa_rct_link(const uint8_t *s, size_t n, size_t number);

typedef struct {
    eallunsa_refusal refusal;
    eallunsa_item item;
} eallunsa_item_answer;

/* Item by number of a link by number. Its range is of s.
 * Refusals: those of eallunsa_rct_read; EALLUNSA_NO_SUCH_NUMBER (21) for the link, EALLUNSA_NO_SUCH_NUMBER (21)
 * for the item. */
eallunsa_item_answer eallunsa_rct_item(const uint8_t *s, size_t n, size_t number, size_t item);

/* An entry by place: its link without the items, the place of its first item, the place of the next entry. */
typedef struct {
    eallunsa_refusal refusal;
    eallunsa_fields fields;
    uint32_t items_at;
    uint16_t next;
} eallunsa_entry_answer;

/* The place of a section's first entry. */
#define EALLUNSA_RCT_FIRST_ENTRY 11

/* The entry at a place of a payload, which is the first total - 4 bytes of a section. From
 * EALLUNSA_RCT_FIRST_ENTRY, then from next to next, number_of_links times, it walks over all links of a section
 * that was read.
 * Refusals: EALLUNSA_ENTRY_CUT (4), EALLUNSA_LINK_TOO_LONG (5), EALLUNSA_BODY_TOO_SHORT (6),
 * EALLUNSA_URI_LENGTH_CUT (7), EALLUNSA_URI_CUT (8), EALLUNSA_NO_LOCATOR (9), EALLUNSA_LOCATOR_CUT (10),
 * EALLUNSA_ITEM_COUNT_CUT (11), item by item EALLUNSA_ITEM_CUT (12), EALLUNSA_TEXT_CUT (13), then
 * EALLUNSA_ICON_CUT (14), EALLUNSA_DESCRIPTORS_TOO_LONG (15), EALLUNSA_LINK_SLACK (16). */
eallunsa_entry_answer eallunsa_rct_entry(const uint8_t *payload, size_t n, uint16_t at);

/* An item by place, and the place of the next. */
typedef struct {
    eallunsa_refusal refusal;
    eallunsa_item item;
    uint32_t next;
} eallunsa_step_answer;

/* The item at a place of any bytes. From items_at of an entry, then from next to next, number_items times, it
 * walks over all items of a link in the same payload. Need and have count from the first byte of s.
 * Refusals: EALLUNSA_ITEM_CUT (12), EALLUNSA_TEXT_CUT (13). */
eallunsa_step_answer eallunsa_item_from(const uint8_t *s, size_t n, uint32_t at);

/* ---- the related content section: editing in a lent buffer */

/* total: the number of bytes of the section that the buffer now begins with; 0 beside a refusal, and then no
 * byte of the buffer has changed. */
typedef struct {
    eallunsa_refusal refusal;
    size_t total;
} eallunsa_edit_answer;

/* Makes a section with no links from b's first byte on; its descriptors are a range of text.
 * Refusals: EALLUNSA_NO_SYNTAX_INDICATOR (38), EALLUNSA_TOO_WIDE (22) with EALLUNSA_PLACE_SECTION_RESERVED to
 * EALLUNSA_PLACE_LOOP_LENGTH_RESERVED, EALLUNSA_PAST_TEXT (25), EALLUNSA_SECTION_TOO_LONG (28),
 * EALLUNSA_NO_ROOM (29). */
eallunsa_edit_answer eallunsa_rct_make(uint8_t *b, size_t room, eallunsa_rct_header header,
                                       uint16_t reserved_descriptor_loop_length, const uint8_t *text,
                                       size_t text_length, eallunsa_range descriptors);

/* Appends a link, whose ranges are of text, behind the last link of the section that b begins with. That
 * section has to pass the checked reading.
 * Refusals: those of eallunsa_rct_check; EALLUNSA_NO_MORE_LINKS (30), EALLUNSA_AGAINST_TYPE (23),
 * EALLUNSA_TOO_WIDE (22) with EALLUNSA_PLACE_HOW_RELATED to EALLUNSA_PLACE_LINK_LENGTH_RESERVED,
 * EALLUNSA_AGAINST_RULE (24), EALLUNSA_PAST_TEXT (25), EALLUNSA_SECTION_TOO_LONG (28), EALLUNSA_NO_ROOM (29). */
eallunsa_edit_answer eallunsa_rct_append(uint8_t *b, size_t room, const uint8_t *text, size_t text_length,
                                         eallunsa_link link);

/* Puts a link, whose ranges are of text, in place of link number of the section that b begins with. That
 * section has to pass the checked reading. Where the section becomes shorter, the bytes up to its old end
 * become 0xFF.
 * Refusals: those of eallunsa_rct_check; EALLUNSA_NO_SUCH_NUMBER (21), EALLUNSA_AGAINST_TYPE (23),
 * EALLUNSA_TOO_WIDE (22) with EALLUNSA_PLACE_HOW_RELATED to EALLUNSA_PLACE_LINK_LENGTH_RESERVED,
 * EALLUNSA_AGAINST_RULE (24), EALLUNSA_PAST_TEXT (25), EALLUNSA_SECTION_TOO_LONG (28), EALLUNSA_NO_ROOM (29). */
eallunsa_edit_answer eallunsa_rct_replace(uint8_t *b, size_t room, size_t number, const uint8_t *text,
                                          size_t text_length, eallunsa_link link);

/* ---- the index beside a related content section */

/* A set of the numbers 0 to 255: number k is bit k % 64 of word k / 64. */
typedef struct {
    uint64_t words[4];
} eallunsa_set;

/* Which links have a URI, a locator, the default icon flag; where the entry of each link stands, 0 past the
 * last; how many descriptors the section's loop has. */
typedef struct {
    eallunsa_set uri;
    eallunsa_set locator;
    eallunsa_set icon;
    uint16_t places[EALLUNSA_MOST_LINKS];
    uint16_t descriptors;
} eallunsa_index;

typedef struct {
    eallunsa_refusal refusal;
    eallunsa_index index;
} eallunsa_index_answer;

/* The index of the section that s begins with.
 * Refusals: those of eallunsa_rct_read; EALLUNSA_DESCRIPTOR_CUT (39). */
eallunsa_index_answer eallunsa_rct_index(const uint8_t *s, size_t n);

/* Of an index's places that of a link, and 0 where there is none for its number. Refusals: none. */
uint16_t eallunsa_index_place(const uint16_t *places, size_t n, size_t number);

/* Whether a set has a number: 1 or 0. Refusals: none. */
uint8_t eallunsa_set_has(eallunsa_set set, size_t number);

/* How many numbers a set has. Refusals: none. */
size_t eallunsa_set_count(eallunsa_set set);

/* What an edit answers, and the index as it is then. */
typedef struct {
    eallunsa_refusal refusal;
    size_t total;
    eallunsa_index index;
} eallunsa_index_edit_answer;

/* eallunsa_rct_append, and the index brought up with it: handed in as the index of the section in b, it comes
 * back as the index of the new one, without a second walk over the section. Whether it is that index is not
 * looked at.
 * Refusals: those of eallunsa_rct_append. */
eallunsa_index_edit_answer eallunsa_rct_index_append(uint8_t *b, size_t room, const uint8_t *text,
                                                     size_t text_length, eallunsa_link link,
                                                     eallunsa_index index);

/* eallunsa_rct_replace, in the same way.
 * Refusals: those of eallunsa_rct_replace. */
eallunsa_index_edit_answer eallunsa_rct_index_replace(uint8_t *b, size_t room, size_t number, const uint8_t *text,
                                                      size_t text_length, eallunsa_link link, eallunsa_index index);

/* ---- the resolution notification section */

/* A section that was read. Its first provider stands where the common descriptors end. */
typedef struct {
    eallunsa_refusal refusal;
    size_t total;
    eallunsa_header header;
    uint8_t context_id_type;
    uint16_t reserved_common_descriptors_length;
    eallunsa_span common_descriptors;
    size_t number_of_providers;
} eallunsa_rnt_answer;

/* The plain reading of the section that s begins with: its syntax, not its CRC.
 * Refusals: EALLUNSA_TOO_SHORT (1), EALLUNSA_NOT_RNT (40), EALLUNSA_WRONG_LENGTH (3),
 * EALLUNSA_COMMON_TOO_LONG (41); provider by provider those of eallunsa_rnt_provider_at, and authority by
 * authority those of eallunsa_rnt_authority_at. */
eallunsa_rnt_answer eallunsa_rnt_read(const uint8_t *s, size_t n);

/* The checked reading: the syntax indicator is set, the length is within the limit, and the CRC is right.
 * Refusals: EALLUNSA_TOO_SHORT (1), EALLUNSA_NOT_RNT (40), EALLUNSA_NO_SYNTAX_INDICATOR (38),
 * EALLUNSA_WRONG_LENGTH (3), EALLUNSA_SECTION_TOO_LONG (28), EALLUNSA_COMMON_TOO_LONG (41); provider by
 * provider those of eallunsa_rnt_provider_at, and authority by authority those of eallunsa_rnt_authority_at;
 * EALLUNSA_WRONG_CRC (20). */
eallunsa_rnt_answer eallunsa_rnt_check(const uint8_t *s, size_t n);

/* A provider: the bits before its two lengths, where its name and its descriptors stand, and between which
 * places its authorities do. Places are counted from the section's first byte. */
typedef struct {
    uint16_t reserved_info_length;
    eallunsa_span name;
    uint16_t reserved_descriptors_length;
    eallunsa_span descriptors;
    uint16_t authorities_at;
    uint16_t end;
} eallunsa_provider;

/* An authority: where its name and its descriptors stand, and the bits before the length of these. */
typedef struct {
    eallunsa_span name;
    uint16_t reserved;
    uint16_t crid_authority_policy;
    eallunsa_span descriptors;
} eallunsa_authority;

typedef struct {
    eallunsa_refusal refusal;
    eallunsa_provider provider;
    size_t number_of_authorities;
} eallunsa_provider_answer;

/* Provider by number, the first is 0.
 * Refusals: those of eallunsa_rnt_read; EALLUNSA_NO_SUCH_NUMBER (21). */
eallunsa_provider_answer eallunsa_rnt_provider(const uint8_t *s, size_t n, size_t number);

typedef struct {
    eallunsa_refusal refusal;
    eallunsa_authority authority;
} eallunsa_authority_answer;

/* Authority by number of a provider by number.
 * Refusals: those of eallunsa_rnt_read; EALLUNSA_NO_SUCH_NUMBER (21) for the provider,
 * EALLUNSA_NO_SUCH_NUMBER (21) for the authority. */
eallunsa_authority_answer eallunsa_rnt_authority(const uint8_t *s, size_t n, size_t number, size_t authority);

/* A provider by place: how many authorities it has was not looked at. */
typedef struct {
    eallunsa_refusal refusal;
    eallunsa_provider provider;
} eallunsa_provider_found;

/* The provider at a place of a section whose payload ends at end, which is total - 4. From the end of the
 * common descriptors, then from the end of one provider to the next, up to the payload's end, it walks over
 * all.
 * Refusals: EALLUNSA_PROVIDER_CUT (42), EALLUNSA_PROVIDER_TOO_LONG (43), EALLUNSA_PROVIDER_NAME_CUT (44),
 * EALLUNSA_PROVIDER_DESCRIPTORS_CUT (45). */
eallunsa_provider_found eallunsa_rnt_provider_at(const uint8_t *s, size_t n, uint16_t end, uint16_t at);

/* An authority by place, and the place of the next. */
typedef struct {
    eallunsa_refusal refusal;
    eallunsa_authority authority;
    uint16_t next;
} eallunsa_authority_found;

/* The authority at a place of a section, of a provider that ends at end. From the provider's authorities_at,
 * then from next to next, up to its end, it walks over all.
 * Refusals: EALLUNSA_AUTHORITY_CUT (46). */
eallunsa_authority_found eallunsa_rnt_authority_at(const uint8_t *s, size_t n, uint16_t end, uint16_t at);

#ifdef __cplusplus
}
#endif

#endif
