/* stack_paint: what stack each call of the library takes when it runs, by the bytes that it changes on a painted stack. A line
   has the call, the bytes from its caller's stack pointer down, its return address among them, the bytes of what is handed in
   on the stack above that, and the input at which they were most. Each answer is held to what it has to be, so that no refused
   path passes for an accepted one.
   It is for x86-64, and uses no system headers, since another processor has none for it. */
#include "eallunsa.h"
typedef uint8_t u8;
typedef uint32_t u32;
typedef size_t usize;
int printf(const char *, ...), strcmp(const char *, const char *);
int memcmp(const void *, const void *, usize), bcmp(const void *, const void *, usize);
void *memcpy(void *, const void *, usize), *memmove(void *, const void *, usize), *memset(void *, int, usize);

#define MOST 4096 /* the most bytes of a section that is written, and that passes the checked reading */
#define LONGEST 4098 /* the most that section_length can tell, which the plain reading takes */
#define ROOM (LONGEST + 100)
#define SMALLEST 8 /* the bytes of a link's body with link type 0 and an empty URI, and nothing else */
#define LARGEST (MOST - 19) /* those of a body that is alone in its section */
#define LOOP ((MOST - 17) / 2 * 2) /* those of empty descriptors that are alone in theirs: 2,039 of them */
#define LAST 60 /* the last text of a link is longer than the others by this, which is above all refusal numbers */
#define CROWD (SMALLEST + 63 * 4 + LAST) /* the bytes of a body with 63 items */

/* ---- a call on a painted stack, of ten times the bytes that a call may take */

static usize stack[8192] __attribute__((aligned(16)));
typedef void code(void);
static code *volatile called; /* what a site calls: the call to be measured, or probe */
usize caller;

/* In place of a call it tells its caller's stack pointer. */
code probe;
__asm__(".text\n.type probe, @function\nprobe:\n\tleaq 8(%rsp), %rax\n\tmovq %rax, caller(%rip)\n\tmovq %rdi, %rax\n\tretq");

/* The site runs on the painted stack: it puts there what the call wants there, and calls. */
static void run(code *site, code *f) {
    called = f;
    __asm__ volatile("movq %%rsp, %%rbx\n\tmovq %[top], %%rsp\n\tcallq *%[site]\n\tmovq %%rbx, %%rsp"
                     : : [top] "r"((u8 *)stack + sizeof stack), [site] "r"(site)
                     : "rax", "rbx", "rcx", "rdx", "rsi", "rdi", "r8", "r9", "r10", "r11", "cc", "memory", "xmm0", "xmm1",
                       "xmm2", "xmm3", "xmm4", "xmm5", "xmm6", "xmm7", "xmm8", "xmm9", "xmm10", "xmm11", "xmm12", "xmm13",
                       "xmm14", "xmm15");
}

static usize depth_of(u8 colour, code *site, code *f) {
    usize i = 0, word;
    run(site, probe);
    memset(stack, colour, sizeof stack);
    memset(&word, colour, sizeof word);
    run(site, f);
    while (i < sizeof stack && stack[i / 8] == word) i += 8;
    while (i < sizeof stack && ((const u8 *)stack)[i] == colour) i++;
    return (usize)stack + i < caller ? caller - (usize)stack - i : 0;
}

static struct { const char *call, *input; usize depth, handed; } deepest[64];
static int wrong;

static void note(const char *call, usize handed, const char *input, usize depth) {
    int i = 0;
    while (deepest[i].call && strcmp(deepest[i].call, call)) i++;
    deepest[i].call = call, deepest[i].handed = handed;
    if (deepest[i].depth < depth) deepest[i].depth = depth, deepest[i].input = input;
}

/* ---- what is lent: a section as it is before the call, the buffer with its copy, the body of a link and its record */

static u8 given[ROOM], b[ROOM], body[ROOM];
static usize size, lent, body_size, loop_at;
static struct { usize at, size, items, text, items_at; } links[256], next; /* size: the entry's bytes; text: the last text's */
static eallunsa_link record; /* its ranges are of the body */

static void put(usize byte) { given[size++] = byte; }
static void put16(usize number) { put(number >> 8), put(number); }
static usize total_of(const u8 *s) { return 3 + (s[1] & 15) * 256 + s[2]; }

static u32 crc_of(const u8 *s, usize n) {
    u32 crc = 0xFFFFFFFF;
    for (usize i = 0; i < 8 * n; i++) {
        if (i % 8 == 0) crc ^= (u32)s[i / 8] << 24;
        crc = crc >> 31 ? crc << 1 ^ 0x04C11DB7 : crc << 1;
    }
    return crc;
}

static void head(u8 table) {
    memset(given, 0xEE, ROOM);
    size = 0;
    put(table), put16(0), put16(1), put(0xC1), put16(0);
}

/* The length is set, and the CRC put behind the last byte. */
static void finish(void) {
    given[1] = 0xF0 | (size + 1) >> 8;
    given[2] = size + 1;
    u32 crc = crc_of(given, size);
    put16(crc >> 16), put16(crc & 65535);
    lent = ROOM;
    if (size > LONGEST) wrong = 1, printf("wrong: a section of %lu bytes\n", size);
}

/* The byte before the CRC is changed, and the CRC made good again. */
static void change_last(u8 byte) { size -= 4, given[size - 1] = byte, finish(); }

static void rct(void) { head(0x76), put16(2000), put(0); }

static void link(void) {
    next.at = size, next.size = 2 + body_size;
    links[given[10]++] = next;
    put16(0xF000 | body_size);
    for (usize i = 0; i < body_size; i++) put(body[i]);
}

/* The section's loop of so many bytes, with as many descriptors as it can have, and the section's end. */
static void loop(usize n) {
    loop_at = size;
    put16(0xF000 | n);
    if (n % 2) put(0x5F), put(1), put(0), n -= 3;
    for (; n; n -= 2) put(0x5F), put(0);
    finish();
}

static usize word_at(usize at) { return (usize)body[at] << 8 | body[at + 1]; }

/* A locator. The lowest two bits of its kind are the identifier type; then come reliability and inline. */
static void locator(usize kind) {
    usize type = kind & 3, reliable = kind >> 2 & 1, inlined = kind >> 3, at = body_size;
    usize n = 7 + 5 * inlined + (type == 0 ? reliable : type == 3 ? 3 : 2);
    body[at] = type << 6 | reliable << 5 | inlined << 4 | 8;
    for (usize i = 1; i < n; i++) body[at + i] = 0x40 + i;
    body_size += n;
    eallunsa_locator *l = &record.fields.dvb_binary_locator;
    l->scheduled_time_reliability = reliable, l->reserved = 1, l->start_date = body[at + 1] >> 2;
    if (inlined) l->service = (eallunsa_service){1, 0, body[at + 1] & 3, word_at(at + 2), word_at(at + 4), word_at(at + 6)};
    else l->service = (eallunsa_service){0, word_at(at + 1) & 1023, 0, 0, 0, 0};
    at += 3 + 5 * inlined;
    l->start_time = word_at(at), l->duration = word_at(at + 2);
    l->identifier = (eallunsa_identifier){type, type == 3 ? body[at + 6] : 0, type ? word_at(at + 4) : 0};
    l->windows = (eallunsa_windows){type == 0 && reliable, body[at + 4] >> 5, body[at + 4] & 31};
}

/* The body of a link, and the record that it is the body of. Descriptors fill it up to a size, if it is smaller. */
static void make_body(usize type, usize uri, usize kind, usize items, usize text, usize up_to) {
    eallunsa_fields *f = &record.fields;
    memset(body, 0x61, ROOM);
    memset(&record, 0, sizeof record);
    body[0] = type << 4 | 12;
    body_size = 4;
    f->reserved_link_info_length = 15, f->link_type = type, f->reserved_link_type = 3, f->how_related = body[1] >> 4;
    f->term_id = word_at(1) & 4095, f->group_id = body[3] >> 4, f->precedence = body[3] & 15;
    f->has_media_uri = type == 0 || type == 2, f->has_dvb_binary_locator = type == 1 || type == 2;
    if (f->has_media_uri) body[4] = uri, f->media_uri = (eallunsa_range){5, uri}, body_size = 5 + uri;
    if (f->has_dvb_binary_locator) locator(kind);
    body[body_size++] = 0xC0 | items;
    f->reserved_number_items = 3, f->number_items = items;
    next.items = items, next.text = items ? text + LAST : 0, next.items_at = body_size;
    for (usize i = 1; i <= items; i++) {
        usize n = i < items ? text : next.text;
        body[body_size + 3] = n;
        record.items[i - 1] = (eallunsa_item){{0x61, 0x61, 0x61}, {body_size + 4, n}};
        body_size += 4 + n;
    }
    usize rest = up_to > body_size + 2 ? up_to - body_size - 2 : 0;
    body[body_size] = 0x90 | rest >> 8;
    body[body_size + 1] = rest;
    f->default_icon_flag = 1, f->icon_id = 1, f->descriptors = (eallunsa_range){body_size + 2, rest};
    body_size += 2 + rest;
}

/* A body of this size, with 63 items where there is room for them. */
static void sized_body(usize n) { make_body(0, 0, 0, n < CROWD ? 0 : 63, 0, n); }

/* ---- the calls: where each is called from, and the number that its answer is told by; a refusal is told by its own */

static usize k1, k2, end_at; /* numbers, places */
static eallunsa_index index;
static eallunsa_rct_header header;
static usize refused(eallunsa_refusal r, usize else_told) { return r.number ? r.number : else_told; }

/* handed: the bytes on the stack of what is handed in there, a record of more than 16 bytes, and what no register is left for.
   Each takes a multiple of 8. */
#define ON_STACK(record) ((sizeof(record) + 7) / 8 * 8)
#define SITE(f, handed, type, told, ...) \
    enum { handed_##f = handed }; \
    static type answer_##f; \
    static void site_##f(void) { answer_##f = ((__typeof__(&f))called)(__VA_ARGS__); } \
    static usize told_##f(void) { type *a = &answer_##f; return told; }
#define TEXT body, body_size

SITE(eallunsa_version, 0, eallunsa_version_number, a->major * 100 + a->minor)
SITE(eallunsa_crc, 0, uint32_t, *a, b, k1)
SITE(eallunsa_rct_read, 0, eallunsa_rct_answer, refused(a->refusal, a->total), b, lent)
SITE(eallunsa_rct_check, 0, eallunsa_rct_answer, refused(a->refusal, a->total), b, lent)
SITE(eallunsa_rct_link, 0, eallunsa_link_answer,
     refused(a->refusal, k2 < 63 ? a->link.items[k2].promotional_text.length : 0), b, lent, k1)
SITE(eallunsa_rct_item, 0, eallunsa_item_answer, refused(a->refusal, a->item.promotional_text.length), b, lent, k1, k2)
SITE(eallunsa_rct_entry, 0, eallunsa_entry_answer, refused(a->refusal, a->next), b, size - 4, k1)
SITE(eallunsa_item_from, 0, eallunsa_step_answer, refused(a->refusal, a->next), b, size - 4, k1)
SITE(eallunsa_rct_make, 2 * ON_STACK(usize) + ON_STACK(eallunsa_range), eallunsa_edit_answer, refused(a->refusal, a->total),
     b, lent, header, 15, given, ROOM, (eallunsa_range){loop_at + 2, k1})
SITE(eallunsa_rct_append, ON_STACK(record), eallunsa_edit_answer, refused(a->refusal, a->total), b, lent, TEXT, record)
SITE(eallunsa_rct_replace, ON_STACK(record), eallunsa_edit_answer, refused(a->refusal, a->total), b, lent, k1, TEXT, record)
SITE(eallunsa_rct_index, 0, eallunsa_index_answer, refused(a->refusal, k1 < 255 ? a->index.places[k1] : 0), b, lent)
SITE(eallunsa_index_place, 0, uint16_t, *a, index.places, 255, k1)
SITE(eallunsa_set_has, ON_STACK(index.uri), uint8_t, *a, index.uri, k1)
SITE(eallunsa_set_count, ON_STACK(index.uri), usize, *a, index.uri)
SITE(eallunsa_rct_index_append, ON_STACK(record) + ON_STACK(index), eallunsa_index_edit_answer,
     refused(a->refusal, a->index.places[k2]), b, lent, TEXT, record, index)
SITE(eallunsa_rct_index_replace, ON_STACK(record) + ON_STACK(index), eallunsa_index_edit_answer,
     refused(a->refusal, a->index.places[k2]), b, lent, k1, TEXT, record, index)
SITE(eallunsa_rnt_read, 0, eallunsa_rnt_answer, refused(a->refusal, a->total), b, lent)
SITE(eallunsa_rnt_check, 0, eallunsa_rnt_answer, refused(a->refusal, a->total), b, lent)
SITE(eallunsa_rnt_provider, 0, eallunsa_provider_answer, refused(a->refusal, a->number_of_authorities), b, lent, k1)
SITE(eallunsa_rnt_authority, 0, eallunsa_authority_answer, refused(a->refusal, a->authority.name.length), b, lent, k1, k2)
SITE(eallunsa_rnt_provider_at, 0, eallunsa_provider_found, refused(a->refusal, a->provider.end), b, lent, end_at, k1)
SITE(eallunsa_rnt_authority_at, 0, eallunsa_authority_found, refused(a->refusal, a->next), b, lent, end_at, k1)

/* ---- rows: a line for a call and an input */

static void row(code *f, code *site, usize (*told)(void), const char *call, usize handed, const char *input, usize want, usize total) {
    for (int k = 0; k < 2; k++) { /* what is written in the one colour is seen on the other */
        memcpy(b, given, ROOM);
        note(call, handed, input, depth_of(k ? 0xC3 : 0x5A, site, f));
        int stands = total ? total_of(b) == total && crc_of(b, total) == 0 : memcmp(b, given, ROOM) == 0;
        if (told() == want && stands) continue;
        wrong = 1;
        printf("wrong: %s, %s: answer %lu, due %lu%s\n", call, input, told(), want, stands ? "" : "; and the buffer");
    }
}

/* The call, the input's name, the answer that is due, and the bytes of the section that is in the buffer then (0: the buffer
   is as before). */
#define EDIT(f, input, want, total) row((code *)f, site_##f, told_##f, #f, handed_##f, input, want, total)
#define READ(f, input, want) EDIT(f, input, want, 0)

static const usize none = ~0UL; /* a number that nothing has */

/* Of a section that the plain reading accepts: all its links. */
static void reads(const char *input) {
    READ(eallunsa_rct_read, input, size);
    READ(eallunsa_rct_check, input, size > MOST ? 28 : size);
    k1 = size;
    READ(eallunsa_crc, input, 0);
    for (usize k = 0; k < given[10]; k++) {
        k1 = links[k].at;
        READ(eallunsa_rct_entry, input, links[k].at + links[k].size);
        k1 = links[k].at + 2 + links[k].items_at;
        if (links[k].items) READ(eallunsa_item_from, input, k1 + 4 + given[k1 + 3]);
        k1 = k, k2 = links[k].items - 1;
        READ(eallunsa_rct_link, input, links[k].text);
        READ(eallunsa_rct_item, input, links[k].items ? links[k].text : 21);
        READ(eallunsa_rct_index, input, links[k].at);
    }
    k1 = given[10];
    READ(eallunsa_rct_index, input, 0);
}

/* An index that is handed in is that of the section, and then of no section where the section is refused. */
static void append(const char *input, usize refusal) {
    usize total = refusal ? 0 : size + 2 + body_size;
    index = eallunsa_rct_index(given, lent).index, k2 = given[10] < 255 ? given[10] : 0;
    EDIT(eallunsa_rct_append, input, refusal ? refusal : total, total);
    EDIT(eallunsa_rct_index_append, input, refusal ? refusal : loop_at, total);
}

/* The index is asked for the last link's place, which moves with what is put before it. */
static void replace(const char *input, usize k, usize refusal) {
    usize total = refusal ? 0 : size - links[k].size + 2 + body_size, last = given[10] - 1;
    index = eallunsa_rct_index(given, lent).index, k1 = k, k2 = last;
    EDIT(eallunsa_rct_replace, input, refusal ? refusal : total, total);
    EDIT(eallunsa_rct_index_replace, input, refusal ? refusal : links[last].at + (k < last ? total - size : 0), total);
}

/* ---- inputs */

static void smallest_links(usize n) {
    sized_body(SMALLEST);
    for (rct(); n; n--) link();
    loop(0);
}

static void many_links(void) {
    for (usize n = 0; n < 255; n++) smallest_links(n), append("to 0 .. 254 links", 0);
    sized_body(MOST - size - 2), append("up to the limit to 254 links", 0);
    smallest_links(255);
    reads("255 links");
    append("to 255 links", 30);
    for (usize k = 0, room = MOST - size; k < 255; k += 127) {
        sized_body(SMALLEST), replace("one of 255 links by its like", k, 0);
        sized_body(SMALLEST + 1), replace("one of 255 links grows by 1", k, 0);
        sized_body(SMALLEST + room), replace("one of 255 links grows up to the limit", k, 0);
        sized_body(SMALLEST + room + 1), replace("one of 255 links grows above the limit", k, 28);
    }
}

static void large_links(void) {
    sized_body(CROWD), rct(), link(), loop(0);
    reads("63 items with empty texts"), replace("63 items with empty texts by their like", 0, 0);
    make_body(2, 100, 15, 63, 57, LARGEST), rct(), link(), loop(0);
    reads("63 items with texts up to the limit"), replace("63 items with texts by their like", 0, 0);
    make_body(2, 255, 15, 14, 195, LARGEST), rct(), link(), loop(0);
    reads("14 items with long texts up to the limit"), replace("14 items with long texts by their like", 0, 0);
    sized_body(SMALLEST), append("to a section at the limit", 28);
}

/* Two links, of which one is put anew: the tail behind it moves by less than its own bytes, and by more. */
static void moved_tails(void) {
    static const struct { const char *input; usize first, second, loop, k, now; } of[] = {
        {"the first grows by 1 before 2,800 bytes", SMALLEST, 2300, 500, 0, SMALLEST + 1},
        {"the first grows by 1,000 before 2,800 bytes", SMALLEST, 2300, 500, 0, SMALLEST + 1000},
        {"the first grows by 3,000 before 700 bytes", SMALLEST, 600, 100, 0, SMALLEST + 3000},
        {"the first shrinks by 1 before 2,800 bytes", 1000, 2300, 500, 0, 999},
        {"the first shrinks by 992 before 2,800 bytes", 1000, 2300, 500, 0, SMALLEST},
        {"the first shrinks by 2,992 before 700 bytes", 3000, 600, 100, 0, SMALLEST},
        {"the last grows by 1 before 3,002 bytes", 500, SMALLEST, 3000, 1, SMALLEST + 1},
        {"the last grows by 3,400 before 2 bytes", 500, SMALLEST, 0, 1, SMALLEST + 3400},
        {"the last shrinks by 992 before 2,003 bytes", 500, 1000, 2001, 1, SMALLEST},
        {"the last shrinks by 3,400 before 2 bytes", 500, SMALLEST + 3400, 0, 1, SMALLEST},
    };
    for (usize i = 0; i < sizeof of / sizeof *of; i++) {
        sized_body(of[i].first), rct(), link();
        sized_body(of[i].second), link(), loop(of[i].loop);
        reads("two links and a loop");
        sized_body(of[i].now), replace(of[i].input, of[i].k, 0);
    }
}

/* Without a link the index has no place to tell, whether it is built or not; so there is a section with one, too. */
static void loops(void) {
    rct(), loop(LOOP), reads("empty descriptors up to the limit");
    sized_body(SMALLEST), rct(), link(), loop(LOOP - 10);
    reads("a link and empty descriptors up to the limit"), replace("a link before empty descriptors up to the limit", 0, 0);
    change_last(9);
    READ(eallunsa_rct_index, "the last descriptor of very many is cut off", 39);
    rct(), loop(LOOP - 10), append("before empty descriptors up to the limit", 0);
    sized_body(LARGEST), rct(), loop(0), append("up to the limit to no links", 0);
}

/* Read as any other, and not edited. */
static void above_the_limit(void) {
    rct(), loop((LONGEST - 17) / 2 * 2), reads("2,040 empty descriptors, above the limit");
    sized_body(LARGEST + 1), rct(), link(), loop(0), reads("a link up to above the limit");
    append("to a section above the limit", 28), replace("a link of a section above the limit", 0, 28);
    sized_body(SMALLEST), replace("a link that is above the limit by a small one", 0, 28);
}

/* Links of type 1 and 2 with each kind of locator, which have all eight lengths, and of types 3 and 15. */
static void locators(void) {
    rct();
    for (usize i = 0; i < 34; i++) make_body(i < 32 ? 1 + i % 2 : 3 + i % 2 * 12, 10, i / 2 % 16, 2, 3, 0), link();
    loop(40), reads("locators of all lengths");
    for (usize i = 0; i < 34; i++) {
        make_body(i < 32 ? 1 + i % 2 : 3 + i % 2 * 12, 20, i / 2 % 16, 2, 3, 0);
        append("a locator", 0), replace("the first by a locator", 0, 0), replace("the last by a locator", 33, 0);
    }
}

static void refuse_record(const char *input, usize refusal) { append(input, refusal), replace(input, 50, refusal); }

static void refusals(void) {
    smallest_links(100);
    k1 = 100, k2 = 0;
    READ(eallunsa_rct_link, "no such link", 21);
    READ(eallunsa_rct_item, "no such link", 21);
    k1 = none;
    READ(eallunsa_rct_index, "no such link", 0);
    READ(eallunsa_item_from, "no such place", 12);
    k1 = size;
    READ(eallunsa_rct_entry, "no such place", 4);
    replace("no such link", 100, 21);
    make_body(2, 20, 4, 63, 3, 0), record.fields.has_media_uri = 0, refuse_record("against the link type", 23);
    make_body(2, 20, 4, 63, 3, 0), record.items[62].promotional_text.length = 256, refuse_record("too wide", 22);
    make_body(2, 20, 4, 63, 3, 0), record.fields.dvb_binary_locator.windows.present = 0, refuse_record("against the rule", 24);
    make_body(2, 20, 4, 63, 3, 0), record.items[62].promotional_text.start = (u32)none, refuse_record("past the text", 25);
    lent = size, sized_body(100), refuse_record("no room", 29);
    given[size - 1] ^= 1;
    READ(eallunsa_rct_read, "wrong CRC", size);
    READ(eallunsa_rct_check, "wrong CRC", 20);
    refuse_record("wrong CRC", 20);
    lent = size - 1, k1 = k2 = 0;
    READ(eallunsa_rct_read, "cut section", 3);
    READ(eallunsa_rct_check, "cut section", 3);
    READ(eallunsa_rct_link, "cut section", 3);
    READ(eallunsa_rct_item, "cut section", 3);
    READ(eallunsa_rct_index, "cut section", 3);
    refuse_record("cut section", 3);
}

/* A section with descriptors of the lent section's loop, made in the buffer over what it has. */
static void make(const char *input, usize loop_size, usize refusal) {
    header = (eallunsa_rct_header){{1, 1, 3, 1, 3, 0, 1, 0, 0}, 2000};
    if (refusal == 38) header.section.section_syntax_indicator = 0;
    if (refusal == 22) header.section.version_number = 32;
    k1 = loop_size;
    EDIT(eallunsa_rct_make, input, refusal ? refusal : 17 + loop_size, refusal ? 0 : 17 + loop_size);
}

static void making(void) {
    rct(), loop(0), make("no descriptors", 0, 0);
    smallest_links(255), make("no descriptors over 255 links", 0, 0), make("past the text", 4000, 25);
    sized_body(SMALLEST), rct(), link(), loop(1001), make("a loop of 1,001 bytes", 1001, 0);
    rct(), loop(LOOP), make("empty descriptors up to the limit", LOOP, 0);
    make("above the limit", MOST - 16, 28), make("too wide", LOOP, 22), make("no syntax indicator", LOOP, 38);
    lent = size - 1, make("no room", LOOP, 29);
}

/* The index's questions, and what needs no input. */
static void questions(void) {
    smallest_links(255), index = eallunsa_rct_index(given, lent).index;
    for (k1 = 0; k1 < 300; k1++) {
        READ(eallunsa_index_place, "each number", k1 < 255 ? links[k1].at : 0);
        READ(eallunsa_set_has, "each number", k1 < 255);
    }
    READ(eallunsa_set_count, "255 links", 255);
    eallunsa_version_number version = eallunsa_version();
    READ(eallunsa_version, "no input", version.major * 100 + version.minor);
}

/* A resolution notification section, and its readings. */
static void rnt(const char *input, usize common, usize providers, usize authorities, usize name) {
    head(0x79), put(2), put16(0xF000 | common);
    while (common--) put(0x5F);
    for (usize p = 0; p < providers; p++) {
        put16(0xF000 | (name + 3) * (1 + authorities));
        for (usize a = 0; a <= authorities; a++) { /* first its own name and descriptors, which look the same */
            put(name);
            for (usize i = 0; i < name; i++) put(0x61);
            put16(0xF000);
        }
    }
    finish();
    READ(eallunsa_rnt_read, input, size);
    READ(eallunsa_rnt_check, input, size > MOST ? 28 : size);
    k1 = providers - 1, k2 = authorities - 1;
    READ(eallunsa_rnt_provider, input, providers ? authorities : 21);
    READ(eallunsa_rnt_authority, input, providers && authorities ? name : 21);
    if (!providers) return;
    usize first = 13 + ((given[9] & 15) << 8 | given[10]);
    end_at = size - 4, k1 = first - 2;
    READ(eallunsa_rnt_provider_at, input, first + (name + 3) * (1 + authorities));
    end_at = first + (name + 3) * (1 + authorities), k1 = first + name + 3;
    READ(eallunsa_rnt_authority_at, input, authorities ? k1 + name + 3 : 46);
}

static void notifications(void) {
    rnt("common descriptors alone", 4000, 0, 0, 0);
    rnt("common descriptors above the limit", 4082, 0, 0, 0);
    rnt("816 providers", 0, 816, 0, 0);
    rnt("one provider with 1,350 authorities", 0, 1, 1350, 0);
    rnt("3 providers with 4 authorities each and long names", 100, 3, 4, 255);
    rnt("40 providers with 30 authorities each", 0, 40, 30, 0);
    end_at = size - 4, k1 = size - 5;
    READ(eallunsa_rnt_provider_at, "a provider cut off", 42);
    change_last(9);
    READ(eallunsa_rnt_read, "an authority cut off", 46);
    READ(eallunsa_rnt_check, "an authority cut off", 46);
    change_last(0), given[size - 1] ^= 1;
    READ(eallunsa_rnt_check, "wrong CRC", 20);
    lent = size - 1;
    READ(eallunsa_rnt_read, "cut section", 3);
    READ(eallunsa_rnt_check, "cut section", 3);
}

/* What the calls take from the C library. */
static usize words[3], returned;
static void site_memory(void) { returned = ((usize (*)(usize, usize, usize))called)(words[0], words[1], words[2]); }

static void memory(void) {
    static const struct { const char *name; code *f; } of[] = {{"memcpy", (code *)memcpy}, {"memmove", (code *)memmove},
        {"memset", (code *)memset}, {"memcmp", (code *)memcmp}, {"bcmp", (code *)bcmp}};
    for (usize n = 1; n <= 4096; n++)
        for (usize i = 0; i < 10; i++) { /* each in both colours; memmove up and down over itself */
            usize k = i / 2, up = i % 2;
            words[0] = (usize)b + 9 * up, words[1] = (usize)(k == 1 ? b + 5 : body), words[2] = n;
            note(of[k].name, 0, "1 .. 4,096 bytes", depth_of(up ? 0xC3 : 0x5A, site_memory, of[k].f));
            if (k < 3 && returned != words[0]) wrong = 1, printf("wrong: %s of %lu bytes\n", of[k].name, n);
        }
}

int main(void) {
    memory();
    many_links(), large_links(), moved_tails(), loops(), above_the_limit(), locators(), refusals(), making(), questions();
    notifications();
    for (int i = 0; deepest[i].call; i++)
        printf("%s\t%lu\t%lu\t%s\n", deepest[i].call, deepest[i].depth, deepest[i].handed, deepest[i].input);
    return wrong;
}
