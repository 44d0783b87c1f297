/* bench [ROUNDS]: the library's calls beside plain C for the same jobs (plain.c). First both are compared: on good sections,
   and, refusal by refusal, on sections with a byte changed or cut off. Then they are timed in one run, in rounds that alternate.
   A line for each job and section has the nanoseconds of the best rounds, ours and C's, and ours divided by C's by the best and
   by the median rounds. It exits with 1 if an answer differs. */
#define _POSIX_C_SOURCE 199309L
#include "plain.h"
#include <stdio.h>
#include <stdlib.h>
#include <string.h>
#include <time.h>

enum { LIMIT = 4096, ROOM = 4200, SECTIONS = 6, MOST_ROUNDS = 2001 };

static struct section {
    const char *name;
    uint8_t s[ROOM]; /* the section, then zeros */
    size_t total;
    size_t middle, last;
    eallunsa_link middle_link, last_link; /* their ranges are of s */
    uint8_t shorter[ROOM];                /* the section that the last link is appended to */
    size_t shorter_total, behind;         /* behind: its bytes behind the links */
} sections[SECTIONS], *now;

static uint8_t buffer[ROOM];

static void fail(const char *what)
{
    fprintf(stderr, "bench: %s: %s\n", now ? now->name : "sections", what);
    exit(1);
}

static void hold(int true_of, const char *what) { if (!true_of) fail(what); }

/* ---- the sections, written by the library */

static uint8_t text[ROOM];

static eallunsa_link link_of(unsigned type, unsigned kind, size_t uri, size_t items, size_t each, size_t descriptors)
{
    eallunsa_link l;
    memset(&l, 0, sizeof l);
    l.fields.reserved_link_info_length = 15;
    l.fields.link_type = (uint16_t)type;
    l.fields.reserved_link_type = 3;
    l.fields.how_related = 5 + kind;
    l.fields.term_id = 0x123 + kind;
    l.fields.group_id = 2;
    l.fields.precedence = 9;
    l.fields.has_media_uri = type == 0 || type == 2;
    l.fields.media_uri = (eallunsa_range){kind, (uint32_t)uri};
    l.fields.has_dvb_binary_locator = type == 1 || type == 2;
    l.fields.dvb_binary_locator.scheduled_time_reliability = kind >> 2 & 1;
    l.fields.dvb_binary_locator.reserved = 1;
    l.fields.dvb_binary_locator.start_date = 300;
    l.fields.dvb_binary_locator.service = (eallunsa_service){kind >> 3 & 1, 700, 3, 10, 20, 30};
    l.fields.dvb_binary_locator.start_time = 1000;
    l.fields.dvb_binary_locator.duration = 60;
    l.fields.dvb_binary_locator.identifier = (eallunsa_identifier){kind & 3, 44, 4000};
    l.fields.dvb_binary_locator.windows = (eallunsa_windows){(kind & 7) == 4, 2, 3};
    l.fields.reserved_number_items = 3;
    l.fields.number_items = items;
    l.fields.default_icon_flag = 1;
    l.fields.icon_id = 4;
    l.fields.descriptors = (eallunsa_range){1, (uint32_t)descriptors};
    for (size_t i = 0; i < items; i++) l.items[i] = (eallunsa_item){{'e', 'n', 'g'}, {(uint32_t)(11 * i), (uint32_t)each}};
    return l;
}

static void start(const char *name, size_t loop)
{
    eallunsa_rct_header h = {{1, 1, 3, 0x6dca, 3, 9, 1, 0, 0}, 2026};
    now = now ? now + 1 : sections;
    now->name = name;
    eallunsa_edit_answer e = eallunsa_rct_make(now->s, LIMIT, h, 15, text, sizeof text, (eallunsa_range){0, (uint32_t)loop});
    hold(!e.refusal.number, "make");
    now->total = e.total;
}

static void add(eallunsa_link l)
{
    memcpy(now->shorter, now->s, ROOM);
    now->shorter_total = now->total;
    eallunsa_edit_answer e = eallunsa_rct_append(now->s, LIMIT, text, sizeof text, l);
    hold(!e.refusal.number, "append");
    now->total = e.total;
}

/* A schedule's links up to a total: with URI, with locator, with both; two items each. The last one's descriptors are what is
   left. */
static void schedule(const char *name, size_t total)
{
    start(name, 6);
    for (unsigned k = 0; now->total + 200 < total; k++) add(link_of(k % 3, k % 16, 30, 2, 20, 0));
    add(link_of(0, 0, 30, 1, 20, 0));
    size_t left = total - now->total;
    memcpy(now->s, now->shorter, ROOM), now->total = now->shorter_total;
    add(link_of(0, 0, 30, 1, 20, left));
    hold(now->total == total, "its length");
}

static void make_sections(void)
{
    for (size_t i = 0; i < sizeof text; i++) text[i] = (uint8_t)('a' + i % 26);
    start("17 bytes", 0);
    schedule("256 bytes", 256), schedule("1,024 bytes", 1024), schedule("4,096 bytes", 4096);
    start("255 links", 6);
    for (unsigned k = 0; k < 255; k++) add(k % 2 ? link_of(1, k / 2 % 2 * 4, 0, 0, 0, 0) : link_of(0, 0, 4, 0, 0, 0));
    start("63 items", 6), add(link_of(2, 4, 30, 63, 20, 6));
    for (now = sections; now < sections + SECTIONS; now++) {
        size_t n = now->s[10];
        now->middle = n / 2, now->last = n - 1;
        now->behind = 6 + eallunsa_rct_read(now->s, now->total).descriptors.length;
        if (n) {
            now->middle_link = eallunsa_rct_link(now->s, now->total, now->middle).link;
            now->last_link = eallunsa_rct_link(now->s, now->total, now->last).link;
        } else {
            memcpy(now->shorter, now->s, ROOM), now->shorter_total = now->total;
            now->last_link = link_of(0, 0, 4, 0, 0, 0);
        }
    }
}

/* ---- jobs: each answers a number that says whether it was refused, and leaves its records where they cannot be left out */

static eallunsa_rct_answer our_answer, plain_answer;
static eallunsa_link_answer our_link;
static eallunsa_link the_plain_link;
static size_t sum;

static size_t our_read(void) { our_answer = eallunsa_rct_read(now->s, now->total); return our_answer.refusal.number; }
static size_t c_read(void) { return plain_read(now->s, now->total, &plain_answer); }
static size_t our_check(void) { our_answer = eallunsa_rct_check(now->s, now->total); return our_answer.refusal.number; }
static size_t c_check(void) { return plain_check(now->s, now->total, &plain_answer); }
static size_t our_crc(void) { return eallunsa_crc(now->s, now->total); }
static size_t c_crc(void) { return plain_crc(now->s, now->total); }
static size_t our_last(void) { our_link = eallunsa_rct_link(now->s, now->total, now->last); return our_link.refusal.number; }
static size_t c_last(void) { return plain_link(now->s, now->total, now->last, &the_plain_link); }

__attribute__((noinline)) static void visit_link(const eallunsa_fields *f)
{
    sum = sum * 31 + f->term_id + f->media_uri.length * (f->has_media_uri != 0) + f->number_items + f->descriptors.start;
    sum += f->has_dvb_binary_locator ? f->dvb_binary_locator.start_date + f->dvb_binary_locator.identifier.id : 0u;
}

__attribute__((noinline)) static void visit_item(const eallunsa_item *i)
{
    sum = sum * 31 + i->language_code[2] + i->promotional_text.start + i->promotional_text.length;
}

static size_t our_walk(void)
{
    sum = 0;
    eallunsa_rct_answer r = eallunsa_rct_read(now->s, now->total);
    if (r.refusal.number) return r.refusal.number;
    uint16_t at = EALLUNSA_RCT_FIRST_ENTRY;
    for (size_t k = 0; k < r.number_of_links; k++) {
        eallunsa_entry_answer e = eallunsa_rct_entry(now->s, r.total - 4, at);
        if (e.refusal.number) return e.refusal.number;
        visit_link(&e.fields);
        uint32_t from = e.items_at;
        for (size_t j = 0; j < e.fields.number_items; j++) {
            eallunsa_step_answer i = eallunsa_item_from(now->s, r.total - 4, from);
            if (i.refusal.number) return i.refusal.number;
            visit_item(&i.item);
            from = i.next;
        }
        at = e.next;
    }
    return sum;
}

static size_t c_walk(void)
{
    sum = 0;
    uint8_t refusal = plain_walk(now->s, now->total, visit_link, visit_item);
    return refusal ? refusal : sum;
}

/* The middle link by its like: the section stays what it is, so that nothing has to be put back. */
static size_t our_replace(void)
{
    return eallunsa_rct_replace(buffer, LIMIT, now->middle, now->s, now->total, now->middle_link).total;
}

static size_t c_replace(void)
{
    size_t total = 0;
    plain_replace(buffer, LIMIT, now->middle, now->s, now->total, &now->middle_link, &total);
    return total;
}

/* The last link to the section that lacks it. What the append changed is put back: the head, and what lies behind the links. */
static void put_back(void)
{
    memcpy(buffer, now->shorter, EALLUNSA_RCT_FIRST_ENTRY);
    memcpy(buffer + now->shorter_total - now->behind, now->shorter + now->shorter_total - now->behind, now->behind);
}

static const uint8_t *appended_text(void) { return now->s[10] ? now->s : text; }

static size_t our_append(void)
{
    put_back();
    return eallunsa_rct_append(buffer, LIMIT, appended_text(), LIMIT, now->last_link).total;
}

static size_t c_append(void)
{
    size_t total = 0;
    put_back();
    plain_append(buffer, LIMIT, appended_text(), LIMIT, &now->last_link, &total);
    return total;
}

static const struct job {
    const char *name;
    size_t (*ours)(void), (*plain)(void);
    int links; /* whether it needs a link */
} jobs[] = {
    {"plain reading", our_read, c_read, 0},       {"checked reading", our_check, c_check, 0}, {"walk", our_walk, c_walk, 0},
    {"link by number, the last", our_last, c_last, 1}, {"replace, the middle link", our_replace, c_replace, 1},
    {"append", our_append, c_append, 0},          {"CRC", our_crc, c_crc, 0},
};
enum { JOBS = sizeof jobs / sizeof *jobs };

static void begin(const struct job *job)
{
    memcpy(buffer, job->ours == our_append ? now->shorter : now->s, ROOM);
}

/* ---- comparing */

static unsigned long compared;

static void same_sections(const eallunsa_rct_answer *a, const eallunsa_rct_answer *b)
{
    const eallunsa_header *g = &a->header.section, *h = &b->header.section;
    hold(a->total == b->total && a->number_of_links == b->number_of_links && a->header.year_offset == b->header.year_offset &&
             a->reserved_descriptor_loop_length == b->reserved_descriptor_loop_length &&
             a->descriptors.start == b->descriptors.start && a->descriptors.length == b->descriptors.length,
         "the readings differ");
    hold(g->section_syntax_indicator == h->section_syntax_indicator && g->private_indicator == h->private_indicator &&
             g->reserved_b1 == h->reserved_b1 && g->table_id_extension == h->table_id_extension &&
             g->reserved_b5 == h->reserved_b5 && g->version_number == h->version_number &&
             g->current_next_indicator == h->current_next_indicator && g->section_number == h->section_number &&
             g->last_section_number == h->last_section_number,
         "the headers differ");
}

static void same_links(const eallunsa_link *a, const eallunsa_link *b)
{
    const eallunsa_fields *f = &a->fields, *g = &b->fields;
    const eallunsa_locator *l = &f->dvb_binary_locator, *m = &g->dvb_binary_locator;
    hold(f->reserved_link_info_length == g->reserved_link_info_length && f->link_type == g->link_type &&
             f->reserved_link_type == g->reserved_link_type && f->how_related == g->how_related && f->term_id == g->term_id &&
             f->group_id == g->group_id && f->precedence == g->precedence && f->has_media_uri == g->has_media_uri &&
             f->has_dvb_binary_locator == g->has_dvb_binary_locator && f->reserved_number_items == g->reserved_number_items &&
             f->number_items == g->number_items && f->default_icon_flag == g->default_icon_flag && f->icon_id == g->icon_id &&
             f->descriptors.start == g->descriptors.start && f->descriptors.length == g->descriptors.length,
         "the links differ");
    if (f->has_media_uri)
        hold(f->media_uri.start == g->media_uri.start && f->media_uri.length == g->media_uri.length, "the URIs differ");
    if (f->has_dvb_binary_locator)
        hold(l->scheduled_time_reliability == m->scheduled_time_reliability && l->reserved == m->reserved &&
                 l->start_date == m->start_date && l->start_time == m->start_time && l->duration == m->duration &&
                 !memcmp(&l->identifier, &m->identifier, sizeof l->identifier) &&
                 l->service.inline_service == m->service.inline_service &&
                 l->service.dvb_service_triplet_id == m->service.dvb_service_triplet_id &&
                 l->service.reserved_inline_service == m->service.reserved_inline_service &&
                 l->service.transport_stream_id == m->service.transport_stream_id &&
                 l->service.original_network_id == m->service.original_network_id &&
                 l->service.service_id == m->service.service_id && l->windows.present == m->windows.present &&
                 l->windows.early_start_window == m->windows.early_start_window &&
                 l->windows.late_end_window == m->windows.late_end_window,
             "the locators differ");
    for (size_t k = 0; k < f->number_items; k++)
        hold(!memcmp(a->items[k].language_code, b->items[k].language_code, 3) &&
                 a->items[k].promotional_text.start == b->items[k].promotional_text.start &&
                 a->items[k].promotional_text.length == b->items[k].promotional_text.length,
             "the items differ");
}

/* Both on s[0..n], whatever it is: the readings, the link of a number, the edits with the middle link. */
static void compare_on(const uint8_t *s, size_t n)
{
    static uint8_t a[ROOM], b[ROOM];
    eallunsa_rct_answer r = eallunsa_rct_read(s, n), q;
    hold(r.refusal.number == plain_read(s, n, &q), "plain reading differs");
    if (!r.refusal.number) same_sections(&r, &q);
    r = eallunsa_rct_check(s, n);
    hold(r.refusal.number == plain_check(s, n, &q), "checked reading differs");
    if (!r.refusal.number) same_sections(&r, &q);
    for (size_t k = 0; k < 3; k++) {
        size_t number = k == 0 ? 0 : k == 1 ? now->middle : now->last;
        eallunsa_link_answer l = eallunsa_rct_link(s, n, number);
        eallunsa_link m;
        hold(l.refusal.number == plain_link(s, n, number, &m), "link by number differs");
        if (!l.refusal.number) same_links(&l.link, &m);
    }
    for (int k = 0; k < 2 && now->s[10]; k++) {
        memcpy(a, s, n), memcpy(b, s, n);
        size_t total = 0;
        eallunsa_edit_answer e = k ? eallunsa_rct_append(a, n, now->s, now->total, now->middle_link)
                                   : eallunsa_rct_replace(a, n, now->middle, now->s, now->total, now->middle_link);
        uint8_t refusal = k ? plain_append(b, n, now->s, now->total, &now->middle_link, &total)
                            : plain_replace(b, n, now->middle, now->s, now->total, &now->middle_link, &total);
        hold(e.refusal.number == refusal && e.total == total && !memcmp(a, b, n), k ? "append differs" : "replace differs");
    }
    hold(eallunsa_crc(s, n) == plain_crc(s, n), "the CRC differs");
    compared++;
}

static void compare_replace(eallunsa_link l, size_t text_length)
{
    static uint8_t a[ROOM], b[ROOM];
    memcpy(a, now->s, ROOM), memcpy(b, now->s, ROOM);
    size_t total = 0;
    eallunsa_edit_answer e = eallunsa_rct_replace(a, ROOM, now->middle, now->s, text_length, l);
    uint8_t refusal = plain_replace(b, ROOM, now->middle, now->s, text_length, &l, &total);
    hold(e.refusal.number == refusal && e.total == total && !memcmp(a, b, ROOM), "replace by a changed record differs");
    compared++;
}

/* The middle link's record with each two of its bytes changed, up to its second item, and with texts of each length. */
static void compare_records(void)
{
    const uint16_t odd[] = {0, 1, 2, 3, 4, 7, 8, 15, 16, 31, 32, 63, 64, 255, 256, 511, 512, 1023, 1024, 4095, 4096, 65535};
    for (size_t at = 0; at + 1 < sizeof(eallunsa_fields) + 2 * sizeof(eallunsa_item); at += 2)
        for (size_t v = 0; v < sizeof odd / sizeof *odd; v++) {
            eallunsa_link l = now->middle_link;
            memcpy((uint8_t *)&l + at, &odd[v], 2);
            compare_replace(l, now->total);
        }
    for (size_t n = 0; n <= now->total; n++) compare_replace(now->middle_link, n);
}

/* The section with each length that is below its own of the first links. */
static void compare_lengths(void)
{
    static uint8_t s[ROOM];
    size_t at = EALLUNSA_RCT_FIRST_ENTRY;
    for (size_t k = 0; k < now->s[10] && k < 6; k++) {
        size_t size = (now->s[at] & 15u) << 8 | now->s[at + 1];
        for (size_t n = 0; n < size; n++) {
            memcpy(s, now->s, ROOM);
            s[at] = (uint8_t)(0xF0 | n >> 8), s[at + 1] = (uint8_t)n;
            compare_on(s, ROOM);
        }
        at += 2 + size;
    }
}

static void compare(void)
{
    static uint8_t s[ROOM];
    for (now = sections; now < sections + SECTIONS; now++) {
        compare_on(now->s, now->total), compare_on(now->s, ROOM);
        hold(!eallunsa_rct_check(now->s, now->total).refusal.number, "the section itself is refused");
        for (size_t n = 0; n < now->total; n += 1 + n / 100) compare_on(now->s, n);
        for (size_t at = 0; at < now->total; at += 1 + at / 100)
            for (unsigned v = 0; v < 12; v++) { /* the changed section as it is, and with a right CRC */
                memcpy(s, now->s, ROOM);
                s[at] = (uint8_t)(v < 8 ? s[at] ^ 1 << v : v == 8 ? 0 : v == 9 ? 255 : v == 10 ? s[at] + 1 : s[at] - 1);
                compare_on(s, ROOM);
                uint32_t crc = plain_crc(s, now->total - 4);
                for (int k = 0; k < 4; k++) s[now->total - 4 + (size_t)k] = (uint8_t)(crc >> (24 - 8 * k));
                compare_on(s, ROOM);
            }
        if (now->s[10]) compare_records(), compare_lengths();
        for (size_t j = 0; j < JOBS; j++) {
            if (jobs[j].links && !now->s[10]) continue;
            begin(&jobs[j]);
            size_t ours = jobs[j].ours();
            memcpy(s, buffer, ROOM);
            begin(&jobs[j]);
            hold(ours == jobs[j].plain() && !memcmp(s, buffer, ROOM), jobs[j].name);
            if (jobs[j].ours == our_append || jobs[j].ours == our_replace) hold(ours != 0, "an edit that is timed is refused");
            else if (jobs[j].ours != our_walk) hold(ours == 0, "a call that is timed is refused");
        }
    }
}

/* ---- timing */

static double clock_ns(void)
{
    struct timespec t;
    clock_gettime(CLOCK_THREAD_CPUTIME_ID, &t);
    return (double)t.tv_sec * 1e9 + (double)t.tv_nsec;
}

static volatile size_t kept;

static double slot(size_t (*call)(void), long times)
{
    double from = clock_ns();
    for (long i = 0; i < times; i++) kept = call();
    return (clock_ns() - from) / (double)times;
}

static long times_for(size_t (*call)(void))
{
    long times = 1;
    while (slot(call, times) * (double)times < 1e5) times *= 2;
    return times;
}

static int by_size(const void *a, const void *b)
{
    double x = *(const double *)a, y = *(const double *)b;
    return (x > y) - (x < y);
}

static void measure(const struct job *job, int rounds)
{
    static double ours[MOST_ROUNDS], plain[MOST_ROUNDS];
    begin(job);
    long our_times = times_for(job->ours), plain_times = times_for(job->plain);
    for (int i = 0; i < rounds; i++) { /* either is first in every other round */
        if (i % 2) ours[i] = slot(job->ours, our_times);
        plain[i] = slot(job->plain, plain_times);
        if (i % 2 == 0) ours[i] = slot(job->ours, our_times);
    }
    qsort(ours, (size_t)rounds, sizeof *ours, by_size);
    qsort(plain, (size_t)rounds, sizeof *plain, by_size);
    printf("| %s | %s | %.1f | %.1f | %.3f | %.3f |\n", job->name, now->name, ours[0], plain[0], ours[0] / plain[0],
           ours[rounds / 2] / plain[rounds / 2]);
    fflush(stdout);
}

int main(int argc, char **argv)
{
    int rounds = argc > 1 ? atoi(argv[1]) : 301;
    if (rounds < 1 || rounds > MOST_ROUNDS) rounds = MOST_ROUNDS;
    make_sections();
    compare();
    printf("Both answer the same on %lu inputs. The sections:", compared);
    for (now = sections; now < sections + SECTIONS; now++)
        printf("%s %s (%zu bytes)", now > sections ? "," : "", now->name, now->total);
    printf(".\n\n");
    printf("| job | section | ours, ns | C, ns | ratio, best rounds | ratio, median rounds |\n|---|---|---:|---:|---:|---:|\n");
    for (size_t j = 0; j < JOBS; j++)
        for (now = sections; now < sections + SECTIONS; now++)
            if (!jobs[j].links || now->s[10]) measure(&jobs[j], rounds);
    return 0;
}
