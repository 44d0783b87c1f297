/* Plain C for the library's jobs, with the library's records and checks: each answers the number of the refusal, 0 for none.
   What the library proves is here to be believed, and bench.c compares both on sections good and bad. */
#ifndef PLAIN_H
#define PLAIN_H
#include "eallunsa.h"

uint32_t plain_crc(const uint8_t *s, size_t n);
uint8_t plain_read(const uint8_t *s, size_t n, eallunsa_rct_answer *out);
uint8_t plain_check(const uint8_t *s, size_t n, eallunsa_rct_answer *out);
uint8_t plain_link(const uint8_t *s, size_t n, size_t number, eallunsa_link *out);
uint8_t plain_append(uint8_t *b, size_t room, const uint8_t *text, size_t text_length, const eallunsa_link *link, size_t *total);
uint8_t plain_replace(uint8_t *b, size_t room, size_t number, const uint8_t *text, size_t text_length, const eallunsa_link *link,
                      size_t *total);
/* Reads, then visits each link and each item with its record. */
typedef void plain_visit_link(const eallunsa_fields *), plain_visit_item(const eallunsa_item *);
uint8_t plain_walk(const uint8_t *s, size_t n, plain_visit_link *link, plain_visit_item *item);
#endif
