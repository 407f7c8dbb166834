/* Printing for people: a refusal by number, name and cause, and the entries of a list as a table. */
#ifndef DEMO_TABLE_H
#define DEMO_TABLE_H

#include <stddef.h>
#include <stdint.h>

/* The name and the cause of a refusal's number. */
const char *refusal_name(uint32_t number);
const char *refusal_cause(uint32_t number);

/* One line: the number, name and cause, and where `at` is not 0, as of TL_ENTRY alone, the offset of the bad entry. */
void print_refusal(uint32_t number, uint32_t at);

/*
 * The list's header line and a row for each entry, or the refusal. With TL_ENTRY the header line and the rows follow all the same, up to
 * that of the bad entry, which `->` points at and which says the rule that is broken. Returns the list check's number.
 */
uint32_t print_list(const uint8_t *area, size_t len, uint64_t base);

/* The same of a list of edition 0.9, where `used` and used_size stand for its size. */
uint32_t print_list09(const uint8_t *area, size_t len, uint64_t base);

/* Where the entry behind a good one is. */
uint32_t next_entry(const uint8_t *area, uint32_t at);

/* The first n bytes, sixteen to a line. */
void print_hex(const uint8_t *bytes, size_t n);

#endif
