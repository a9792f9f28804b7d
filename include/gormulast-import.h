/* SPDX-License-Identifier: GPL-2.0-only OR MIT */
/* Gormulast: what a thermal bench measured, as cards of a deck.
 *
 * Not for a kernel: the values are floats, and the code of this call takes float registers. It stands in an archive of its own,
 * libgormulast-import.a, which a program may link beside libgormulast.a. Compiles as C99 and as C++, on 64-bit machines. The call
 * keeps to what gormulast.h says of all calls, asks of its caller what those ask, and answers as they do.
 */
#ifndef GORMULAST_IMPORT_H
#define GORMULAST_IMPORT_H

#ifdef __KERNEL__
#error "gormulast-import.h is not for a kernel: its call uses floats. Make the deck in user space."
#endif

#include "gormulast.h"

#ifdef __cplusplus
extern "C" {
#endif

/* The refusals of this call whose words are not those of gormulast.h: name, number, plain words. 4 is of a card of the deck or of
 * a record, by the same number; so are their places. */
#define GORMULAST_IMPORT_REFUSALS(row) \
	row(IMPORT_LENGTH, 1, "no deck has so few or so many numbers, or no records have so few or so many bytes") \
	row(IMPORT_RANGE, 4, "card or record %u has a field out of its range, or a key that does not rise") \
	row(IMPORT_LOADED, 13, "card %u is an H, F or T, which the deck may not have yet") \
	row(INFINITE, 15, "record %u has a value that is not finite") \
	row(GARBLED, 16, "record %u has a wrong kind or an unused field filled, or is no right last record")

#define GORMULAST_NUMBERED(name, number, words) GORMULAST_##name = number,
enum gormulast_import_refusal { GORMULAST_IMPORT_REFUSALS(GORMULAST_NUMBERED) GORMULAST_IMPORTED = 0 };
#undef GORMULAST_NUMBERED

/* A refusal's words, by its number: a format for its place. */
#define GORMULAST_SAID(name, number, words) case number: return words;
static inline const char *gormulast_import_words(unsigned number)
{
	switch (number) {
	GORMULAST_IMPORT_REFUSALS(GORMULAST_SAID)
	default: return gormulast_words(number);
	}
}
#undef GORMULAST_SAID

/* A record is 12 bytes, little-endian: a kind and a number of 16 bits each, then two IEEE 754 singles.
 *
 *   kind  number   values                               becomes
 *   1     element  heat in W, unused                    H
 *   2     element  film in W/(m2 K), ambient in K       F
 *   3     node     temperature in K, unused             T
 *   0     the count of records before it, both unused   none: it is the last, and no other is of kind 0
 *
 * Kinds rise, and numbers within a kind. An unused value has all its bits 0. A used one becomes the whole number of microwatts,
 * milliwatts or ticks nearest to its exact value, halves away from zero; a negative zero is zero. */
#define GORMULAST_RECORD_BYTES      12
#define GORMULAST_MAX_RECORDS_BYTES 65536

/* A deck that has no H, F or T card, with those that the records are: its cards up to the elements, H, F, its own G and R, T, its own C
 * and a new Z. Its C cards can only be of E. The deck's table and the records are only read.
 *   0        the first numbers of second are the new deck's table, six for each card of the old one and for each record but the last:
 *            table_length + records_length / 2 - 6. Numbers past them stay
 *   refused  second stays
 * Refuses with 1 to 4 of the deck; then 13 at its first H, F or T; 1 for the records' length; of each record in turn 16, 15 and 4,
 * the record's number from 1 being the place; and 9 for a short second table, last. */
uint64_t gormulast_import(const uint32_t *table, size_t table_length,
			  const uint8_t *records, size_t records_length,
			  uint32_t *second, size_t second_length);

#ifdef __cplusplus
}
#endif

#endif
