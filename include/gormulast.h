/* SPDX-License-Identifier: GPL-2.0-only OR MIT */
/* Gormulast: a heat model of a board, all in whole numbers.
 *
 * Compiles as C99, as C++ and in a Linux kernel, on 64-bit machines. No call allocates, prints, waits or keeps state; each
 * ends, stays inside the buffers lent to it and answers one number. A call takes numbers of any size and buffers of any
 * length, and refuses what it can't use.
 *
 * What a caller owes:
 *   - each pointer is aligned, is good for the length after it (a count of elements, not of bytes), and is not null, even
 *     where that length is 0;
 *   - no two buffers of one call overlap, and no one else touches them while the call runs.
 *
 * An answer is number + 256 * corrections + 65536 * place. Number 0 is acceptance, 1 to 14 or 17 to 19 a refusal; place says where;
 * corrections is how often a step corrected, 1 to 4, and 0 on a refusal and in every other call.
 */
#ifndef GORMULAST_H
#define GORMULAST_H

#ifdef __KERNEL__
#include <linux/types.h>
#else
#include <stddef.h>
#include <stdint.h>
#endif

#ifdef __cplusplus
extern "C" {
#endif

#define GORMULAST_NUMBER(answer)      ((unsigned)((answer) & 255))
#define GORMULAST_CORRECTIONS(answer) ((unsigned)(((answer) >> 8) & 255))
#define GORMULAST_PLACE(answer)       ((uint32_t)((answer) >> 16))

/* The refusals: name, number, plain words. Where the words have a %u, it is the place, from 1; elsewhere the place is 0. */
#define GORMULAST_REFUSALS(row) \
	row(LENGTH, 1, "no deck has so few or so many bytes or numbers, or there are too many zones, nodes in one or edges") \
	row(TRAILER, 2, "the last card is no trailer, or its counts don't fit") \
	row(FORM, 3, "card %u is malformed, or stands where it may not") \
	row(RANGE, 4, "card %u has a field out of its range, or a key that does not rise") \
	row(FLAT, 5, "element %u has no area or no volume") \
	row(STIFF, 6, "element %u conducts or stores too much") \
	row(PIVOT, 7, "row %u of the factor has a pivot under 16") \
	row(BOUND, 8, "row %u has a number of the factor or of a step past its bound") \
	row(SHORT, 9, "a lent buffer is too short") \
	row(FOREIGN, 10, "the lent P, A, factor or carried has numbers that no call gives") \
	row(OFF_SCALE, 11, "node %u has a temperature off the scale") \
	row(UNSETTLED, 12, "row %u is not settled after four corrections") \
	row(REPLACEMENT, 13, "card %u can't become that card, or there is no such card") \
	row(THIN, 14, "element %u is too thin for its longest side") \
	row(STRAY, 17, "row %u begins elsewhere in this deck than the lent starts say") \
	row(ZONE, 18, "zone %u is empty, or has a node that is not in the deck") \
	row(EDGE, 19, "band edge %u is not above the one before it")

#define GORMULAST_NUMBERED(name, number, words) GORMULAST_##name = number,
enum gormulast_refusal { GORMULAST_REFUSALS(GORMULAST_NUMBERED) GORMULAST_ACCEPTED = 0 };
#undef GORMULAST_NUMBERED

/* A refusal's words, by its number: a format for its place. */
#define GORMULAST_SAID(name, number, words) case number: return words;
static inline const char *gormulast_words(unsigned number)
{
	switch (number) {
	GORMULAST_REFUSALS(GORMULAST_SAID)
	default: return "accepted";
	}
}
#undef GORMULAST_SAID

/* A temperature is a count of ticks, 0 to GORMULAST_TOP. */
#define GORMULAST_KELVIN 65536
#define GORMULAST_TOP    33554432

/* A card is 42 bytes in a deck and six numbers in a table: its letter, five fields. A deck is solid where its last element is a V
 * card: then each N has a z in its third field and each M a kz in its fourth, which elsewhere are blank, 0 in a table. An M's fifth
 * field is its emissivity in thousandths or blank; an R card is a triangle's source, to which it radiates by the temperatures that a
 * step is lent.
 *
 * A C card says what a run of the deck changes before one of its steps: the increment, a letter by its code, the key of an E, H, F or T
 * card and its new values. The calls here take a deck that has some, and pay no heed to them: a driver's changes are replacements. */
#define GORMULAST_CARD_BYTES   42
#define GORMULAST_CARD_NUMBERS 6

/* The most that a deck can need. */
#define GORMULAST_MAX_BYTES   65536
#define GORMULAST_MAX_TABLE   6396
#define GORMULAST_MAX_NODES   96
#define GORMULAST_MAX_CHANGES 64

/* P, A, the factor and the work slice are matrices: one row for each node, each kept from its first column to its diagonal, one
 * after another. A row's first column is the least node that shares an E, V or G card with it, itself counted, whether held or not.
 * The matrix length is the count of numbers so kept: how many a deck needs goes by the numbers of its nodes. tools/number finds an
 * order with few, and tells it.
 *
 * starts says where each row begins: the index of its first number, the same in all four; the first is 0. A build writes one for
 * each node; keep them with the matrices and lend them to each replacement and step, which write none. No replacement moves one.
 *
 * This is the most that a matrix of n nodes can keep, 4656 of 96. Lend so many, or at least what the deck needs. */
#define GORMULAST_MATRIX(n) ((size_t)(n) * ((size_t)(n) + 1) / 2)

/* The deck at the end of the bytes, as a table.
 *   0        table holds the deck's cards; bytes[*start] to bytes[*end - 1] is the deck, so it has (*end - *start) / 42 cards
 *            and the table's first (*end - *start) / 7 numbers are what the other calls take. Numbers past them stay
 *   refused  the table stays; *start and *end are 0
 * Refuses with 1, 2, 3, 4, 9. */
uint64_t gormulast_read(const uint8_t *bytes, size_t bytes_length,
			uint32_t *table, size_t table_length,
			uint64_t *start, uint64_t *end);

/* The table of a deck, as bytes: 42 for each of its cards.
 *   0        the bytes hold the deck; those past it stay
 *   refused  the bytes stay
 * Refuses with 1, 2, 3, 4, 9. */
uint64_t gormulast_write(const uint32_t *table, size_t table_length,
			 uint8_t *bytes, size_t bytes_length);

/* The matrices of a deck, and where their rows start. What the buffers held before does not matter.
 *   0        p, a and factor hold the deck's matrices, starts those of its rows; work is zero
 *   7, 8     work is zero; p, a, factor and starts stay
 *   else     all stay
 * Each over the matrix length, starts over the nodes: numbers past them stay. Refuses with 1 to 9 and 14. */
uint64_t gormulast_build(const uint32_t *table, size_t table_length,
			 int64_t *p, size_t p_length,
			 int64_t *a, size_t a_length,
			 int64_t *factor, size_t factor_length,
			 int64_t *work, size_t work_length,
			 uint32_t *starts, size_t starts_length);

/* One card of the deck anew, and what depends on it. Cards are numbered from 1, D being 1. An E card may change its material
 * and thickness, a V card its material, a G card its film, ambient and thickness, an H, F or T card its values.
 *   0        the table holds the new card. After E and F also: six places of p and a and the factor's rows from the
 *            element's least corner on are those of the new deck; work is zero. After V also: ten places of p and a and
 *            the same rows; work is zero. After G also: three places of a and the factor's rows from its lower node on;
 *            work is zero. After H and T all matrices stay
 *   7, 8     work is zero; all else stays
 *   else     all stay
 * Each over the matrix length: numbers past it stay. Refuses with any but 11 and 12. */
uint64_t gormulast_replace(uint32_t *table, size_t table_length,
			   int64_t *p, size_t p_length,
			   int64_t *a, size_t a_length,
			   int64_t *factor, size_t factor_length,
			   int64_t *work, size_t work_length,
			   const uint32_t *starts, size_t starts_length,
			   uint32_t card, uint32_t letter,
			   uint32_t f1, uint32_t f2, uint32_t f3, uint32_t f4, uint32_t f5);

/* One step of the deck's length from the temperatures lent, one for each node, and from what the step before carried over, one
 * number for each node.
 *
 * Temperatures are whole ticks, so a step leaves a residual at each node: heat, in 1/65536 microwatts over a step, that its
 * temperatures don't have yet, or where it is negative have too soon. The next step adds it at nodes that no T card holds, so
 * that none of the heat is lost, however many steps are taken. Keep carried with the temperatures and lend both to each step:
 *   - it is zeros at the start, and whenever the temperatures are set anew;
 *   - after a replacement it stays as it is: that heat is still due. What a step left is never refused, whatever was replaced;
 *   - its numbers are at most 2^33 in magnitude, and 0 after a step where a T card holds the node.
 *
 *   0        the temperatures are those after the step, carried is what it left; numbers past the last node stay in both
 *   refused  the temperatures and carried stay
 * Refuses with 1 to 4, 8 to 12 and 17. */
uint64_t gormulast_step(const uint32_t *table, size_t table_length,
			const int64_t *p, size_t p_length,
			const int64_t *a, size_t a_length,
			const int64_t *factor, size_t factor_length,
			const uint32_t *starts, size_t starts_length,
			int64_t *temperatures, size_t temperatures_length,
			int64_t *carried, size_t carried_length);

/* Waveform zones. A zone is a list of nodes, of which a panel has one band. Lent of them:
 *   counts   how many nodes each zone has, 1 to 96 each; its length is the number of zones, at most 16
 *   members  all zones' nodes, numbered from 1, one zone after another. A node may stand in several zones, and twice in one
 *   edges    the band edges, at most 14, in ticks, each above the one before it
 *   summary  three numbers a zone: its coldest node, its hottest node, and the band of the coldest, which is the number of edges at
 *            or below its temperature, 0 to 14. Among nodes of one temperature the lowest number counts
 * No zones and no edges are right too. */
#define GORMULAST_MAX_ZONES 16
#define GORMULAST_MAX_EDGES 14

/* The summary of the temperatures lent, made afresh.
 *   0        summary holds it; numbers past three a zone stay
 *   refused  the summary stays
 * Refuses with 1 to 4, 9 and 11, then 1 for more zones, nodes in a zone or edges than that, 18 and 19. */
uint64_t gormulast_zones(const uint32_t *table, size_t table_length,
			 const int64_t *temperatures, size_t temperatures_length,
			 const uint32_t *counts, size_t counts_length,
			 const uint32_t *members, size_t members_length,
			 const uint32_t *edges, size_t edges_length,
			 uint32_t *summary, size_t summary_length);

/* A step, as gormulast_step, and then the zones with a node whose temperature it changed. A summary that was that of the old
 * temperatures, for the same zones and edges, is then that of the new ones; of a zone with no changed node the three numbers stay,
 * whatever they are. So make it once by gormulast_zones, keep it with the temperatures, and make it anew when they, the zones or the
 * edges are set anew.
 *   0        as after a step; summary as said, numbers past three a zone stay
 *   refused  the temperatures, carried and the summary stay
 * Refuses as a step does, with its 9 also of members or summary; then with 1, 18 and 19, as above. */
uint64_t gormulast_zones_step(const uint32_t *table, size_t table_length,
			      const int64_t *p, size_t p_length,
			      const int64_t *a, size_t a_length,
			      const int64_t *factor, size_t factor_length,
			      const uint32_t *starts, size_t starts_length,
			      int64_t *temperatures, size_t temperatures_length,
			      int64_t *carried, size_t carried_length,
			      const uint32_t *counts, size_t counts_length,
			      const uint32_t *members, size_t members_length,
			      const uint32_t *edges, size_t edges_length,
			      uint32_t *summary, size_t summary_length);

#ifdef __cplusplus
}
#endif

#endif
