/* SPDX-License-Identifier: GPL-2.0-only OR MIT */
/* A board's model as a driver keeps it: all the memory that the calls are lent.
 *
 * No call here allocates, sleeps or locks. The caller holds one lock over each.
 */
#ifndef MODEL_H
#define MODEL_H

#include <gormulast.h>

/* The most numbers that a matrix can keep. */
#define MOST_NUMBERS GORMULAST_MATRIX(GORMULAST_MAX_NODES)
#define MATRICES 4

/* Zones of nodes and their band edges, as gormulast.h has them. One zone, node or edge too many still has room, to be refused. */
#define MOST_MEMBERS 2048 /* a page of text has no more numbers */
struct zones {
	uint32_t counts[GORMULAST_MAX_ZONES + 1], members[MOST_MEMBERS], edges[GORMULAST_MAX_EDGES + 1];
	size_t zones, placed, edged; /* how many of each */
};

struct model {
	uint32_t table[GORMULAST_MAX_TABLE];
	size_t length; /* of the table: six numbers a card, 0 before the first deck */
	uint32_t next[GORMULAST_MAX_TABLE]; /* a deck not yet accepted */
	int64_t *p, *a, *factor, *work; /* each of so many numbers: a deck that needs more is refused by 9 */
	size_t numbers;
	uint32_t starts[GORMULAST_MAX_NODES]; /* where each of their rows begins, as the build told */
	int64_t temperatures[GORMULAST_MAX_NODES];
	int64_t carried[GORMULAST_MAX_NODES]; /* what each step leaves to the next */
	size_t nodes;
	struct zones zones; /* none after a deck, until they are set */
	uint32_t summary[3 * (GORMULAST_MAX_ZONES + 1)]; /* of each its coldest node, its hottest and its band, kept by every step */
};

/* Lends an empty model the memory of its matrices, MATRICES times so many numbers, as long as it is used. */
void model_lend(struct model *model, int64_t *memory, size_t numbers);

/* Each answers as gormulast.h says. A refusal leaves the model as it was. */
uint64_t model_deck(struct model *model, const uint8_t *bytes, size_t length);
uint64_t model_replace(struct model *model, uint32_t card, const uint32_t new[GORMULAST_CARD_NUMBERS]);
uint64_t model_step(struct model *model);
uint64_t model_zones(struct model *model, const struct zones *zones);

/* The deck as bytes: how many, 0 where there is no deck or too little room. */
size_t model_bytes(const struct model *model, uint8_t *bytes, size_t room);

#endif
