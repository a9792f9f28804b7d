/* SPDX-License-Identifier: GPL-2.0-only OR MIT */
/* Chance, and decks made by it. */
#ifndef DECKS_H
#define DECKS_H

#include <gormulast.h>
#include <stdbool.h>

void chance_seed(uint64_t seed);
uint64_t chance_bits(void);
uint32_t within(uint32_t least, uint32_t most); /* both may come */
bool one_in(uint32_t count);
uint32_t sized(uint32_t least, uint32_t most); /* as often of few digits as of many */
uint32_t wild_unsigned(void);
int64_t wild_signed(void);

/* A deck as its table, and what its matrices take. */
struct deck {
	uint32_t table[GORMULAST_MAX_TABLE];
	size_t length, nodes;
	uint32_t starts[GORMULAST_MAX_NODES];
	size_t numbers; /* that each matrix keeps */
};

/* Most often one that can be built. */
void deck_make(struct deck *deck);

#endif
