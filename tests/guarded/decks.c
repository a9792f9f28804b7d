// SPDX-License-Identifier: GPL-2.0-only OR MIT
#include "decks.h"
#include <string.h>

/* ---- chance */

static uint64_t state;

void chance_seed(uint64_t seed)
{
	state = seed;
}

uint64_t chance_bits(void) /* splitmix */
{
	uint64_t bits = state += 0x9E3779B97F4A7C15;

	bits = (bits ^ bits >> 30) * 0xBF58476D1CE4E5B9;
	bits = (bits ^ bits >> 27) * 0x94D049BB133111EB;
	return bits ^ bits >> 31;
}

uint32_t within(uint32_t least, uint32_t most)
{
	return least + (uint32_t)((chance_bits() >> 32) * (most - least + 1ull) >> 32);
}

bool one_in(uint32_t count)
{
	return within(1, count) == 1;
}

uint32_t sized(uint32_t least, uint32_t most)
{
	uint32_t number = within(least, most) >> within(0, 20);

	return number < least ? least : number;
}

uint32_t wild_unsigned(void)
{
	static const uint32_t ends[] = { 0, 1, UINT32_MAX, UINT32_MAX - 1, 1u << 31, GORMULAST_TOP, GORMULAST_TOP + 1, 99999999, 100000000 };

	if (one_in(4))
		return ends[within(0, sizeof ends / sizeof *ends - 1)];
	return (uint32_t)chance_bits() >> within(0, 31);
}

int64_t wild_signed(void)
{
	static const int64_t ends[] = { INT64_MIN, INT64_MIN + 1, INT64_MAX, INT64_MAX - 1, 0, 1, -1 };
	static const int bounds[] = { 4, 20, 24, 25, 33, 36, 38, 52, 62 };
	int64_t bound;

	switch (within(0, 3)) {
	case 0:
		return ends[within(0, sizeof ends / sizeof *ends - 1)];
	case 1:
		bound = ((int64_t)1 << bounds[within(0, sizeof bounds / sizeof *bounds - 1)]) + within(0, 2) - 1;
		return one_in(2) ? bound : -bound;
	default:
		return (int64_t)chance_bits() >> within(0, 63);
	}
}

/* ---- decks */

enum { MOST_ELEMENTS = 160, MOST_EDGES = 160 };

static struct board {
	uint32_t points[GORMULAST_MAX_NODES][3], nodes;
	uint32_t elements[MOST_ELEMENTS][4], triangles, solids; /* the triangles first */
	uint32_t materials;
	bool tame; /* as a circuit board is */
} board;

static void add_node(uint32_t x, uint32_t y, uint32_t z)
{
	uint32_t *point = board.points[board.nodes++];

	point[0] = x, point[1] = y, point[2] = z;
}

static void add_element(uint32_t a, uint32_t b, uint32_t c, uint32_t d)
{
	uint32_t *element = board.elements[board.triangles + board.solids];

	if (board.triangles + board.solids == MOST_ELEMENTS)
		return;
	element[0] = a, element[1] = b, element[2] = c, element[3] = d;
	if (d)
		board.solids++;
	else
		board.triangles++;
}

/* One triangle: document 01's, one whose factor is hard, a thin one, or any. */
static void triangle(void)
{
	static const uint32_t known[][6] = {
		{ 0, 0, 100, 0, 0, 100 }, { 0, 0, 100, 0, 104, 3 }, { 0, 0, 100, 0, 101, 1 }, { 0, 0, 50, 50, 100, 100 },
	};
	const uint32_t *at = known[within(0, 3)];
	bool any = one_in(3);
	int i;

	for (i = 0; i < 3; i++)
		add_node(any ? within(0, 4095) : at[2 * i], any ? within(0, 4095) : at[2 * i + 1], 0);
	add_element(1, 2, 3, 0);
}

static void sheet(uint32_t columns, uint32_t rows)
{
	uint32_t dx = within(40, 80), dy = within(40, 80), x, y, at;

	for (y = 0; y < rows; y++)
		for (x = 0; x < columns; x++)
			add_node(x * dx + within(0, 10), y * dy + within(0, 10), 0);
	for (y = 0; y + 1 < rows; y++)
		for (x = 0; x + 1 < columns; x++) {
			at = y * columns + x + 1;
			add_element(at, at + 1, at + columns, 0);
			add_element(at + columns + 1, at + 1, at + columns, 0);
		}
}

/* Cells of five tetrahedra, and now and then triangles on the lowest level. */
static void block(uint32_t columns, uint32_t rows, uint32_t levels)
{
	static const uint8_t cut[5][4] = { { 0, 1, 2, 4 }, { 3, 1, 2, 7 }, { 5, 1, 4, 7 }, { 6, 2, 4, 7 }, { 1, 2, 4, 7 } };
	uint32_t side = within(40, 80), x, y, z, i, corners[8];

	for (z = 0; z < levels; z++)
		for (y = 0; y < rows; y++)
			for (x = 0; x < columns; x++)
				add_node(x * side + within(0, 10), y * side + within(0, 10), z * side);
	for (x = 1; x < columns && one_in(2); x++)
		add_element(x, x + 1, x + columns, 0);
	for (z = 0; z + 1 < levels; z++)
		for (y = 0; y + 1 < rows; y++)
			for (x = 0; x + 1 < columns; x++) {
				for (i = 0; i < 8; i++)
					corners[i] = 1 + (x + (i & 1)) + columns * ((y + (i >> 1 & 1)) + rows * (z + (i >> 2)));
				for (i = 0; i < 5; i++)
					add_element(corners[cut[i][0]], corners[cut[i][1]], corners[cut[i][2]], corners[cut[i][3]]);
			}
}

/* Other numbers for the nodes: rows then begin anywhere. */
static void shuffle(void)
{
	uint32_t order[GORMULAST_MAX_NODES], points[GORMULAST_MAX_NODES][3], i, j, swap;

	for (i = 0; i < board.nodes; i++)
		order[i] = i;
	for (i = board.nodes; i > 1; i--) {
		j = within(0, i - 1);
		swap = order[i - 1], order[i - 1] = order[j], order[j] = swap;
	}
	memcpy(points, board.points, sizeof points);
	for (i = 0; i < board.nodes; i++)
		memcpy(board.points[order[i]], points[i], sizeof *points);
	for (i = 0; i < board.triangles + board.solids; i++)
		for (j = 0; j < 4; j++)
			if (board.elements[i][j])
				board.elements[i][j] = order[board.elements[i][j] - 1] + 1;
}

static void shape(void)
{
	memset(&board, 0, sizeof board);
	board.tame = !one_in(4);
	switch (within(0, 15)) {
	case 0: case 1: case 2:
		triangle();
		break;
	case 3: case 4: case 5:
		block(2, 2, 2);
		break;
	case 6:
		block(within(2, 4), within(2, 4), within(2, 4));
		break;
	case 7:
		sheet(within(2, 12), within(2, 8));
		break;
	default:
		sheet(within(2, 4), within(2, 4));
	}
	if (one_in(3))
		shuffle();
}

static uint32_t *add_card(struct deck *deck, char letter, uint32_t f1, uint32_t f2, uint32_t f3, uint32_t f4, uint32_t f5)
{
	uint32_t *card = deck->table + deck->length;

	card[0] = (uint32_t)letter, card[1] = f1, card[2] = f2, card[3] = f3, card[4] = f4, card[5] = f5;
	deck->length += GORMULAST_CARD_NUMBERS;
	return card;
}

static uint32_t temperature(void)
{
	return one_in(4) ? within(0, GORMULAST_TOP) : within(19000000, 21000000);
}

static void add_materials(struct deck *deck)
{
	uint32_t i, k[3], j;

	board.materials = within(1, 3);
	for (i = 0; i < board.materials; i++) {
		for (j = 0; j < 3; j++)
			k[j] = board.tame ? within(300, 20000) : sized(1, 500000);
		add_card(deck, 'M', k[0], k[1], board.tame ? within(1000, 5000) : sized(1, 5000), board.solids ? k[2] : 0,
			 one_in(4) ? 0 : sized(1, 1000));
	}
}

static void add_elements(struct deck *deck)
{
	uint32_t i, *at;

	for (i = 0; i < board.triangles + board.solids; i++) {
		at = board.elements[i];
		if (at[3])
			add_card(deck, 'V', at[0], at[1], at[2], at[3], within(1, board.materials));
		else
			add_card(deck, 'E', at[0], at[1], at[2], within(1, board.materials), board.tame ? within(800, 2000) : sized(1, 4000));
	}
}

/* Edges between the corners of an element, by their lower node and then the higher. */
static void add_edges(struct deck *deck)
{
	static bool joined[GORMULAST_MAX_NODES + 1][GORMULAST_MAX_NODES + 1];
	uint32_t left = MOST_EDGES, i, j;

	for (i = 1; i <= board.nodes; i++)
		memset(joined[i], 0, board.nodes + 1);
	for (i = 0; i < board.triangles + board.solids; i++)
		joined[board.elements[i][0]][board.elements[i][1]] = joined[board.elements[i][2]][board.elements[i][1]] = one_in(4);
	for (i = 1; i <= board.nodes; i++)
		for (j = i + 1; j <= board.nodes && left; j++)
			if (joined[i][j]) {
				add_card(deck, 'G', i, j, sized(1, 100000), temperature(), within(1, 4000));
				left--;
			}
}

/* Changes of cards that are there, at increments that rise. */
static void add_changes(struct deck *deck)
{
	size_t cards = deck->length / GORMULAST_CARD_NUMBERS;
	uint32_t increment = 0, left = within(1, 4);
	const uint32_t *card;
	size_t at;

	for (at = 0; at < cards && left; at++) {
		card = deck->table + GORMULAST_CARD_NUMBERS * at;
		if (!memchr("EHFT", (int)card[0], 4) || !one_in(3))
			continue;
		increment += within(1, 20);
		left--;
		/* An E is named by its place among the elements, the others by their first field. */
		add_card(deck, 'C', increment, card[0],
			 card[0] == 'E' ? (uint32_t)at - board.nodes - board.materials : card[1], wild_unsigned() % 100000000,
			 card[0] == 'E' || card[0] == 'F' ? wild_unsigned() % 100000000 : 0);
	}
}

static void add_loads(struct deck *deck)
{
	uint32_t i;

	for (i = 0; i < board.triangles + board.solids; i++)
		if (one_in(4))
			add_card(deck, 'H', i + 1, sized(1, 5000000), 0, 0, 0);
	for (i = 0; i < board.triangles; i++)
		if (one_in(4))
			add_card(deck, 'F', i + 1, sized(1, 100000), temperature(), 0, 0);
	add_edges(deck);
	for (i = 0; i < board.triangles; i++)
		if (one_in(4))
			add_card(deck, 'R', i + 1, temperature(), 0, 0, 0);
	for (i = 0; i < board.nodes; i++)
		if (one_in(8))
			add_card(deck, 'T', i + 1, temperature(), 0, 0, 0);
}

/* Where each row begins: each is kept from the least node that shares an E, V or G card with its own. */
static void find_starts(struct deck *deck)
{
	uint32_t first[GORMULAST_MAX_NODES], least, i;
	const uint32_t *card;
	size_t at, corners;

	for (i = 0; i < deck->nodes; i++)
		first[i] = i + 1;
	for (at = 0; at < deck->length; at += GORMULAST_CARD_NUMBERS) {
		card = deck->table + at;
		corners = card[0] == 'E' ? 3 : card[0] == 'V' ? 4 : card[0] == 'G' ? 2 : 0;
		least = GORMULAST_MAX_NODES;
		for (i = 1; i <= corners; i++)
			least = card[i] < least ? card[i] : least;
		for (i = 1; i <= corners; i++)
			if (least < first[card[i] - 1])
				first[card[i] - 1] = least;
	}
	deck->numbers = 0;
	for (i = 0; i < deck->nodes; i++) {
		deck->starts[i] = (uint32_t)deck->numbers;
		deck->numbers += i + 2 - first[i];
	}
}

void deck_make(struct deck *deck)
{
	uint32_t elements, before, i;

	shape();
	deck->length = 0;
	deck->nodes = board.nodes;
	elements = board.triangles + board.solids;
	add_card(deck, 'D', board.tame ? within(500, 2000) : sized(1, 60000), temperature(), within(1, 100), 0, 0);
	for (i = 0; i < board.nodes; i++)
		add_card(deck, 'N', board.points[i][0], board.points[i][1], board.points[i][2], 0, 0);
	add_materials(deck);
	add_elements(deck);
	before = (uint32_t)(deck->length / GORMULAST_CARD_NUMBERS);
	add_loads(deck);
	if (one_in(3))
		add_changes(deck);
	add_card(deck, 'Z', (uint32_t)(deck->length / GORMULAST_CARD_NUMBERS * GORMULAST_CARD_BYTES), board.nodes, board.materials, elements,
		 (uint32_t)(deck->length / GORMULAST_CARD_NUMBERS) - before);
	find_starts(deck);
}
