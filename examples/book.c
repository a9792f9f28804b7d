// SPDX-License-Identifier: GPL-2.0-only OR MIT
/* book DECK: the heat book of a long run, with what each step carries lent to the next, and with it forgotten.
 *
 * The deck has heat, and no F, G, R or T card through which any could go: all of it stays in the board. So two sums must be the
 * same after every step, both in 1/65536 microwatts over a step:
 *
 *     board   P times the temperatures, over all nodes, and what is carried
 *     book    the same at the start, and for each step all of the heat
 *
 * Takes D's steps twice from the start and prints both sums at some steps. Where the carried residuals are kept the difference
 * is 0, and ends with status 1 where it is not after any one step. Where they are forgotten the board drifts from the book.
 */
#include <gormulast.h>
#include <stdio.h>

#define MATRIX GORMULAST_MATRIX(GORMULAST_MAX_NODES)

static uint8_t bytes[GORMULAST_MAX_BYTES];
static uint32_t table[GORMULAST_MAX_TABLE];
static size_t length, nodes;
static int64_t p[MATRIX], a[MATRIX], factor[MATRIX], work[MATRIX];
static uint32_t starts[GORMULAST_MAX_NODES];
static size_t firsts[GORMULAST_MAX_NODES];
static int64_t temperatures[GORMULAST_MAX_NODES], carried[GORMULAST_MAX_NODES];

static int refused(uint64_t answer)
{
	unsigned number = GORMULAST_NUMBER(answer);

	if (!number)
		return 0;
	printf("refused: ");
	printf(gormulast_words(number), GORMULAST_PLACE(answer));
	printf("\n");
	return 1;
}

/* The first node that shares an element with node i, from 0: what is left of it in a row is zero and not kept. */
static size_t first(size_t i)
{
	size_t at, corner, corners, least = i;
	const uint32_t *card;
	int shares;

	for (at = 0; at < length; at += GORMULAST_CARD_NUMBERS) {
		card = table + at;
		corners = card[0] == 'E' ? 3 : card[0] == 'V' ? 4 : 0;
		shares = 0;
		for (corner = 1; corner <= corners; corner++)
			shares |= card[corner] == i + 1;
		for (corner = 1; shares && corner <= corners; corner++)
			if (card[corner] <= least)
				least = card[corner] - 1;
	}
	return least;
}

/* P as a deck has it is so small that no sum here passes 64 bits. */
static int64_t board(void)
{
	const int64_t *number;
	int64_t sum = 0;
	size_t i, j;

	for (i = 0; i < nodes; i++) {
		number = p + starts[i];
		for (j = firsts[i]; j < i; j++)
			sum += *number++ * (temperatures[i] + temperatures[j]);
		sum += *number * temperatures[i] + carried[i];
	}
	return sum;
}

/* Every node at D's temperature, and nothing carried. */
static void start(void)
{
	size_t node;

	for (node = 0; node < nodes; node++) {
		temperatures[node] = table[2];
		carried[node] = 0;
	}
}

static void forget(void)
{
	size_t node;

	for (node = 0; node < nodes; node++)
		carried[node] = 0;
}

/* All of the heat, which the corners of the elements get. */
static int64_t loads(void)
{
	int64_t sum = 0;
	size_t at;

	for (at = 0; at < length; at += GORMULAST_CARD_NUMBERS)
		if (table[at] == 'H')
			sum += 65536 * (int64_t)table[at + 2];
	return sum;
}

static int is_closed(void)
{
	size_t at;

	for (at = 0; at < length; at += GORMULAST_CARD_NUMBERS)
		if (table[at] == 'F' || table[at] == 'G' || table[at] == 'R' || table[at] == 'T')
			return 0;
	return 1;
}

/* The first steps, by powers of ten, and each tenth part of the run. */
static int is_shown(uint32_t step, uint32_t steps)
{
	return step == 1 || step == 10 || step == 100 || step == 1000 || step % ((steps + 9) / 10) == 0 || step == steps;
}

/* In 1/65536 microwatts over a step. */
static double millijoules(int64_t heat)
{
	return (double)heat / 65536 * table[1] / 1000000;
}

/* All of D's steps; how many of them left the two sums apart, or -1 where one was refused. */
static long run(int forgetful)
{
	uint32_t step, steps = table[3];
	int64_t begin, now, book, each = loads();
	long apart = 0;

	start();
	begin = board();
	now = book = begin;
	printf("%8s %20s %20s %16s\n", "step", "board", "book", "difference");
	for (step = 0;; step++) {
		if (is_shown(step, steps))
			printf("%8u %20lld %20lld %16lld\n", step, (long long)now, (long long)book, (long long)(now - book));
		if (step == steps)
			break;
		if (refused(gormulast_step(table, length, p, MATRIX, a, MATRIX, factor, MATRIX, starts, nodes,
					   temperatures, nodes, carried, nodes)))
			return -1;
		if (forgetful)
			forget();
		now = board();
		book += each;
		apart += now != book;
	}
	printf("apart after %ld of %u steps\n", apart, steps);
	printf("of %.0f millijoules the board has %.0f\n", millijoules(book - begin), millijoules(now - begin));
	return apart;
}

/* In hundredths of a degree, rounded; a board above freezing. */
static void print_celsius(int64_t ticks)
{
	int64_t hundredths = (ticks * 100 + GORMULAST_KELVIN / 2) / GORMULAST_KELVIN - 27315;

	printf("%lld.%02lld", (long long)(hundredths / 100), (long long)(hundredths % 100));
}

static void print_board(void)
{
	int64_t least = temperatures[0], most = temperatures[0];
	size_t node;

	for (node = 1; node < nodes; node++) {
		if (temperatures[node] < least)
			least = temperatures[node];
		if (temperatures[node] > most)
			most = temperatures[node];
	}
	printf("it is at ");
	print_celsius(least);
	printf(" to ");
	print_celsius(most);
	printf(" degrees Celsius\n");
}

int main(int count, char **words)
{
	FILE *deck = count == 2 ? fopen(words[1], "rb") : NULL;
	uint64_t from, to;
	size_t size, node;
	long apart;

	if (!deck) {
		fprintf(stderr, "usage: book DECK\n");
		return 2;
	}
	size = fread(bytes, 1, sizeof bytes, deck);
	fclose(deck);
	if (refused(gormulast_read(bytes, size, table, GORMULAST_MAX_TABLE, &from, &to)))
		return 1;
	length = (to - from) / GORMULAST_CARD_BYTES * GORMULAST_CARD_NUMBERS;
	nodes = table[length - 4];
	if (!is_closed()) {
		fprintf(stderr, "book: the deck has a card F, G, R or T\n");
		return 2;
	}
	if (refused(gormulast_build(table, length, p, MATRIX, a, MATRIX, factor, MATRIX, work, MATRIX, starts, GORMULAST_MAX_NODES)))
		return 1;
	for (node = 0; node < nodes; node++)
		firsts[node] = first(node);

	printf("%zu nodes, steps of %u ms, %lld microwatts\n", nodes, table[1], (long long)loads() / 65536);
	printf("\ncarried from step to step\n");
	apart = run(0);
	if (apart < 0)
		return 1;
	print_board();
	printf("\nforgotten after each step\n");
	if (run(1) < 0)
		return 1;
	print_board();
	return apart != 0;
}
