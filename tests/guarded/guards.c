// SPDX-License-Identifier: GPL-2.0-only OR MIT
/* guards SECONDS SEED [DECK]: calls of the archive that this is linked with, each slice lent at a page that can't be touched.
 *
 * A slice ends at such a page or begins at one, as chance has it, with marks at its other end; one that a call only reads lies in
 * pages that can't be written. Decks made by chance, then damaged; numbers of any size; slices short, long and just right. After a
 * refusal all that was lent is as it was, but the work slice. A touch outside ends the program, which then says where it was.
 *
 * DECK is the first deck's number, to do one again.
 */
#include "decks.h"
#include "lent.h"
#include <signal.h>
#include <stdio.h>
#include <stdlib.h>
#include <string.h>
#include <time.h>
#include <unistd.h>

/* ---- what can be lent: a row for each buffer */

enum { BYTES, TABLE, P, A, FACTOR, WORK, STARTS, TEMPERATURES, CARRIED, ZONES, MEMBERS, EDGES, SUMMARY, START, END, BUFFERS };

#define MATRIX GORMULAST_MATRIX(GORMULAST_MAX_NODES)
#define MORE   64 /* a slice may be longer than any deck needs, by so much */

static struct deck deck;
static size_t notes; /* bytes before the deck's own */
static size_t zones, members, edges; /* that the deck at work has */

static size_t deck_bytes(void)
{
	return notes + deck.length / GORMULAST_CARD_NUMBERS * GORMULAST_CARD_BYTES;
}

static size_t deck_table(void)
{
	return deck.length;
}

static size_t deck_matrix(void)
{
	return deck.numbers;
}

static size_t deck_nodes(void)
{
	return deck.nodes;
}

static size_t deck_zones(void)
{
	return zones;
}

static size_t deck_members(void)
{
	return members;
}

static size_t deck_edges(void)
{
	return edges;
}

static size_t deck_summary(void)
{
	return 3 * zones;
}

static size_t one(void)
{
	return 1;
}

static const struct {
	const char *name;
	size_t size, room;      /* of a number, in bytes; in numbers */
	size_t (*needed)(void); /* how many the deck at work asks for */
} buffers[BUFFERS] = {
	[BYTES] = { "bytes", 1, GORMULAST_MAX_BYTES + MORE, deck_bytes },
	[TABLE] = { "table", 4, GORMULAST_MAX_TABLE + MORE, deck_table },
	[P] = { "p", 8, MATRIX + MORE, deck_matrix },
	[A] = { "a", 8, MATRIX + MORE, deck_matrix },
	[FACTOR] = { "factor", 8, MATRIX + MORE, deck_matrix },
	[WORK] = { "work", 8, MATRIX + MORE, deck_matrix },
	[STARTS] = { "starts", 4, GORMULAST_MAX_NODES + MORE, deck_nodes },
	[TEMPERATURES] = { "temperatures", 8, GORMULAST_MAX_NODES + MORE, deck_nodes },
	[CARRIED] = { "carried", 8, GORMULAST_MAX_NODES + MORE, deck_nodes },
	[ZONES] = { "zones", 4, GORMULAST_MAX_ZONES + MORE, deck_zones },
	[MEMBERS] = { "members", 4, GORMULAST_MAX_ZONES * GORMULAST_MAX_NODES + MORE, deck_members },
	[EDGES] = { "edges", 4, GORMULAST_MAX_EDGES + MORE, deck_edges },
	[SUMMARY] = { "summary", 4, 3 * GORMULAST_MAX_ZONES + MORE, deck_summary },
	[START] = { "start", 8, 1, one },
	[END] = { "end", 8, 1, one },
};

static struct arena arenas[BUFFERS];
static struct slice lent[BUFFERS];
static unsigned char *kept[BUFFERS]; /* what the deck at work has */
static unsigned char *now[BUFFERS];  /* what is lent next */

/* ---- the calls: a row for each */

static uint32_t card, new[GORMULAST_CARD_NUMBERS]; /* of a replacement */

#define SLICE(type, buffer) (type *)(void *)lent[buffer].at, lent[buffer].length
#define NUMBERS(buffer)     SLICE(int64_t, buffer)
#define COUNTS(buffer)      SLICE(uint32_t, buffer)

static uint64_t call_read(void)
{
	return gormulast_read(SLICE(uint8_t, BYTES), COUNTS(TABLE), (uint64_t *)(void *)lent[START].at, (uint64_t *)(void *)lent[END].at);
}

static uint64_t call_write(void)
{
	return gormulast_write(COUNTS(TABLE), SLICE(uint8_t, BYTES));
}

static uint64_t call_build(void)
{
	return gormulast_build(COUNTS(TABLE), NUMBERS(P), NUMBERS(A), NUMBERS(FACTOR), NUMBERS(WORK), COUNTS(STARTS));
}

static uint64_t call_replace(void)
{
	return gormulast_replace(COUNTS(TABLE), NUMBERS(P), NUMBERS(A), NUMBERS(FACTOR), NUMBERS(WORK), COUNTS(STARTS),
				 card, new[0], new[1], new[2], new[3], new[4], new[5]);
}

static uint64_t call_step(void)
{
	return gormulast_step(COUNTS(TABLE), NUMBERS(P), NUMBERS(A), NUMBERS(FACTOR), COUNTS(STARTS), NUMBERS(TEMPERATURES), NUMBERS(CARRIED));
}

static uint64_t call_zones(void)
{
	return gormulast_zones(COUNTS(TABLE), NUMBERS(TEMPERATURES), COUNTS(ZONES), COUNTS(MEMBERS), COUNTS(EDGES), COUNTS(SUMMARY));
}

static uint64_t call_zones_step(void)
{
	return gormulast_zones_step(COUNTS(TABLE), NUMBERS(P), NUMBERS(A), NUMBERS(FACTOR), COUNTS(STARTS), NUMBERS(TEMPERATURES),
				    NUMBERS(CARRIED), COUNTS(ZONES), COUNTS(MEMBERS), COUNTS(EDGES), COUNTS(SUMMARY));
}

#define BIT(number)  (1u << (number))
#define MATRICES     (BIT(P) | BIT(A) | BIT(FACTOR))
#define ZONED        (BIT(ZONES) | BIT(MEMBERS) | BIT(EDGES))
#define DECK_REFUSED (BIT(0) | BIT(1) | BIT(2) | BIT(3) | BIT(4) | BIT(9)) /* also 0: what is done */

static const struct call {
	const char *name;
	uint64_t (*make)(void);
	unsigned int often;         /* how often it is made among the others */
	unsigned int reads, writes; /* slices: const in the header, and not */
	unsigned int tells;         /* numbers that it always writes, 0 on a refusal */
	unsigned int deck;          /* of these the slice whose length is the deck's own */
	unsigned int answers;       /* all that the header says, and each must come */
} calls[] = {
	{ "read", call_read, 1, BIT(BYTES), BIT(TABLE), BIT(START) | BIT(END), BIT(BYTES), DECK_REFUSED },
	{ "write", call_write, 1, BIT(TABLE), BIT(BYTES), 0, BIT(TABLE), DECK_REFUSED },
	{ "build", call_build, 1, BIT(TABLE), MATRICES | BIT(WORK) | BIT(STARTS), 0, BIT(TABLE),
	  DECK_REFUSED | BIT(5) | BIT(6) | BIT(7) | BIT(8) | BIT(14) },
	{ "replace", call_replace, 3, BIT(STARTS), BIT(TABLE) | MATRICES | BIT(WORK), 0, BIT(TABLE),
	  DECK_REFUSED | BIT(5) | BIT(6) | BIT(7) | BIT(8) | BIT(10) | BIT(13) | BIT(14) | BIT(17) },
	{ "step", call_step, 3, BIT(TABLE) | MATRICES | BIT(STARTS), BIT(TEMPERATURES) | BIT(CARRIED), 0, BIT(TABLE),
	  DECK_REFUSED | BIT(8) | BIT(10) | BIT(11) | BIT(12) | BIT(17) },
	{ "zones", call_zones, 1, BIT(TABLE) | BIT(TEMPERATURES) | ZONED, BIT(SUMMARY), 0, BIT(TABLE),
	  DECK_REFUSED | BIT(11) | BIT(18) | BIT(19) },
	{ "zones step", call_zones_step, 2, BIT(TABLE) | MATRICES | BIT(STARTS) | ZONED, BIT(TEMPERATURES) | BIT(CARRIED) | BIT(SUMMARY), 0,
	  BIT(TABLE), DECK_REFUSED | BIT(8) | BIT(10) | BIT(11) | BIT(12) | BIT(17) | BIT(18) | BIT(19) },
};

enum { READ, WRITE, BUILD, REPLACE, STEP, AFRESH, ZONES_STEP, CALLS = sizeof calls / sizeof *calls, ANSWERS = 32 };

static uint64_t met[CALLS][ANSWERS], made, decks, seed, deck_number;
static const struct call *at_work;

static unsigned int taken_by(const struct call *call)
{
	return call->reads | call->writes | call->tells;
}

/* ---- what went wrong */

static void tell(const char *what)
{
	int i;

	printf("guards: %s %s; seed %llu, deck %llu, call %llu of the run; lent", at_work->name, what, (unsigned long long)seed,
	       (unsigned long long)deck_number, (unsigned long long)made);
	for (i = 0; i < BUFFERS; i++)
		if (taken_by(at_work) & BIT(i))
			printf(" %s %zu", buffers[i].name, lent[i].length);
	printf("\n");
}

static void failed(const char *what, int buffer)
{
	char words[160];

	snprintf(words, sizeof words, "%s %s", what, buffers[buffer].name);
	tell(words);
	exit(1);
}

static void touched(int number, siginfo_t *info, void *context)
{
	const char *place = NULL;
	char words[160] = "touched what it was not lent";
	int i;

	(void)number;
	(void)context;
	for (i = 0; i < BUFFERS && at_work && !place; i++)
		if (taken_by(at_work) & BIT(i)) {
			place = arena_place(&arenas[i], &lent[i], info->si_addr);
			if (place)
				snprintf(words, sizeof words, "touched %s: %s", buffers[i].name, place);
		}
	if (at_work)
		tell(words);
	else
		printf("guards: a fault outside of any call\n");
	fflush(stdout);
	_exit(1);
}

/* ---- one call */

static void lend(int buffer, size_t length, bool write)
{
	arena_lend(&arenas[buffer], &lent[buffer], now[buffer], length, buffers[buffer].size, write, one_in(2));
}

static void compare(const struct call *call, bool refused)
{
	int i;

	for (i = 0; i < BUFFERS; i++) {
		if (!(taken_by(call) & BIT(i)))
			continue;
		if (!arena_fenced(&arenas[i], &lent[i]))
			failed("wrote outside of", i);
		if (refused && call->writes & BIT(i) && i != WORK && memcmp(lent[i].own, now[i], lent[i].bytes))
			failed("was refused and changed", i);
		if (refused && call->tells & BIT(i) && *(uint64_t *)(void *)lent[i].own)
			failed("was refused and told a", i);
	}
}

/* What now holds, by lengths of numbers; the answer's number. */
static unsigned int make(int which, const size_t lengths[BUFFERS])
{
	const struct call *call = at_work = &calls[which];
	unsigned int number;
	int i;

	for (i = 0; i < BUFFERS; i++)
		if (taken_by(call) & BIT(i))
			lend(i, lengths[i], !(call->reads & BIT(i)));
	made++;
	number = GORMULAST_NUMBER(call->make());
	if (number >= ANSWERS || !(call->answers & BIT(number))) {
		tell("gave an answer that the header does not name");
		exit(1);
	}
	compare(call, number != 0);
	met[which][number]++;
	return number;
}

/* The deck at work has what the call left. */
static void keep(int which)
{
	int i;

	for (i = 0; i < BUFFERS; i++)
		if (calls[which].writes & BIT(i))
			memcpy(kept[i], lent[i].own, lent[i].bytes);
}

/* ---- what is lent */

static size_t any_length(int buffer)
{
	size_t need = buffers[buffer].needed(), room = buffers[buffer].room;

	if (buffer == BYTES && one_in(8)) /* too few for a deck, or about too many */
		return one_in(2) ? within(0, GORMULAST_CARD_BYTES - 1) : GORMULAST_MAX_BYTES - 8 + within(0, MORE);
	switch (within(0, 31)) {
	case 0: case 1:
		return need ? need - 1 : 0;
	case 2:
		return within(0, (uint32_t)need);
	case 3: case 4: case 5:
		return need + within(0, 8);
	case 6:
		return one_in(8) ? within(0, (uint32_t)room) : need;
	default:
		return need;
	}
}

/* The lengths of a call's slices: those that the deck asks for, or any; that of the deck itself is then seldom another. */
static void choose_lengths(const struct call *call, bool any, size_t lengths[BUFFERS])
{
	int i;

	for (i = 0; i < BUFFERS; i++)
		lengths[i] = any && !(call->tells & BIT(i)) && (!(call->deck & BIT(i)) || one_in(8)) ? any_length(i) : buffers[i].needed();
}

static void spoil_table(uint32_t *table, size_t length)
{
	static const uint32_t limits[] = { 0, 1, 3, 8, 69, 70, 72, 82, 84, 96, 160, 800, 1000, 1023, 4000, 4095, 5000, 60000, 100000, 500000, 5000000 };
	uint32_t *number = &table[within(0, (uint32_t)length - 1)];

	switch (within(0, 3)) {
	case 0:
		*number += within(0, 2) - 1;
		break;
	case 1:
		*number = limits[within(0, sizeof limits / sizeof *limits - 1)] + within(0, 2) - 1;
		break;
	case 2: /* another number of the table, most often of its kind */
		*number = table[((size_t)(number - table) + GORMULAST_CARD_NUMBERS * within(0, 8)) % length];
		break;
	default:
		*number = wild_unsigned();
	}
}

static void spoil(int buffer, size_t length)
{
	static const char letters[] = "0123456789 \nDNMEVHFGRTCZ-+";
	uint32_t at;

	if (!length)
		return;
	at = within(0, (uint32_t)length - 1);
	if (buffer == TABLE)
		spoil_table((uint32_t *)(void *)now[TABLE], length);
	else if (buffer == STARTS && one_in(2))
		((uint32_t *)(void *)now[STARTS])[at] = deck.starts[at % deck.nodes] + within(0, 2) - 1;
	else if ((buffer == ZONES || buffer == MEMBERS) && one_in(2)) /* beside what passes */
		((uint32_t *)(void *)now[buffer])[at] = one_in(2) ? 0 : (uint32_t)deck.nodes + within(0, 1);
	else if (buffer == EDGES && one_in(2)) /* as the one before it, or the next */
		((uint32_t *)(void *)now[EDGES])[at] = ((uint32_t *)(void *)now[EDGES])[at ? at - 1 : length - 1];
	else if (buffers[buffer].size == 8)
		((int64_t *)(void *)now[buffer])[at] = wild_signed();
	else if (buffers[buffer].size == 4)
		((uint32_t *)(void *)now[buffer])[at] = wild_unsigned();
	else
		now[buffer][at] = one_in(3) ? (uint8_t)chance_bits() : (uint8_t)letters[within(0, sizeof letters - 2)];
}

/* Numbers that are none of the deck's and may pass refusal 10, so that the work goes on with them. */
static void foreign(int buffer)
{
	int64_t *numbers = (int64_t *)(void *)now[buffer];
	uint32_t shift = buffer == FACTOR ? within(39, 63) : within(38, 63);
	size_t i, row;

	for (i = 0; i < deck.numbers; i++)
		numbers[i] = (int64_t)chance_bits() >> shift;
	shift = within(26, 59);
	for (row = 0; row < deck.nodes && buffer == FACTOR; row++)
		numbers[(row + 1 < deck.nodes ? deck.starts[row + 1] : deck.numbers) - 1] = 16 + (int64_t)(chance_bits() >> shift);
}

/* Pivots so large that corrections don't settle. */
static void stiff(void)
{
	int64_t *factor = (int64_t *)(void *)now[FACTOR];
	uint32_t shift = within(1, 10);
	size_t row;

	for (row = 0; row < deck.nodes; row++)
		factor[(row + 1 < deck.nodes ? deck.starts[row + 1] : deck.numbers) - 1] <<= shift;
}

static void warm(void)
{
	int64_t *temperatures = (int64_t *)(void *)now[TEMPERATURES];
	size_t node;

	for (node = 0; node < deck.nodes; node++)
		temperatures[node] = within(0, GORMULAST_TOP);
}

static void spoil_some(const struct call *call, const size_t lengths[BUFFERS])
{
	int times = (int)within(1, 3), i;

	while (times-- > 0) {
		do
			i = (int)within(0, BUFFERS - 1);
		while (!((call->reads | call->writes) & BIT(i)));
		spoil(i, lengths[i]);
	}
	if (!(taken_by(call) & BIT(FACTOR)) || one_in(2))
		return;
	if (one_in(8))
		foreign(P), foreign(A);
	if (one_in(8))
		foreign(FACTOR);
	if (one_in(8))
		stiff();
}

/* A card that may be changed so, most often. */
static void choose_card(void)
{
	size_t rows = deck.length / GORMULAST_CARD_NUMBERS, row = within(0, (uint32_t)rows - 1);
	const uint32_t *table = (const uint32_t *)(const void *)kept[TABLE];
	size_t field = within(1, 5);

	while (!memchr("EVHFGT", (int)table[GORMULAST_CARD_NUMBERS * row], 6) && !one_in(32))
		row = (row + 1) % rows;
	memcpy(new, table + GORMULAST_CARD_NUMBERS * row, sizeof new);
	card = one_in(32) ? wild_unsigned() : (uint32_t)row + 1;
	if (new[0] == 'E')
		field = within(4, 5);
	if (new[0] == 'V' || (new[0] == 'E' && field == 4)) {
		new[new[0] == 'V' ? 5 : 4] = within(1, table[deck.length - 3]);
		return;
	}
	if (one_in(16))
		new[within(0, 5)] = wild_unsigned();
	else if (new[field] && !(field == 1 || (field == 2 && new[0] == 'G')))
		new[field] = one_in(2) ? sized(1, 4000) : new[field] + within(0, 9);
}

/* ---- one deck */

static void copy_in(const struct call *call, const size_t lengths[BUFFERS])
{
	int i;

	for (i = 0; i < BUFFERS; i++)
		if (taken_by(call) & BIT(i))
			memcpy(now[i], kept[i], lengths[i] * buffers[i].size);
}

static int any_call(void)
{
	uint32_t all = 0, chosen;
	int which;

	for (which = 0; which < CALLS; which++)
		all += calls[which].often;
	chosen = within(1, all);
	for (which = 0; chosen > calls[which].often; which++)
		chosen -= calls[which].often;
	return which;
}

/* One call of the deck at work, half of the times on numbers that are its own. */
static void one_call(void)
{
	bool any = one_in(4), spoilt = one_in(2);
	size_t lengths[BUFFERS];
	int which = any_call();

	choose_lengths(&calls[which], any, lengths);
	copy_in(&calls[which], lengths);
	if (which == REPLACE)
		choose_card();
	if (spoilt)
		spoil_some(&calls[which], lengths);
	if (taken_by(&calls[which]) & BIT(TEMPERATURES) && one_in(8))
		warm();
	if (!make(which, lengths) && !any && !spoilt && which != WRITE)
		keep(which);
}

/* Zones of the deck at work, and edges that rise. */
static void choose_zones(void)
{
	uint32_t *count = (uint32_t *)(void *)kept[ZONES], *member = (uint32_t *)(void *)kept[MEMBERS], *edge = (uint32_t *)(void *)kept[EDGES];
	size_t i;

	zones = one_in(8) ? GORMULAST_MAX_ZONES : within(0, 4);
	edges = one_in(8) ? GORMULAST_MAX_EDGES : within(0, 4);
	for (members = 0, i = 0; i < zones; i++)
		members += count[i] = one_in(8) ? GORMULAST_MAX_NODES : within(1, 6);
	for (i = 0; i < members; i++)
		member[i] = within(1, (uint32_t)deck.nodes);
	for (i = 0; i < edges; i++)
		edge[i] = (i ? edge[i - 1] : 0) + within(1, GORMULAST_TOP / GORMULAST_MAX_EDGES);
}

static void one_deck(void)
{
	size_t lengths[BUFFERS], node;
	int calls_left = (int)within(20, 60);

	chance_seed(seed * 0x100000000 + deck_number);
	deck_make(&deck);
	notes = one_in(4) ? within(0, 100) : 0;
	choose_zones();
	memcpy(kept[TABLE], deck.table, deck.length * sizeof *deck.table);
	memcpy(kept[STARTS], deck.starts, deck.nodes * sizeof *deck.starts);
	for (node = 0; node < deck.nodes; node++) {
		((int64_t *)(void *)kept[TEMPERATURES])[node] = deck.table[2];
		((int64_t *)(void *)kept[CARRIED])[node] = 0;
	}
	/* Its bytes, as they are written; before them notes. */
	choose_lengths(&calls[WRITE], false, lengths);
	copy_in(&calls[WRITE], lengths);
	lengths[BYTES] -= notes;
	if (!make(WRITE, lengths))
		memcpy(kept[BYTES] + notes, lent[BYTES].own, lent[BYTES].bytes);
	choose_lengths(&calls[BUILD], false, lengths);
	copy_in(&calls[BUILD], lengths);
	if (!make(BUILD, lengths))
		keep(BUILD);
	while (calls_left-- > 0)
		one_call();
	decks++;
	deck_number++;
}

/* ---- all */

static void start(void)
{
	struct sigaction action = { .sa_sigaction = touched, .sa_flags = SA_SIGINFO };
	int i;

	for (i = 0; i < BUFFERS; i++) {
		size_t bytes = buffers[i].size * buffers[i].room;

		arena_lay(&arenas[i], bytes);
		kept[i] = calloc(1, bytes);
		now[i] = calloc(1, bytes);
		if (!kept[i] || !now[i])
			exit(2);
		if (!arena_guards(&arenas[i])) {
			printf("guards: the pages about %s are not guarded\n", buffers[i].name);
			exit(1);
		}
	}
	sigaction(SIGSEGV, &action, NULL);
	sigaction(SIGBUS, &action, NULL);
}

/* Each answer that the header names has come; how often. */
static bool told(void)
{
	bool all = true;
	int which, number;

	for (which = 0; which < CALLS; which++) {
		printf("  %-10s", calls[which].name);
		for (number = 0; number < ANSWERS; number++)
			if (calls[which].answers & BIT(number)) {
				printf(number ? " %2$d: %1$llu" : " done %1$llu", (unsigned long long)met[which][number], number);
				all = all && met[which][number];
			}
		printf("\n");
	}
	return all;
}

int main(int count, char **words)
{
	enum { LEAST = 4000 }; /* decks, however long they take, so that each answer comes */
	clock_t end;

	if (count < 3) {
		fprintf(stderr, "usage: guards SECONDS SEED [DECK]\n");
		return 2;
	}
	seed = strtoull(words[2], NULL, 10);
	deck_number = count > 3 ? strtoull(words[3], NULL, 10) : 0;
	start();
	end = atol(words[1]) * CLOCKS_PER_SEC; /* the processor's time: other work on the machine makes no fewer calls */
	while (clock() < end || decks < LEAST)
		one_deck();
	if (!told()) {
		printf("guards: an answer never came\n");
		return 1;
	}
	printf("guards: %llu calls of %llu decks, none touched what it was not lent\n", (unsigned long long)made, (unsigned long long)decks);
	return 0;
}
