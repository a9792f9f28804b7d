// SPDX-License-Identifier: GPL-2.0-only OR MIT
/* evening DECK [ZONES]: steps a deck through its evening and prints what tools/evening shows of it, as JSON.
 *
 * At the start of a step its C cards are made as replacements, in order; then the step is taken, with the zones' summary kept
 * beside the temperatures. Every number is one that a call gave, but two: the rows that a replacement redid, which are those from
 * the changed element's least corner on, and how long it and a full build took.
 *
 *   cards    the deck as it was read, six numbers a card; none where that was refused
 *   zones    the nodes of each zone; edges, the band edges in ticks
 *   frames   [step, temperatures, summary], the start as step 0. A long run is thinned to 2,000 of them, in even distances, and each
 *            change's step, the step before it and the last one
 *   changes  {step, card, before, after, rows, took, build}: the card's number, its numbers before and after, rows redone,
 *            nanoseconds of the replacement and of a full build after it; where it was refused, none of those three
 *   stopped  {when, step, number, place, words}: the refusal that ended the run, or null. when is deck, build, zones, change or step
 *
 * ZONES is text: the band edges in ticks, then the nodes of each zone, a ';' before each zone.
 */
#define _POSIX_C_SOURCE 199309L
#include <gormulast.h>
#include <ctype.h>
#include <stdio.h>
#include <stdlib.h>
#include <string.h>
#include <time.h>
#include <unistd.h>

#define MATRIX GORMULAST_MATRIX(GORMULAST_MAX_NODES)
#define CARD GORMULAST_CARD_NUMBERS
/* More than the calls take, so that they refuse and not this program. */
#define ZONES 32
#define MEMBERS 4096
#define EDGES 32
#define FRAMES 2000
#define TOLD 10000
/* A time is the least of so many tries. */
#define TRIES 21

struct board {
	uint32_t table[GORMULAST_MAX_TABLE];
	size_t length, nodes;
	int64_t p[MATRIX], a[MATRIX], factor[MATRIX], work[MATRIX];
	uint32_t starts[GORMULAST_MAX_NODES];
	int64_t temperatures[GORMULAST_MAX_NODES], carried[GORMULAST_MAX_NODES];
};

struct zones {
	uint32_t counts[ZONES], members[MEMBERS], edges[EDGES];
	size_t zones, nodes, bands;
	uint32_t summary[3 * ZONES];
};

struct change {
	uint32_t step, card, before[CARD], after[CARD];
	size_t rows;
	uint64_t took, build; /* in nanoseconds; build is 0 where the change was refused */
};

static struct board board, tried;
static struct zones zones;
static struct change changes[GORMULAST_MAX_CHANGES];
static size_t made;
static const uint32_t *next; /* the next C card, or Z */
static uint32_t printed;     /* the last step that was */

/* ---- the calls */

static uint64_t build(struct board *b)
{
	return gormulast_build(b->table, b->length, b->p, MATRIX, b->a, MATRIX, b->factor, MATRIX, b->work, MATRIX,
			       b->starts, GORMULAST_MAX_NODES);
}

static uint64_t replace(struct board *b, uint32_t card, const uint32_t *new)
{
	return gormulast_replace(b->table, b->length, b->p, MATRIX, b->a, MATRIX, b->factor, MATRIX, b->work, MATRIX,
				 b->starts, b->nodes, card, new[0], new[1], new[2], new[3], new[4], new[5]);
}

static uint64_t summarise(void)
{
	return gormulast_zones(board.table, board.length, board.temperatures, board.nodes,
			       zones.counts, zones.zones, zones.members, zones.nodes, zones.edges, zones.bands,
			       zones.summary, 3 * ZONES);
}

static uint64_t step(void)
{
	return gormulast_zones_step(board.table, board.length, board.p, MATRIX, board.a, MATRIX, board.factor, MATRIX,
				    board.starts, board.nodes, board.temperatures, board.nodes, board.carried, board.nodes,
				    zones.counts, zones.zones, zones.members, zones.nodes, zones.edges, zones.bands,
				    zones.summary, 3 * ZONES);
}

static uint64_t read_deck(const uint8_t *bytes, size_t length)
{
	uint64_t start, end, answer;
	size_t node;

	answer = gormulast_read(bytes, length, board.table, GORMULAST_MAX_TABLE, &start, &end);
	if (answer)
		return answer;
	board.length = (end - start) / GORMULAST_CARD_BYTES * CARD;
	board.nodes = board.table[board.length - 4];
	for (node = 0; node < board.nodes; node++)
		board.temperatures[node] = board.table[2];
	for (next = board.table; *next != 'C' && *next != 'Z';)
		next += CARD;
	return 0;
}

/* ---- changes */

static uint32_t *card_at(uint32_t card)
{
	return board.table + (card - 1) * CARD;
}

/* The first element's card comes after D, the nodes and the materials, which Z counts. */
static uint32_t element_card(uint32_t element)
{
	return 1 + board.table[board.length - 4] + board.table[board.length - 3] + element;
}

/* The card that a C card names: E by its number, others by their first field. The deck was accepted, so there is one. */
static uint32_t named(const uint32_t *c)
{
	uint32_t card = 1;

	if (c[2] == 'E')
		return element_card(c[3]);
	while (card_at(card)[0] != c[2] || card_at(card)[1] != c[3])
		card++;
	return card;
}

/* The rows that a replacement redoes: from the element's least corner on; H and T change none. */
static size_t rows_redone(const uint32_t *new, uint32_t card)
{
	const uint32_t *e = new[0] == 'F' ? card_at(element_card(new[1])) : card_at(card);
	uint32_t least;

	if (new[0] != 'E' && new[0] != 'F')
		return 0;
	least = e[1] < e[2] ? e[1] : e[2];
	least = least < e[3] ? least : e[3];
	return board.nodes + 1 - least;
}

static uint64_t now(void)
{
	struct timespec t;

	clock_gettime(CLOCK_MONOTONIC, &t);
	return (uint64_t)t.tv_sec * 1000000000 + (uint64_t)t.tv_nsec;
}

/* The least time of a replacement, or of a full build where there is no new card; of copies, so that the board stays. */
static uint64_t timed(uint32_t card, const uint32_t *new)
{
	uint64_t least = UINT64_MAX, start, end;
	int try;

	for (try = 0; try < TRIES; try++) {
		tried = board;
		start = now();
		if (new)
			replace(&tried, card, new);
		else
			build(&tried);
		end = now();
		if (end - start < least)
			least = end - start;
	}
	return least;
}

static uint64_t make_change(const uint32_t *c)
{
	struct change *change = &changes[made++];
	size_t first = c[2] == 'E' ? 4 : 2;
	uint64_t answer;

	change->step = c[1];
	change->card = named(c);
	memcpy(change->before, card_at(change->card), sizeof change->before);
	memcpy(change->after, change->before, sizeof change->after);
	change->after[first] = c[4];
	if (c[2] == 'E' || c[2] == 'F')
		change->after[first + 1] = c[5];
	change->took = timed(change->card, change->after);
	answer = replace(&board, change->card, change->after);
	if (answer)
		return answer;
	change->rows = rows_redone(change->after, change->card);
	change->build = timed(0, NULL);
	return 0;
}

/* Whether the next change is of a step. */
static int changes_at(uint32_t at)
{
	return next[0] == 'C' && next[1] == at;
}

/* ---- what is printed */

static void print_cards(void)
{
	size_t at;

	printf("\"cards\":[");
	for (at = 0; at < board.length; at += CARD)
		printf("%s[%u,%u,%u,%u,%u,%u]", at ? "," : "", board.table[at], board.table[at + 1], board.table[at + 2],
		       board.table[at + 3], board.table[at + 4], board.table[at + 5]);
	printf("]");
}

static void print_numbers(const uint32_t *numbers, size_t count)
{
	size_t i;

	printf("[");
	for (i = 0; i < count; i++)
		printf(i ? ",%u" : "%u", numbers[i]);
	printf("]");
}

static void print_zones(void)
{
	size_t zone, from = 0;

	printf(",\n\"zones\":[");
	for (zone = 0; zone < zones.zones; from += zones.counts[zone++]) {
		printf(zone ? "," : "");
		print_numbers(zones.members + from, zones.counts[zone]);
	}
	printf("],\"edges\":");
	print_numbers(zones.edges, zones.bands);
}

static void print_frame(uint32_t at)
{
	size_t node;

	printed = at;
	printf(at ? ",\n[%u,[" : "[%u,[", at);
	for (node = 0; node < board.nodes; node++)
		printf(node ? ",%lld" : "%lld", (long long)board.temperatures[node]);
	printf("],");
	print_numbers(zones.summary, 3 * zones.zones);
	printf("]");
}

static void print_changes(void)
{
	const struct change *c;

	printf("\n],\n\"changes\":[");
	for (c = changes; c < changes + made; c++) {
		printf("%s\n{\"step\":%u,\"card\":%u,\"before\":", c > changes ? "," : "", c->step, c->card);
		print_numbers(c->before, CARD);
		printf(",\"after\":");
		print_numbers(c->after, CARD);
		if (c->build)
			printf(",\"rows\":%zu,\"took\":%llu,\"build\":%llu", c->rows, (unsigned long long)c->took,
			       (unsigned long long)c->build);
		printf("}");
	}
	printf("]");
}

static void print_stopped(const char *when, uint32_t at, uint64_t answer)
{
	unsigned number = GORMULAST_NUMBER(answer);

	printf(",\n\"stopped\":");
	if (!number) {
		printf("null}\n");
		return;
	}
	printf("{\"when\":\"%s\",\"step\":%u,\"number\":%u,\"place\":%u,\"words\":\"", when, at, number, GORMULAST_PLACE(answer));
	printf(gormulast_words(number), GORMULAST_PLACE(answer));
	printf("\"}}\n");
}

/* ---- the evening */

/* A step with its changes; when says which of the two was refused. */
static uint64_t turn(uint32_t at, const char **when)
{
	uint64_t answer;

	for (*when = "change"; changes_at(at); next += CARD) {
		answer = make_change(next);
		if (answer)
			return answer;
	}
	*when = "step";
	answer = step();
	return GORMULAST_NUMBER(answer) ? answer : 0;
}

/* How far a long run is, on standard error: on a terminal a line that renews itself, and is gone at the end. */
static void tell(uint32_t at, uint32_t steps)
{
	if (steps < TOLD || (at % TOLD && at != steps))
		return;
	fprintf(stderr, isatty(2) ? "\revening: step %u of %u\033[K" : "evening: step %u of %u\n", at, steps);
	if (at == steps && isatty(2))
		fprintf(stderr, "\r\033[K");
}

/* Whether a step is shown: in even distances, and round each change. */
static int shown(uint32_t at, uint32_t steps)
{
	uint32_t every = (steps + FRAMES - 1) / FRAMES;

	return at % every == 0 || at == steps || changes_at(at + 1) || (made && changes[made - 1].step == at);
}

/* The steps, as far as none is refused; then the last accepted one is shown. */
static uint64_t steps_done(uint32_t steps, uint32_t *done, const char **when)
{
	uint64_t answer = 0;

	print_frame(0);
	while (*done < steps) {
		answer = turn(*done + 1, when);
		if (answer)
			break;
		tell(++*done, steps);
		if (shown(*done, steps))
			print_frame(*done);
	}
	if (printed != *done)
		print_frame(*done);
	return answer;
}

static void run(void)
{
	const char *when = "build";
	uint64_t answer = build(&board);
	uint32_t done = 0;

	printf(",\n\"frames\":[\n");
	if (!answer) {
		when = "zones";
		answer = summarise();
	}
	if (!answer)
		answer = steps_done(board.table[3], &done, &when);
	print_changes();
	print_stopped(when, done + 1, answer);
}

/* ---- the files */

static void fail(const char *file, const char *words)
{
	fprintf(stderr, "evening: %s: %s\n", file, words);
	exit(2);
}

/* The next number of ZONES: an edge before the first ';', after it a node of the last zone. */
static void take(const char *file, uint32_t number)
{
	if ((zones.zones ? zones.nodes : zones.bands) == (zones.zones ? MEMBERS : EDGES))
		fail(file, "too many numbers");
	if (zones.zones) {
		zones.members[zones.nodes++] = number;
		zones.counts[zones.zones - 1]++;
	} else {
		zones.edges[zones.bands++] = number;
	}
}

static void read_zones(const char *file)
{
	FILE *text = fopen(file, "r");
	uint32_t number = 0;
	int c, digits = 0;

	if (!text)
		fail(file, "can't be read");
	do {
		c = fgetc(text);
		if (c >= '0' && c <= '9') {
			number = 10 * number + (uint32_t)(c - '0');
			if (++digits > 9)
				fail(file, "too long a number");
			continue;
		}
		if (digits)
			take(file, number);
		number = 0;
		digits = 0;
		if (c == ';' && zones.zones++ == ZONES)
			fail(file, "too many zones");
		if (c != ';' && c != EOF && !isspace(c))
			fail(file, "neither a number nor a ;");
	} while (c != EOF);
	fclose(text);
}

int main(int count, char **words)
{
	static uint8_t bytes[GORMULAST_MAX_BYTES + 1];
	FILE *deck = count == 2 || count == 3 ? fopen(words[1], "rb") : NULL;
	uint64_t answer;

	if (!deck) {
		fprintf(stderr, count == 2 || count == 3 ? "evening: %s can't be read\n" : "usage: evening DECK [ZONES]\n", words[1]);
		return 2;
	}
	if (count == 3)
		read_zones(words[2]);
	answer = read_deck(bytes, fread(bytes, 1, sizeof bytes, deck));
	fclose(deck);
	printf("{");
	print_cards();
	print_zones();
	if (answer) {
		printf(",\n\"frames\":[");
		print_changes();
		print_stopped("deck", 0, answer);
	} else {
		run();
	}
	return 0;
}
