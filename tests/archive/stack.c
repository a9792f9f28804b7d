/* stack DECK [MORE]: how much stack each call takes, by painting it, and whether that is within its limit and MORE bytes.
 *
 * Each call runs on a stack of its own that was painted before; what is no longer painted after it was used. An empty call
 * says how much of that is not the call's. The deck builds; a letter that it has no card of is passed over.
 */
#include <gormulast.h>
#include <stdio.h>
#include <stdlib.h>
#include <string.h>
#include <ucontext.h>

enum { MATRIX = GORMULAST_MATRIX(GORMULAST_MAX_NODES), PAINT = 0xA5, STACK = 65536 };

static uint8_t bytes[GORMULAST_MAX_BYTES], written[GORMULAST_MAX_BYTES];
static size_t length, rows;
static uint32_t table[GORMULAST_MAX_TABLE];
static int64_t p[MATRIX], a[MATRIX], factor[MATRIX], work[MATRIX], temperatures[GORMULAST_MAX_NODES], carried[GORMULAST_MAX_NODES];
static uint32_t starts[GORMULAST_MAX_NODES];
static uint32_t counts[GORMULAST_MAX_ZONES], members[GORMULAST_MAX_ZONES], edges[GORMULAST_MAX_EDGES], summary[3 * GORMULAST_MAX_ZONES];
static uint64_t answer;
static uint32_t card;

static unsigned char stack[STACK];
static ucontext_t here, there;

/* The stack that a call takes. */
static size_t used(void (*call)(void))
{
	size_t untouched = 0;

	memset(stack, PAINT, sizeof stack);
	getcontext(&there);
	there.uc_stack.ss_sp = stack;
	there.uc_stack.ss_size = sizeof stack;
	there.uc_link = &here;
	makecontext(&there, call, 0);
	swapcontext(&here, &there);
	while (untouched < sizeof stack && stack[untouched] == PAINT)
		untouched++;
	return sizeof stack - untouched;
}

static void empty(void)
{
}

static void call_read(void)
{
	uint64_t start, end;

	answer = gormulast_read(bytes, length, table, GORMULAST_MAX_TABLE, &start, &end);
	if (answer == 0)
		rows = (end - start) / GORMULAST_CARD_BYTES;
}

static void call_write(void)
{
	answer = gormulast_write(table, 6 * rows, written, sizeof written);
}

static void call_build(void)
{
	answer = gormulast_build(table, 6 * rows, p, MATRIX, a, MATRIX, factor, MATRIX, work, MATRIX, starts, GORMULAST_MAX_NODES);
}

/* Puts a card in its own place. */
static void call_replace(void)
{
	const uint32_t *old = table + 6 * card;

	answer = gormulast_replace(table, 6 * rows, p, MATRIX, a, MATRIX, factor, MATRIX, work, MATRIX,
				   starts, GORMULAST_MAX_NODES, card + 1, old[0], old[1], old[2], old[3], old[4], old[5]);
}

static void call_step(void)
{
	answer = gormulast_step(table, 6 * rows, p, MATRIX, a, MATRIX, factor, MATRIX, starts, GORMULAST_MAX_NODES,
				temperatures, GORMULAST_MAX_NODES, carried, GORMULAST_MAX_NODES);
}

static void call_zones(void)
{
	answer = gormulast_zones(table, 6 * rows, temperatures, GORMULAST_MAX_NODES, counts, GORMULAST_MAX_ZONES,
				 members, GORMULAST_MAX_ZONES, edges, GORMULAST_MAX_EDGES, summary, 3 * GORMULAST_MAX_ZONES);
}

static void call_zones_step(void)
{
	answer = gormulast_zones_step(table, 6 * rows, p, MATRIX, a, MATRIX, factor, MATRIX, starts, GORMULAST_MAX_NODES,
				      temperatures, GORMULAST_MAX_NODES, carried, GORMULAST_MAX_NODES,
				      counts, GORMULAST_MAX_ZONES, members, GORMULAST_MAX_ZONES,
				      edges, GORMULAST_MAX_EDGES, summary, 3 * GORMULAST_MAX_ZONES);
}

/* At most what each took before rows were kept: a build, a replacement of H or T, which took the least of all letters, a step. */
#ifdef __aarch64__
enum { MOST_BUILD = 1112, MOST_REPLACE = 864, MOST_STEP = 2224 };
#else
enum { MOST_BUILD = 1128, MOST_REPLACE = 912, MOST_STEP = 2176 };
#endif

static int failed;
static size_t more;

static void measure(const char *name, void (*call)(void), size_t most)
{
	size_t took = used(call) - used(empty);
	int good = took <= most + more && GORMULAST_NUMBER(answer) == 0;

	printf("%-10s %5zu of %zu bytes%s\n", name, took, most + more, good ? "" : "   FAILED");
	if (GORMULAST_NUMBER(answer) != 0)
		printf("%s was refused: %u, place %u\n", name, GORMULAST_NUMBER(answer), GORMULAST_PLACE(answer));
	failed |= !good;
}

/* Replaces the last card of each letter. */
static void measure_replaces(void)
{
	static const char letters[] = "EVHFGT";
	char name[] = "replace ?";
	const char *letter;

	for (letter = letters; *letter; letter++) {
		for (card = (uint32_t)rows; card > 0 && table[6 * card - 6] != (uint32_t)*letter; card--)
			;
		if (card-- == 0)
			continue;
		name[8] = *letter;
		measure(name, call_replace, MOST_REPLACE);
	}
}

int main(int count, char **words)
{
	FILE *deck = count == 2 || count == 3 ? fopen(words[1], "rb") : NULL;
	size_t i;

	if (!deck) {
		fprintf(stderr, "usage: stack DECK [MORE]\n");
		return 2;
	}
	more = count == 3 ? strtoul(words[2], NULL, 10) : 0;
	length = fread(bytes, 1, sizeof bytes, deck);
	fclose(deck);
	measure("read", call_read, 512);
	measure("write", call_write, 512);
	measure("build", call_build, MOST_BUILD);
	measure_replaces();
	for (i = 0; i < GORMULAST_MAX_NODES; i++)
		temperatures[i] = table[2];
	measure("step", call_step, MOST_STEP);
	for (i = 0; i < GORMULAST_MAX_ZONES; i++) {
		counts[i] = 1;
		members[i] = (uint32_t)(i % 3 + 1);
	}
	for (i = 0; i < GORMULAST_MAX_EDGES; i++)
		edges[i] = (uint32_t)i;
	measure("zones", call_zones, 640);
	/* a step's; the temperatures before it in 32 bits; the zones' slices, which are kept over the step */
	measure("zones step", call_zones_step, MOST_STEP + 384 + 192);
	return failed;
}
