// SPDX-License-Identifier: GPL-2.0-only OR MIT
/* KUnit test of the calls of gormulast.h: decks whose numbers are known, read, built, stepped and
 * replaced; zones afresh and over steps; each refusal; and what a refusal leaves.
 *
 * All that is lent lies in one board, guard numbers on both sides of each buffer. After a call the
 * whole board is compared with one that has what the call should have left, so a number written
 * anywhere else is seen.
 */
#include <kunit/test.h>
#include <linux/module.h>
#include <linux/string.h>
#include <gormulast.h>

#define NODES   4
#define MATRIX  GORMULAST_MATRIX(NODES)
#define CARDS   14
#define ZONES   (GORMULAST_MAX_ZONES + 1) /* of zones one more than there may be */
#define GUARDS  4
#define FILLING 0x5a

#define BUFFERS(row) \
	row(uint8_t, bytes, CARDS * GORMULAST_CARD_BYTES) \
	row(uint32_t, table, CARDS * GORMULAST_CARD_NUMBERS) \
	row(int64_t, p, MATRIX) \
	row(int64_t, a, MATRIX) \
	row(int64_t, factor, MATRIX) \
	row(int64_t, work, MATRIX) \
	row(uint32_t, starts, NODES) \
	row(int64_t, temperatures, NODES) \
	row(int64_t, carried, NODES) \
	row(uint32_t, counts, ZONES) \
	row(uint32_t, members, GORMULAST_MAX_NODES + 1) \
	row(uint32_t, edges, GORMULAST_MAX_EDGES + 1) \
	row(uint32_t, summary, 3 * ZONES) \
	row(uint64_t, start, 1) \
	row(uint64_t, end, 1)

/* The length is what is lent of it: the deck's own, until a test shortens it. */
#define BUFFER(type, name, count) \
	struct { \
		type before[GUARDS], lent[count], after[GUARDS]; \
		size_t length; \
	} name;

struct board {
	BUFFERS(BUFFER)
};

#define LEND(board, name) (board)->name.lent, (board)->name.length
#define FIELD(board, card, field) \
	((board)->table.lent[((card) - 1) * GORMULAST_CARD_NUMBERS + (field)])
#define REFUSED(number, place) ((number) + ((uint64_t)(place) << 16))
#define CORRECTED(times) ((uint64_t)(times) << 8)

/* The boards of a test: the one that is lent, and the one that it must equal. */
struct pair {
	struct board now, wanted;
};

/* ---- the decks, each line filled with blanks to 41 columns */

static const char heated[] = /* P6 */
	"D    100019660800       1                \n"
	"N       0       0                        \n"
	"N     100       0                        \n"
	"N       0     100                        \n"
	"M    1000    1000    2400                \n"
	"E       1       2       3       1    1000\n"
	"H       1       3                        \n"
	"Z     294       3       1       1       1\n";

static const char cold[] = /* P7 */
	"D    100019660800       1                \n"
	"N       0       0                        \n"
	"N     100       0                        \n"
	"N       0     100                        \n"
	"M    1000    1000    2400                \n"
	"E       1       2       3       1    1000\n"
	"Z     252       3       1       1       0\n";

static const char docked[] = /* P7 over a plate that is ten kelvins colder */
	"D    100019660800       1                \n"
	"N       0       0                        \n"
	"N     100       0                        \n"
	"N       0     100                        \n"
	"M    1000    1000    2400             900\n"
	"E       1       2       3       1    1000\n"
	"R       119005440                        \n"
	"Z     294       3       1       1       1\n";

static const char filmed[] = /* a card of each kind but R that a flat deck has */
	"D    100019660800       9                \n"
	"N       0       0                        \n"
	"N     100       0                        \n"
	"N       0     100                        \n"
	"M    1000    1000    2400                \n"
	"E       1       2       3       1    1000\n"
	"H       1       3                        \n"
	"F       1     48019660800                \n"
	"G       1       2    180019660800    1000\n"
	"T       319000000                        \n"
	"C       5      72       1      77        \n"
	"Z     462       3       1       1       5\n";

static const char solid[] = /* a tetrahedron, and a triangle on it */
	"D    100019660800       1                \n"
	"N       0       0       0                \n"
	"N     100       0       0                \n"
	"N       0     100       0                \n"
	"N       0       0     100                \n"
	"M    1000    1000    2400    1000        \n"
	"M    2000    3000    1200    4000        \n"
	"E       1       2       3       1    1000\n"
	"V       1       2       3       4       1\n"
	"H       2       3                        \n"
	"F       1     48019660800                \n"
	"G       1       4    180019660800    1000\n"
	"T       319000000                        \n"
	"Z     546       4       2       2       4\n";

/* ---- the calls */

static uint64_t deck_read(struct board *b)
{
	return gormulast_read(LEND(b, bytes), LEND(b, table), b->start.lent, b->end.lent);
}

static uint64_t deck_write(struct board *b)
{
	return gormulast_write(LEND(b, table), LEND(b, bytes));
}

static uint64_t build(struct board *b)
{
	return gormulast_build(LEND(b, table), LEND(b, p), LEND(b, a), LEND(b, factor),
			       LEND(b, work), LEND(b, starts));
}

static uint64_t replace(struct board *b, uint32_t card, const uint32_t new[GORMULAST_CARD_NUMBERS])
{
	return gormulast_replace(LEND(b, table), LEND(b, p), LEND(b, a), LEND(b, factor),
				 LEND(b, work), LEND(b, starts), card,
				 new[0], new[1], new[2], new[3], new[4], new[5]);
}

static uint64_t step(struct board *b)
{
	return gormulast_step(LEND(b, table), LEND(b, p), LEND(b, a), LEND(b, factor),
			      LEND(b, starts), LEND(b, temperatures), LEND(b, carried));
}

static uint64_t zones(struct board *b)
{
	return gormulast_zones(LEND(b, table), LEND(b, temperatures), LEND(b, counts),
			       LEND(b, members), LEND(b, edges), LEND(b, summary));
}

static uint64_t zones_step(struct board *b)
{
	return gormulast_zones_step(LEND(b, table), LEND(b, p), LEND(b, a), LEND(b, factor),
				    LEND(b, starts), LEND(b, temperatures), LEND(b, carried),
				    LEND(b, counts), LEND(b, members), LEND(b, edges),
				    LEND(b, summary));
}

/* Calls that refuse the same: a step alone and with zones, zones afresh and with a step. */
static const struct way {
	const char *name;
	uint64_t (*call)(struct board *b);
} steps[] = { { "alone", step }, { "with zones", zones_step } },
  zonings[] = { { "afresh", zones }, { "with a step", zones_step } };

static void way_name(const struct way *way, char *name)
{
	strscpy(name, way->name, KUNIT_PARAM_DESC_SIZE);
}
KUNIT_ARRAY_PARAM(steps, steps, way_name);
KUNIT_ARRAY_PARAM(zonings, zonings, way_name);

#define NEW(...) ((const uint32_t[GORMULAST_CARD_NUMBERS]){ __VA_ARGS__ })

/* ---- what a call answers, and all that it leaves */

static void expect(struct kunit *test, const char *what, uint64_t answer, uint64_t wanted)
{
	struct pair *pair = test->priv;

	KUNIT_EXPECT_EQ_MSG(test, answer, wanted, "%s", what);
	KUNIT_EXPECT_EQ_MSG(test, memcmp(&pair->now, &pair->wanted, sizeof(pair->now)), 0,
			    "%s: the buffers", what);
	/* What follows starts from what was wanted. */
	memcpy(&pair->now, &pair->wanted, sizeof(pair->now));
}

/* The board as it is now is what a call must leave, but for what is then said of it. */
static struct board *as_now(struct kunit *test)
{
	struct pair *pair = test->priv;

	memcpy(&pair->wanted, &pair->now, sizeof(pair->now));
	return &pair->wanted;
}

/* A refusal leaves all as it was. */
#define EXPECT_REFUSED(test, call, number, place) do { \
	as_now(test); \
	expect(test, #call, call, REFUSED(number, place)); \
} while (0)

/* But that 7 and 8 zero the work slice over the matrix length. */
#define EXPECT_CLEARED(test, call, number, place) do { \
	struct board *wanted = as_now(test); \
	\
	memset(wanted->work.lent, 0, wanted->work.length * sizeof(*wanted->work.lent)); \
	expect(test, #call, call, REFUSED(number, place)); \
} while (0)

/* One less of a buffer is refused. */
#define EXPECT_SHORT(test, b, name, call) do { \
	(b)->name.length--; \
	EXPECT_REFUSED(test, call, GORMULAST_SHORT, 0); \
	(b)->name.length++; \
} while (0)

/* ---- boards */

/* Three zones that share nodes, and band edges at temperatures of the decks. */
static void zone(struct board *b)
{
	static const uint32_t counts[] = { 3, 2, 1 }, members[] = { 3, 2, 1, 2, 1, 3 };
	static const uint32_t edges[] = { 19000000, 19660800, 19797439 };

	memset(b->counts.lent, 0, sizeof(b->counts.lent));
	memcpy(b->counts.lent, counts, sizeof(counts));
	memcpy(b->members.lent, members, sizeof(members));
	memcpy(b->edges.lent, edges, sizeof(edges));
	b->counts.length = ARRAY_SIZE(counts);
	b->members.length = ARRAY_SIZE(members);
	b->edges.length = ARRAY_SIZE(edges);
	b->summary.length = 3 * ARRAY_SIZE(counts);
}

/* The filling everywhere but in the zones and in the bytes, which are the deck's; lengths as the
 * deck asks, with all of its rows full. */
static void lay(struct board *b, const char *deck)
{
	size_t cards = strlen(deck) / GORMULAST_CARD_BYTES, nodes = 0, i;

	memset(b, FILLING, sizeof(*b));
	for (i = 0; i < cards; i++)
		nodes += deck[i * GORMULAST_CARD_BYTES] == 'N';
	memcpy(b->bytes.lent, deck, cards * GORMULAST_CARD_BYTES);
	b->bytes.length = cards * GORMULAST_CARD_BYTES;
	b->table.length = cards * GORMULAST_CARD_NUMBERS;
	b->p.length = GORMULAST_MATRIX(nodes);
	b->a.length = GORMULAST_MATRIX(nodes);
	b->factor.length = GORMULAST_MATRIX(nodes);
	b->work.length = GORMULAST_MATRIX(nodes);
	b->starts.length = nodes;
	b->temperatures.length = nodes;
	b->carried.length = nodes;
	zone(b);
}

static void set_out(struct board *b)
{
	size_t node;

	for (node = 0; node < b->temperatures.length; node++) {
		b->temperatures.lent[node] = FIELD(b, 1, 2);
		b->carried.lent[node] = 0;
	}
}

/* A board whose deck is read and built, before its first step; the work slice is not zero. */
static struct board *built(struct kunit *test, const char *deck)
{
	struct pair *pair = test->priv;
	struct board *b = &pair->now;

	lay(b, deck);
	KUNIT_ASSERT_EQ(test, deck_read(b), 0);
	KUNIT_ASSERT_EQ(test, build(b), 0);
	set_out(b);
	memset(b->work.lent, FILLING, sizeof(b->work.lent));
	return b;
}

static int gormulast_test_init(struct kunit *test)
{
	test->priv = kunit_kzalloc(test, sizeof(struct pair), GFP_KERNEL);
	return test->priv ? 0 : -ENOMEM;
}

/* ---- decks whose numbers are known */

/* The paper's list: a deck with some fields changed, what the build then refuses, or the matrices
 * and the first step. */
static const struct known {
	const char *name, *deck;
	struct { uint32_t card, field, value; } edits[6]; /* a card 0 ends them */
	uint64_t refused;
	int64_t p[MATRIX], a[MATRIX], factor[MATRIX];
	uint64_t corrections;
	int64_t temperatures[NODES], carried[NODES];
} known[] = {
	{ "P1, P2, P5, P6", heated, {}, 0,
	  { 5000, 2500, 5000, 2500, 2500, 5000 }, { 6000, 2000, 5500, 2000, 2500, 5500 },
	  { 6000, 349525, 4833, 349525, 397691, 4138 },
	  1, { 19660807, 19660807, 19660807 }, { -4464, -4464, -4464 } },
	{ "P4: corners 1, 3, 2", heated, { { 6, 2, 3 }, { 6, 3, 2 } }, 0,
	  { 5000, 2500, 5000, 2500, 2500, 5000 }, { 6000, 2000, 5500, 2000, 2500, 5500 },
	  { 6000, 349525, 4833, 349525, 397691, 4138 },
	  1, { 19660807, 19660807, 19660807 }, { -4464, -4464, -4464 } },
	{ "P8: a pivot", heated, { { 1, 1, 60000 }, { 5, 3, 1 } }, REFUSED(GORMULAST_PIVOT, 3) },
	{ "P9: a thin element", heated,
	  { { 5, 1, 10000 }, { 5, 2, 10000 }, { 5, 3, 1 }, { 4, 1, 101 }, { 4, 2, 1 } },
	  REFUSED(GORMULAST_THIN, 1) },
	{ "as P9, not thin", heated,
	  { { 5, 1, 10000 }, { 5, 2, 10000 }, { 5, 3, 1 }, { 4, 1, 104 }, { 4, 2, 3 } },
	  REFUSED(GORMULAST_BOUND, 2) },
	{ "P10: 961", heated, { { 1, 1, 1 }, { 5, 3, 961 }, { 6, 5, 4000 } },
	  REFUSED(GORMULAST_STIFF, 1) },
	{ "P11: no area", heated, { { 3, 1, 50 }, { 3, 2, 50 }, { 4, 1, 100 }, { 4, 2, 100 } },
	  REFUSED(GORMULAST_FLAT, 1) },
	{ "P10: 960", heated, { { 1, 1, 1 }, { 5, 3, 960 }, { 6, 5, 4000 } }, 0,
	  { 8000000, 4000000, 8000000, 4000000, 4000000, 8000000 },
	  { 8004000, 3998000, 8002000, 3998000, 4000000, 8002000 },
	  { 8004000, 523764, 6004998, 523764, 349758, 5336888 },
	  1, { 19660800, 19660800, 19660800 }, { 65536, 65536, 65536 } },
	{ "P7: no heat", cold, {}, 0,
	  { 5000, 2500, 5000, 2500, 2500, 5000 }, { 6000, 2000, 5500, 2000, 2500, 5500 },
	  { 6000, 349525, 4833, 349525, 397691, 4138 },
	  1, { 19660800, 19660800, 19660800 }, {} },
	{ "a source of 290 K", docked, {}, 0,
	  { 5000, 2500, 5000, 2500, 2500, 5000 }, { 6000, 2000, 5500, 2000, 2500, 5500 },
	  { 6000, 349525, 4833, 349525, 397691, 4138 },
	  1, { 19659369, 19659369, 19659369 }, { -2489, -2489, -2489 } },
	{ "P3: a film of 479", filmed, { { 8, 2, 479 } }, 0,
	  { 5000, 2500, 5000, 2500, 2500, 5000 }, { 6004, 2002, 5504, 2000, 2500, 5500 },
	  { 6004, 349642, 4836, 0, 0, 1048576 },
	  2, { 19797414, 19911266, 19000000 }, { 2148, -556 } },
	{ "P3: a film of 480", filmed, {}, 0,
	  { 5000, 2500, 5000, 2500, 2500, 5000 }, { 6006, 2003, 5506, 2001, 2501, 5502 },
	  { 6006, 349700, 4838, 0, 0, 1048576 },
	  1, { 19797439, 19911261, 19000000 }, { -881, 153 } },
	{ "a tetrahedron", solid, {}, 0,
	  { 10000, 5000, 10000, 5000, 5000, 10000, 2500, 2500, 2500, 5000 },
	  { 13505, 3668, 11335, 3668, 5001, 11335, 1669, 2500, 2500, 5837 },
	  { 13505, 284797, 10339, 0, 0, 1048576, 129587, 207606, 0, 5226 },
	  2, { 19759687, 19885376, 19000000, 19819369 }, { -1812, 976, 0, -504 } },
};

static void known_name(const struct known *deck, char *name)
{
	strscpy(name, deck->name, KUNIT_PARAM_DESC_SIZE);
}
KUNIT_ARRAY_PARAM(known, known, known_name);

/* Reads the deck, changes its fields, writes it and reads it again. */
static struct board *read_known(struct kunit *test, const struct known *deck)
{
	struct pair *pair = test->priv;
	struct board *b = &pair->now, *wanted;
	size_t i;

	lay(b, deck->deck);
	KUNIT_ASSERT_EQ(test, deck_read(b), 0);
	for (i = 0; i < ARRAY_SIZE(deck->edits) && deck->edits[i].card; i++)
		FIELD(b, deck->edits[i].card, deck->edits[i].field) = deck->edits[i].value;
	KUNIT_ASSERT_EQ(test, deck_write(b), 0);
	wanted = as_now(test);
	memset(b->table.lent, FILLING, b->table.length * sizeof(*b->table.lent));
	*wanted->start.lent = 0;
	*wanted->end.lent = wanted->bytes.length;
	expect(test, "read", deck_read(b), 0);
	return b;
}

static void gormulast_test_known(struct kunit *test)
{
	const struct known *deck = test->param_value;
	struct board *b = read_known(test, deck), *wanted = as_now(test);
	size_t node, matrix = b->p.length * sizeof(*b->p.lent), nodes = b->starts.length;
	unsigned int number = GORMULAST_NUMBER(deck->refused);

	if (!number) {
		memcpy(wanted->p.lent, deck->p, matrix);
		memcpy(wanted->a.lent, deck->a, matrix);
		memcpy(wanted->factor.lent, deck->factor, matrix);
		for (node = 0; node < nodes; node++)
			wanted->starts.lent[node] = GORMULAST_MATRIX(node);
	}
	if (!number || number == GORMULAST_PIVOT || number == GORMULAST_BOUND)
		memset(wanted->work.lent, 0, matrix);
	expect(test, "build", build(b), deck->refused);
	if (number)
		return;
	set_out(b);
	wanted = as_now(test);
	memcpy(wanted->temperatures.lent, deck->temperatures, nodes * sizeof(*deck->temperatures));
	memcpy(wanted->carried.lent, deck->carried, nodes * sizeof(*deck->carried));
	expect(test, "step", step(b), CORRECTED(deck->corrections));
}

/* ---- replacements: as a fresh build of the changed deck */

static const struct change {
	const char *name, *deck;
	uint32_t card, new[GORMULAST_CARD_NUMBERS];
} changes[] = {
	{ "P12: thickness of E", heated, 6, { 'E', 1, 2, 3, 1, 2000 } },
	{ "H", heated, 7, { 'H', 1, 5000000 } },
	{ "F", filmed, 8, { 'F', 1, 960, 0 } },
	{ "G", filmed, 9, { 'G', 1, 2, 100000, 33554432, 4000 } },
	{ "T", filmed, 10, { 'T', 3, 33554432 } },
	{ "V", solid, 9, { 'V', 1, 2, 3, 4, 2 } },
	{ "E of a solid deck", solid, 8, { 'E', 1, 2, 3, 2, 1 } },
};

static void change_name(const struct change *change, char *name)
{
	strscpy(name, change->name, KUNIT_PARAM_DESC_SIZE);
}
KUNIT_ARRAY_PARAM(change, changes, change_name);

static void gormulast_test_replaced(struct kunit *test)
{
	static const int64_t thicker[] = { 12000, 4000, 11000, 4000, 5000, 11000 };
	const struct change *change = test->param_value;
	struct board *b = built(test, change->deck), *wanted;
	bool stirs = change->new[0] != 'H' && change->new[0] != 'T';

	wanted = as_now(test);
	memcpy(&FIELD(wanted, change->card, 0), change->new, sizeof(change->new));
	if (stirs)
		KUNIT_ASSERT_EQ(test, build(wanted), 0);
	if (change == changes)
		KUNIT_EXPECT_EQ(test, memcmp(wanted->a.lent, thicker, sizeof(thicker)), 0);
	expect(test, "replace", replace(b, change->card, change->new), 0);
}

/* ---- zones: after each call the three numbers of each */

static void expect_zones(struct kunit *test, const char *what, uint64_t answer, uint64_t wanted,
			 const uint32_t summary[9])
{
	struct pair *pair = test->priv;

	memcpy(pair->wanted.summary.lent, summary, 9 * sizeof(*summary));
	expect(test, what, answer, wanted);
}

static void gormulast_test_zones(struct kunit *test)
{
	static const uint32_t even[] = { 1, 1, 2, 1, 1, 2, 3, 3, 2 };
	static const uint32_t first[] = { 3, 2, 1, 1, 2, 3, 3, 3, 1 };
	static const uint32_t second[] = { 3, 2, 1, 1, 2, 2, 7, 8, 9 };
	static const int64_t after[2][3] = { { 19797439, 19911261, 19000000 },
					     { 19736514, 19922873, 19000000 } };
	static const int64_t left[2][3] = { { -881, 153, 0 }, { 2452, -91, 0 } };
	struct board *b = built(test, filmed), *wanted;

	b->members.length++; /* what lies past the zones is neither read nor written */
	b->summary.length += 2;
	as_now(test);
	expect_zones(test, "zones", zones(b), 0, even);
	wanted = as_now(test);
	memcpy(wanted->temperatures.lent, after[0], sizeof(after[0]));
	memcpy(wanted->carried.lent, left[0], sizeof(left[0]));
	expect_zones(test, "a step", zones_step(b), CORRECTED(1), first);
	/* The third zone's node is held, so what stands there stays, whatever it is. */
	memcpy(b->summary.lent, ((uint32_t[]){ 0, 0, 0, 0, 0, 0, 7, 8, 9 }), sizeof(second));
	wanted = as_now(test);
	memcpy(wanted->temperatures.lent, after[1], sizeof(after[1]));
	memcpy(wanted->carried.lent, left[1], sizeof(left[1]));
	expect_zones(test, "another step", zones_step(b), CORRECTED(1), second);
}

/* As many zones and edges as there may be, and as many nodes in one; or none. */
static void gormulast_test_zones_counts(struct kunit *test)
{
	struct board *b = built(test, cold), *wanted;
	size_t i;

	for (i = 0; i < GORMULAST_MAX_NODES; i++)
		b->members.lent[i] = 3 - i % 2;
	for (i = 0; i < GORMULAST_MAX_EDGES; i++) /* eight of them at 300 K or below */
		b->edges.lent[i] = 19660793 + i;
	for (i = 0; i < GORMULAST_MAX_ZONES; i++)
		b->counts.lent[i] = i ? 0 : GORMULAST_MAX_NODES;
	b->members.length = GORMULAST_MAX_NODES;
	b->edges.length = GORMULAST_MAX_EDGES;
	b->counts.length = 1;
	wanted = as_now(test);
	memcpy(wanted->summary.lent, ((uint32_t[]){ 2, 2, 8 }), 3 * sizeof(uint32_t));
	expect(test, "96 nodes", zones(b), 0);
	for (i = 0; i < GORMULAST_MAX_ZONES; i++)
		b->counts.lent[i] = 1;
	b->counts.length = GORMULAST_MAX_ZONES;
	b->summary.length = 3 * GORMULAST_MAX_ZONES;
	wanted = as_now(test);
	for (i = 0; i < GORMULAST_MAX_ZONES; i++)
		memcpy(wanted->summary.lent + 3 * i,
		       ((uint32_t[]){ 3 - i % 2, 3 - i % 2, 8 }), 3 * sizeof(uint32_t));
	expect(test, "16 zones", zones(b), 0);
	as_now(test);
	expect(test, "a step that changes nothing", zones_step(b), CORRECTED(1));
	b->counts.length = b->members.length = b->edges.length = b->summary.length = 0;
	as_now(test);
	expect(test, "no zones", zones(b), 0);
}

/* ---- refusals */

static void gormulast_test_read_refused(struct kunit *test)
{
	struct board *b = built(test, heated);
	size_t length = b->bytes.length;

	*b->start.lent = 0; /* as a refusal tells */
	*b->end.lent = 0;
	b->bytes.length = GORMULAST_CARD_BYTES - 1;
	EXPECT_REFUSED(test, deck_read(b), GORMULAST_LENGTH, 0);
	b->bytes.length = length;
	EXPECT_SHORT(test, b, table, deck_read(b));
	b->bytes.lent[7 * GORMULAST_CARD_BYTES + 8] = '5'; /* Z: 295 bytes back */
	EXPECT_REFUSED(test, deck_read(b), GORMULAST_TRAILER, 0);
	b->bytes.lent[7 * GORMULAST_CARD_BYTES + 8] = '4';
	b->bytes.lent[6 * GORMULAST_CARD_BYTES + 8] = '2'; /* H: element 2 of 1 */
	EXPECT_REFUSED(test, deck_read(b), GORMULAST_RANGE, 7);
	b->bytes.lent[2 * GORMULAST_CARD_BYTES] = 'M';
	EXPECT_REFUSED(test, deck_read(b), GORMULAST_FORM, 3);
}

/* What a table alone is refused for, by each call that takes one. */
#define EXPECT_TABLE_REFUSED(test, b, call) do { \
	(b)->table.length--; \
	EXPECT_REFUSED(test, call, GORMULAST_LENGTH, 0); \
	(b)->table.length++; \
	FIELD(b, 8, 2)++; \
	EXPECT_REFUSED(test, call, GORMULAST_TRAILER, 0); \
	FIELD(b, 8, 2)--; \
	FIELD(b, 7, 1)++; \
	EXPECT_REFUSED(test, call, GORMULAST_RANGE, 7); \
	FIELD(b, 3, 5)++; \
	EXPECT_REFUSED(test, call, GORMULAST_FORM, 3); \
	FIELD(b, 3, 5)--; \
	FIELD(b, 7, 1)--; \
} while (0)

static void gormulast_test_write_refused(struct kunit *test)
{
	struct board *b = built(test, heated);

	EXPECT_TABLE_REFUSED(test, b, deck_write(b));
	EXPECT_SHORT(test, b, bytes, deck_write(b));
}

static void gormulast_test_build_refused(struct kunit *test)
{
	struct board *b = built(test, heated);

	EXPECT_TABLE_REFUSED(test, b, build(b));
	EXPECT_SHORT(test, b, p, build(b));
	EXPECT_SHORT(test, b, a, build(b));
	EXPECT_SHORT(test, b, factor, build(b));
	EXPECT_SHORT(test, b, work, build(b));
	EXPECT_SHORT(test, b, starts, build(b));
}

static void gormulast_test_replace_refused(struct kunit *test)
{
	const uint32_t *thicker = NEW('E', 1, 2, 3, 1, 2000);
	struct board *b = built(test, heated);

	EXPECT_TABLE_REFUSED(test, b, replace(b, 6, thicker));
	/* An unused field, a letter that is none; then other letters, corners and cards. */
	EXPECT_REFUSED(test, replace(b, 7, NEW('H', 1, 3, 1)), GORMULAST_FORM, 7);
	EXPECT_REFUSED(test, replace(b, 7, NEW('h', 1, 3)), GORMULAST_FORM, 7);
	EXPECT_REFUSED(test, replace(b, 1, NEW('D', 1000, 0, 1)), GORMULAST_REPLACEMENT, 1);
	EXPECT_REFUSED(test, replace(b, 6, NEW('E', 1, 3, 2, 1, 2000)), GORMULAST_REPLACEMENT, 6);
	EXPECT_REFUSED(test, replace(b, 7, thicker), GORMULAST_REPLACEMENT, 7);
	EXPECT_REFUSED(test, replace(b, 0, thicker), GORMULAST_REPLACEMENT, 0);
	EXPECT_REFUSED(test, replace(b, 9, thicker), GORMULAST_REPLACEMENT, 9);
	EXPECT_REFUSED(test, replace(b, 6, NEW('E', 1, 2, 3, 1, 4001)), GORMULAST_RANGE, 6);
	EXPECT_SHORT(test, b, p, replace(b, 6, thicker));
	EXPECT_SHORT(test, b, a, replace(b, 6, thicker));
	EXPECT_SHORT(test, b, factor, replace(b, 6, thicker));
	EXPECT_SHORT(test, b, work, replace(b, 6, thicker));
	EXPECT_SHORT(test, b, starts, replace(b, 6, thicker));
	b->starts.lent[1] = 2;
	EXPECT_REFUSED(test, replace(b, 6, thicker), GORMULAST_STRAY, 2);
}

/* Elements that can't be, in a deck whose buffers are another's; and a factor that can't. */
static void gormulast_test_replace_unfit(struct kunit *test)
{
	const uint32_t *thicker = NEW('E', 1, 2, 3, 1, 2000);
	struct board *b = built(test, heated);

	FIELD(b, 4, 1) = 101;
	FIELD(b, 4, 2) = 1;
	EXPECT_REFUSED(test, replace(b, 6, thicker), GORMULAST_THIN, 1);
	FIELD(b, 4, 2) = 0;
	EXPECT_REFUSED(test, replace(b, 6, thicker), GORMULAST_FLAT, 1);
	FIELD(b, 4, 1) = 0;
	FIELD(b, 4, 2) = 100;
	FIELD(b, 1, 1) = 1;
	EXPECT_REFUSED(test, replace(b, 6, thicker), GORMULAST_STIFF, 1);
	FIELD(b, 1, 1) = 1000;
	b->a.lent[2] = -1000000;
	EXPECT_CLEARED(test, replace(b, 6, thicker), GORMULAST_PIVOT, 2);
	b->a.lent[1] = 1ll << 32;
	EXPECT_CLEARED(test, replace(b, 6, thicker), GORMULAST_BOUND, 2);
}

/* A source can't be replaced, nor face a tetrahedron; an emissivity is not written as 0. */
static void gormulast_test_source_refused(struct kunit *test)
{
	static const uint32_t source[] = { 'R', 2, 19005440, 0, 0, 0 };
	struct board *b = built(test, docked);

	EXPECT_REFUSED(test, replace(b, 7, NEW('R', 1, 19005440)), GORMULAST_REPLACEMENT, 7);
	*b->start.lent = 0; /* as a refusal tells */
	*b->end.lent = 0;
	memcpy(b->bytes.lent + 4 * GORMULAST_CARD_BYTES + 38, "  0", 3);
	EXPECT_REFUSED(test, deck_read(b), GORMULAST_RANGE, 5);
	b = built(test, solid);
	memcpy(&FIELD(b, 12, 0), source, sizeof(source));
	EXPECT_REFUSED(test, build(b), GORMULAST_RANGE, 12);
}

/* A buffer with a number that no call gives; then as it was. */
#define EXPECT_FOREIGN(test, b, name, at, number, call) do { \
	int64_t old = (b)->name.lent[at]; \
	\
	(b)->name.lent[at] = number; \
	EXPECT_REFUSED(test, call, GORMULAST_FOREIGN, 0); \
	(b)->name.lent[at] = old; \
} while (0)

static void gormulast_test_foreign(struct kunit *test)
{
	struct board *b = built(test, heated);
	const uint32_t *same = &FIELD(b, 7, 0);

	EXPECT_FOREIGN(test, b, p, 0, S64_MIN, step(b));
	EXPECT_FOREIGN(test, b, a, 5, (1ll << 33) + 1, step(b));
	EXPECT_FOREIGN(test, b, factor, 1, (1 << 24) + 1, step(b));
	EXPECT_FOREIGN(test, b, factor, 0, 15, step(b));
	EXPECT_FOREIGN(test, b, factor, 5, (1ll << 38) + 1, step(b));
	EXPECT_FOREIGN(test, b, carried, 2, -(1ll << 33) - 1, step(b));
	EXPECT_FOREIGN(test, b, a, 5, (1ll << 33) + 1, zones_step(b));
	EXPECT_FOREIGN(test, b, carried, 2, -(1ll << 33) - 1, zones_step(b));
	EXPECT_FOREIGN(test, b, p, 0, S64_MAX, replace(b, 7, same));
	EXPECT_FOREIGN(test, b, a, 3, -(1ll << 33) - 1, replace(b, 7, same));
	EXPECT_FOREIGN(test, b, factor, 2, 0, replace(b, 7, same));
}

static void gormulast_test_step_refused(struct kunit *test)
{
	const struct way *way = test->param_value;
	struct board *b = built(test, heated);

	EXPECT_TABLE_REFUSED(test, b, way->call(b));
	EXPECT_SHORT(test, b, p, way->call(b));
	EXPECT_SHORT(test, b, a, way->call(b));
	EXPECT_SHORT(test, b, factor, way->call(b));
	EXPECT_SHORT(test, b, starts, way->call(b));
	EXPECT_SHORT(test, b, temperatures, way->call(b));
	EXPECT_SHORT(test, b, carried, way->call(b));
	b->starts.lent[2] = 2;
	EXPECT_REFUSED(test, way->call(b), GORMULAST_STRAY, 3);
	b->starts.lent[2] = 3;
	b->temperatures.lent[1] = -1;
	EXPECT_REFUSED(test, way->call(b), GORMULAST_OFF_SCALE, 2);
	b->temperatures.lent[1] = GORMULAST_TOP;
	b->temperatures.lent[2] = GORMULAST_TOP + 1;
	EXPECT_REFUSED(test, way->call(b), GORMULAST_OFF_SCALE, 3);
}

/* Steps that begin and come to no end. */
static void gormulast_test_step_undone(struct kunit *test)
{
	const struct way *way = test->param_value;
	struct board *b = built(test, heated);
	size_t node;

	/* Five watts at the top of the scale. */
	FIELD(b, 7, 2) = 5000000;
	for (node = 0; node < 3; node++)
		b->temperatures.lent[node] = GORMULAST_TOP;
	EXPECT_REFUSED(test, way->call(b), GORMULAST_OFF_SCALE, 1);
	/* Pivots so large that no correction moves enough. */
	set_out(b);
	for (node = 0; node < 3; node++)
		b->factor.lent[GORMULAST_MATRIX(node + 1) - 1] *= 1000;
	EXPECT_REFUSED(test, way->call(b), GORMULAST_UNSETTLED, 1);
	/* The least pivots, under a matrix that no factor is of. */
	b->factor.lent[0] = 16;
	b->a.lent[0] = 1ll << 33;
	b->a.lent[1] = 0;
	b->a.lent[3] = 0;
	EXPECT_REFUSED(test, way->call(b), GORMULAST_BOUND, 1);
}

/* Faults one on top of another: each is judged before those that it comes on top of. */
static void gormulast_test_zones_refused(struct kunit *test)
{
	const struct way *way = test->param_value;
	struct board *b = built(test, heated);

	b->edges.lent[2] = b->edges.lent[1];
	EXPECT_REFUSED(test, way->call(b), GORMULAST_EDGE, 3);
	b->edges.lent[1] = b->edges.lent[0] - 1;
	EXPECT_REFUSED(test, way->call(b), GORMULAST_EDGE, 2);
	b->members.lent[5] = 0;
	EXPECT_REFUSED(test, way->call(b), GORMULAST_ZONE, 3);
	b->members.lent[4] = 4;
	EXPECT_REFUSED(test, way->call(b), GORMULAST_ZONE, 2);
	b->counts.lent[0] = 0;
	EXPECT_REFUSED(test, way->call(b), GORMULAST_ZONE, 1);
	b->edges.length = GORMULAST_MAX_EDGES + 1;
	EXPECT_REFUSED(test, way->call(b), GORMULAST_LENGTH, 0);
	b->edges.length = 3;
	b->counts.length = GORMULAST_MAX_ZONES + 1;
	b->summary.length = 3 * (GORMULAST_MAX_ZONES + 1);
	EXPECT_REFUSED(test, way->call(b), GORMULAST_LENGTH, 0);
	b->counts.length = 1;
	b->counts.lent[0] = GORMULAST_MAX_NODES + 1;
	b->members.length = GORMULAST_MAX_NODES + 1;
	b->summary.length = 3;
	EXPECT_REFUSED(test, way->call(b), GORMULAST_LENGTH, 0);
	b->temperatures.lent[2] = GORMULAST_TOP + 1;
	EXPECT_REFUSED(test, way->call(b), GORMULAST_OFF_SCALE, 3);
	b->temperatures.lent[1] = -1;
	EXPECT_REFUSED(test, way->call(b), GORMULAST_OFF_SCALE, 2);
	EXPECT_SHORT(test, b, members, way->call(b));
	EXPECT_SHORT(test, b, summary, way->call(b));
	EXPECT_SHORT(test, b, temperatures, way->call(b));
	EXPECT_TABLE_REFUSED(test, b, way->call(b));
}

static struct kunit_case gormulast_test_cases[] = {
	KUNIT_CASE_PARAM(gormulast_test_known, known_gen_params),
	KUNIT_CASE_PARAM(gormulast_test_replaced, change_gen_params),
	KUNIT_CASE(gormulast_test_zones),
	KUNIT_CASE(gormulast_test_zones_counts),
	KUNIT_CASE(gormulast_test_read_refused),
	KUNIT_CASE(gormulast_test_write_refused),
	KUNIT_CASE(gormulast_test_build_refused),
	KUNIT_CASE(gormulast_test_replace_refused),
	KUNIT_CASE(gormulast_test_replace_unfit),
	KUNIT_CASE(gormulast_test_source_refused),
	KUNIT_CASE(gormulast_test_foreign),
	KUNIT_CASE_PARAM(gormulast_test_step_refused, steps_gen_params),
	KUNIT_CASE_PARAM(gormulast_test_step_undone, steps_gen_params),
	KUNIT_CASE_PARAM(gormulast_test_zones_refused, zonings_gen_params),
	{}
};

static struct kunit_suite gormulast_test_suite = {
	.name = "gormulast",
	.init = gormulast_test_init,
	.test_cases = gormulast_test_cases,
};
kunit_test_suite(gormulast_test_suite);

MODULE_DESCRIPTION("KUnit test of the calls of gormulast.h");
MODULE_LICENSE("Dual MIT/GPL");
