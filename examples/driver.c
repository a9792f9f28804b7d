// SPDX-License-Identifier: GPL-2.0-only OR MIT
/* driver DECK: an e-reader's page loop over Gormulast, as a panel driver has it.
 *
 * After each page the model takes one step. The reading light, the case and the frame are cards of the deck: switching the
 * light replaces the H cards, opening the case replaces the F cards, a hand that warms the frame replaces the G cards, and the
 * model redoes only what depends on them. Each line has a page and the temperature of the panel at every node, in degrees
 * Celsius; then, for each of the panel's zones, the band of its coldest node and the waveform that is picked by it, and how long
 * the page takes to draw, which is as long as its slowest zone.
 *
 * panel_open, panel_page, panel_waveform and the three switches are what would stand in a kernel; main and the printing are not.
 *
 * Light, case and frame change different cards, so whoever switches them may do so in any order, one at a time: where no switch
 * is refused, the model ends in the same numbers. A switch that is refused may want another first; the cards that it changed
 * before that stay changed. The change that came last is taken back by its card's old numbers, which are never refused.
 */
#include <gormulast.h>
#include <stdio.h>

#define MATRIX GORMULAST_MATRIX(GORMULAST_MAX_NODES)

/* All that a panel's model is: no call keeps anything of its own. */
struct panel {
	uint32_t table[GORMULAST_MAX_TABLE];
	size_t length; /* of the table: six numbers a card */
	int64_t p[MATRIX], a[MATRIX], factor[MATRIX], work[MATRIX];
	uint32_t starts[GORMULAST_MAX_NODES]; /* where each row of them begins: a build's word, kept with them */
	int64_t temperatures[GORMULAST_MAX_NODES];
	int64_t carried[GORMULAST_MAX_NODES]; /* what each step leaves to the next */
	size_t nodes;
	uint32_t counts[GORMULAST_MAX_ZONES], members[GORMULAST_MAX_NODES]; /* the panel's zones */
	size_t zones, placed; /* how many, and their nodes together */
	uint32_t summary[3 * GORMULAST_MAX_ZONES]; /* coldest node, hottest node, band; kept by every step */
};

/* The band edges, and a waveform for each band: the colder the ink, the longer it takes. */
static const uint32_t edges[] = {
	298 * GORMULAST_KELVIN, 298 * GORMULAST_KELVIN + GORMULAST_KELVIN / 4, 298 * GORMULAST_KELVIN + GORMULAST_KELVIN / 2,
};
#define EDGES (sizeof edges / sizeof *edges)
static const struct waveform { const char *name; unsigned milliseconds; } waveforms[EDGES + 1] = {
	{ "cold", 900 }, { "cool", 620 }, { "warm", 480 }, { "hot", 410 },
};

static const struct waveform *panel_waveform(const struct panel *panel, size_t zone)
{
	return &waveforms[panel->summary[3 * zone + 2]];
}

/* Zones of three nodes in turn, the last one of what is left, and their summary of the temperatures as they are. */
static uint64_t panel_zones(struct panel *panel)
{
	size_t node;

	panel->zones = 0;
	panel->placed = panel->nodes;
	for (node = 0; node < panel->nodes; node++) {
		if (node % 3 == 0 && panel->zones < GORMULAST_MAX_ZONES)
			panel->counts[panel->zones++] = 0;
		panel->counts[panel->zones - 1]++;
		panel->members[node] = (uint32_t)node + 1;
	}
	return gormulast_zones(panel->table, panel->length, panel->temperatures, panel->nodes, panel->counts, panel->zones,
			       panel->members, panel->placed, edges, EDGES, panel->summary, 3 * panel->zones);
}

static uint64_t panel_build(struct panel *panel)
{
	return gormulast_build(panel->table, panel->length, panel->p, MATRIX, panel->a, MATRIX,
			       panel->factor, MATRIX, panel->work, MATRIX, panel->starts, GORMULAST_MAX_NODES);
}

/* Reads a deck, builds its matrices and starts every node at D's temperature, with nothing carried; then the zones. */
static uint64_t panel_open(struct panel *panel, const uint8_t *bytes, size_t length)
{
	uint64_t start, end, answer;
	size_t node;

	answer = gormulast_read(bytes, length, panel->table, GORMULAST_MAX_TABLE, &start, &end);
	if (answer)
		return answer;
	panel->length = (end - start) / GORMULAST_CARD_BYTES * GORMULAST_CARD_NUMBERS;
	panel->nodes = panel->table[panel->length - 4];
	for (node = 0; node < panel->nodes; node++) {
		panel->temperatures[node] = panel->table[2];
		panel->carried[node] = 0;
	}
	answer = panel_build(panel);
	return answer ? answer : panel_zones(panel);
}

/* After a page: one step, and the zones with a node that it changed. Refused, it leaves the temperatures, what is carried and the
 * summary as they were. */
static uint64_t panel_page(struct panel *panel)
{
	return gormulast_zones_step(panel->table, panel->length, panel->p, MATRIX, panel->a, MATRIX,
				    panel->factor, MATRIX, panel->starts, panel->nodes,
				    panel->temperatures, panel->nodes, panel->carried, panel->nodes,
				    panel->counts, panel->zones, panel->members, panel->placed, edges, EDGES,
				    panel->summary, 3 * panel->zones);
}

/* Gives a field and the one after it new values, in every card of a letter; stops at the first that is refused. */
static uint64_t panel_set(struct panel *panel, char letter, size_t field, uint32_t value, uint32_t after)
{
	uint32_t new[GORMULAST_CARD_NUMBERS];
	uint64_t answer = 0;
	size_t at, i;

	for (at = 0; at < panel->length && !answer; at += GORMULAST_CARD_NUMBERS) {
		if (panel->table[at] != (uint32_t)letter)
			continue;
		for (i = 0; i < GORMULAST_CARD_NUMBERS; i++)
			new[i] = panel->table[at + i];
		new[field] = value;
		new[field + 1] = after;
		answer = gormulast_replace(panel->table, panel->length, panel->p, MATRIX, panel->a, MATRIX,
					   panel->factor, MATRIX, panel->work, MATRIX, panel->starts, panel->nodes,
					   (uint32_t)(at / GORMULAST_CARD_NUMBERS + 1),
					   new[0], new[1], new[2], new[3], new[4], new[5]);
	}
	return answer;
}

/* The heat of each lit element, in microwatts. An H card can't be without any, so off is 1. */
static uint64_t panel_light(struct panel *panel, int on)
{
	return panel_set(panel, 'H', 2, on ? 750000 : 1, 0);
}

/* The film over each triangle, in mW/(m2 K), and the air about it. */
static uint64_t panel_case(struct panel *panel, int open)
{
	return open ? panel_set(panel, 'F', 2, 40000, 278 * GORMULAST_KELVIN)
		    : panel_set(panel, 'F', 2, 12000, 298 * GORMULAST_KELVIN);
}

/* The film between the rim and the frame, in mW/(m2 K), and how warm the frame is. */
static uint64_t panel_frame(struct panel *panel, int held)
{
	return held ? panel_set(panel, 'G', 3, 90000, 306 * GORMULAST_KELVIN)
		    : panel_set(panel, 'G', 3, 60000, 298 * GORMULAST_KELVIN);
}

/* ---- the rest is for the eye */

static int refused(const char *what, uint64_t answer)
{
	unsigned number = GORMULAST_NUMBER(answer);

	if (!number)
		return 0;
	printf("%s refused: ", what);
	printf(gormulast_words(number), GORMULAST_PLACE(answer));
	printf("\n");
	return 1;
}

/* In hundredths of a degree, rounded. */
static void print_celsius(int64_t ticks)
{
	int64_t hundredths = (ticks * 100 + GORMULAST_KELVIN / 2) / GORMULAST_KELVIN - 27315;
	int64_t size = hundredths < 0 ? -hundredths : hundredths;

	printf(" %s%lld.%02lld", hundredths < 0 ? "-" : "", (long long)(size / 100), (long long)(size % 100));
}

/* How long it takes to draw a page: zones are driven side by side, so as long as the slowest. */
static unsigned drawn(const struct panel *panel)
{
	unsigned most = 0;
	size_t zone;

	for (zone = 0; zone < panel->zones; zone++)
		if (panel_waveform(panel, zone)->milliseconds > most)
			most = panel_waveform(panel, zone)->milliseconds;
	return most;
}

static void print_page(const struct panel *panel, int page, unsigned corrections)
{
	size_t node, zone;

	printf("page %2d (%u)", page, corrections);
	for (node = 0; node < panel->nodes; node++)
		print_celsius(panel->temperatures[node]);
	printf("\n        bands");
	for (zone = 0; zone < panel->zones; zone++)
		printf(" %u %s", panel->summary[3 * zone + 2], panel_waveform(panel, zone)->name);
	printf(", drawn in %u ms\n", drawn(panel));
}

static struct panel panel;
static uint8_t bytes[GORMULAST_MAX_BYTES];

int main(int count, char **words)
{
	FILE *deck = count == 2 ? fopen(words[1], "rb") : NULL;
	size_t length;
	uint64_t answer;
	int page;

	if (!deck) {
		fprintf(stderr, "usage: driver DECK\n");
		return 2;
	}
	length = fread(bytes, 1, sizeof bytes, deck);
	fclose(deck);
	if (refused("deck", panel_open(&panel, bytes, length)) || refused("light", panel_light(&panel, 0)))
		return 1;

	for (page = 1; page <= 16; page++) {
		if (page == 3) {
			printf("light on\n");
			if (refused("light", panel_light(&panel, 1)))
				return 1;
		}
		if (page == 6) {
			printf("taken in the hand\n");
			if (refused("frame", panel_frame(&panel, 1)))
				return 1;
		}
		if (page == 9) {
			printf("case opened\n");
			if (refused("case", panel_case(&panel, 1)))
				return 1;
		}
		if (page == 13) {
			printf("laid down, case closed, light off\n");
			if (refused("frame", panel_frame(&panel, 0)) || refused("case", panel_case(&panel, 0)) ||
			    refused("light", panel_light(&panel, 0)))
				return 1;
		}
		/* A film of 0 is out of its range. The first card is refused, so all is as it was. */
		if (page == 16)
			refused("film of 0", panel_set(&panel, 'F', 2, 0, 298 * GORMULAST_KELVIN));
		answer = panel_page(&panel);
		if (refused("step", answer))
			return 1;
		print_page(&panel, page, GORMULAST_CORRECTIONS(answer));
	}
	return 0;
}
