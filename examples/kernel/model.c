// SPDX-License-Identifier: GPL-2.0-only OR MIT
#include <linux/kernel.h>
#include <linux/string.h>
#include "model.h"

void model_lend(struct model *model, int64_t *memory, size_t numbers)
{
	model->p = memory;
	model->a = memory + numbers;
	model->factor = memory + 2 * numbers;
	model->work = memory + 3 * numbers;
	model->numbers = numbers;
}

/* Reads a deck, builds its matrices and starts every node at D's temperature, with nothing carried and no zones. The deck is read into a
 * table of its own, and a refused build leaves p, a, factor and starts, so a deck that is refused, wherever, leaves the old one at
 * work. */
uint64_t model_deck(struct model *model, const uint8_t *bytes, size_t length)
{
	uint64_t start, end, answer;
	size_t numbers, node;

	answer = gormulast_read(bytes, length, model->next, GORMULAST_MAX_TABLE, &start, &end);
	if (answer)
		return answer;
	numbers = (end - start) / GORMULAST_CARD_BYTES * GORMULAST_CARD_NUMBERS;
	answer = gormulast_build(model->next, numbers, model->p, model->numbers, model->a, model->numbers,
				 model->factor, model->numbers, model->work, model->numbers,
				 model->starts, GORMULAST_MAX_NODES);
	if (answer)
		return answer;
	memcpy(model->table, model->next, numbers * sizeof(*model->table));
	model->length = numbers;
	model->nodes = model->table[numbers - 4];
	for (node = 0; node < model->nodes; node++) {
		model->temperatures[node] = model->table[2];
		model->carried[node] = 0;
	}
	model->zones.zones = 0;
	return 0;
}

/* The zones from now on, and their summary of the temperatures as they are. */
uint64_t model_zones(struct model *model, const struct zones *zones)
{
	uint64_t answer;

	answer = gormulast_zones(model->table, model->length, model->temperatures, model->nodes, zones->counts, zones->zones,
				 zones->members, zones->placed, zones->edges, zones->edged,
				 model->summary, ARRAY_SIZE(model->summary));
	if (!answer)
		model->zones = *zones;
	return answer;
}

/* What is carried stays: it is heat that is still due. */
uint64_t model_replace(struct model *model, uint32_t card, const uint32_t new[GORMULAST_CARD_NUMBERS])
{
	return gormulast_replace(model->table, model->length, model->p, model->numbers, model->a, model->numbers,
				 model->factor, model->numbers, model->work, model->numbers, model->starts, model->nodes,
				 card, new[0], new[1], new[2], new[3], new[4], new[5]);
}

uint64_t model_step(struct model *model)
{
	const struct zones *zones = &model->zones;

	if (zones->zones)
		return gormulast_zones_step(model->table, model->length, model->p, model->numbers, model->a, model->numbers,
					    model->factor, model->numbers, model->starts, model->nodes,
					    model->temperatures, model->nodes, model->carried, model->nodes,
					    zones->counts, zones->zones, zones->members, zones->placed,
					    zones->edges, zones->edged, model->summary, 3 * zones->zones);
	return gormulast_step(model->table, model->length, model->p, model->numbers, model->a, model->numbers,
			      model->factor, model->numbers, model->starts, model->nodes,
			      model->temperatures, model->nodes, model->carried, model->nodes);
}

size_t model_bytes(const struct model *model, uint8_t *bytes, size_t room)
{
	if (gormulast_write(model->table, model->length, bytes, room))
		return 0;
	return model->length / GORMULAST_CARD_NUMBERS * GORMULAST_CARD_BYTES;
}
