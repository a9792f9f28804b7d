// SPDX-License-Identifier: GPL-2.0-only OR MIT
/* measured DECK RECORDS: what the thermal bench measured, put into a deck that has no H, F or T card, and stepped.
 *
 * In user space alone: gormulast_import uses floats. What it makes is a table as any other, and the calls of gormulast.h take it
 * in whole numbers, here or in a kernel, which gets it as bytes by gormulast_write. Takes D's steps and prints what ./heat prints.
 */
#include <gormulast-import.h>
#include <stdio.h>

#define MATRIX GORMULAST_MATRIX(GORMULAST_MAX_NODES)

/* A byte more than there may be is enough to see that there are too many. */
static uint8_t bytes[GORMULAST_MAX_BYTES + 1], records[GORMULAST_MAX_RECORDS_BYTES + 1];
static uint32_t table[GORMULAST_MAX_TABLE], second[GORMULAST_MAX_TABLE];
static int64_t p[MATRIX], a[MATRIX], factor[MATRIX], work[MATRIX];
static uint32_t starts[GORMULAST_MAX_NODES];
static int64_t temperatures[GORMULAST_MAX_NODES], carried[GORMULAST_MAX_NODES];

static int refused(uint64_t answer)
{
	unsigned number = GORMULAST_NUMBER(answer);

	if (!number)
		return 0;
	fprintf(stderr, "refused: ");
	fprintf(stderr, gormulast_import_words(number), GORMULAST_PLACE(answer));
	fprintf(stderr, "\n");
	return 1;
}

static size_t contents(const char *name, uint8_t *buffer, size_t room)
{
	FILE *file = fopen(name, "rb");
	size_t length = file ? fread(buffer, 1, room, file) : 0;

	if (file)
		fclose(file);
	return length;
}

/* D's steps, up to the first that is refused. */
static int stepped(size_t length, size_t nodes)
{
	uint32_t step;

	for (step = 0; step < second[3]; step++)
		if (refused(gormulast_step(second, length, p, MATRIX, a, MATRIX, factor, MATRIX, starts, nodes,
					   temperatures, nodes, carried, nodes)))
			return 0;
	return 1;
}

int main(int argc, char **argv)
{
	size_t length, records_length, nodes, node;
	uint64_t start, end;

	if (argc != 3) {
		fprintf(stderr, "measured DECK RECORDS\n");
		return 2;
	}
	length = contents(argv[1], bytes, sizeof(bytes));
	records_length = contents(argv[2], records, sizeof(records));
	if (refused(gormulast_read(bytes, length, table, GORMULAST_MAX_TABLE, &start, &end)))
		return 1;
	length = (size_t)(end - start) / 7;
	if (refused(gormulast_import(table, length, records, records_length, second, GORMULAST_MAX_TABLE)))
		return 1;
	length += records_length / GORMULAST_RECORD_BYTES * GORMULAST_CARD_NUMBERS - GORMULAST_CARD_NUMBERS;
	nodes = second[length - 4];
	if (refused(gormulast_build(second, length, p, MATRIX, a, MATRIX, factor, MATRIX, work, MATRIX, starts, GORMULAST_MAX_NODES)))
		return 1;
	for (node = 0; node < nodes; node++)
		temperatures[node] = second[2];
	if (!stepped(length, nodes))
		return 1;
	for (node = 0; node < nodes; node++)
		printf("T %u %lld\n", (unsigned)node + 1, (long long)temperatures[node]);
	printf("Z %lu %u\n", (unsigned long)second[3], (unsigned)nodes);
	return 0;
}
