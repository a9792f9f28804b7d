// SPDX-License-Identifier: GPL-2.0-only OR MIT
/* calls [NODE TICKS]..: a deck from standard input by the calls for C, its matrices and its steps printed.
 *
 * Lines: P and A with row, column and number, as far as they are kept; T with node and ticks after D's steps, each node named begun
 * at its ticks, all others at D's; then Z. A refusal is R with its number and place.
 */
#include <gormulast.h>
#include <stdio.h>
#include <stdlib.h>

#define MATRIX GORMULAST_MATRIX(GORMULAST_MAX_NODES)
/* No matrix has this number: where it stays, nothing was written. */
#define NONE INT64_MIN

static uint8_t bytes[GORMULAST_MAX_BYTES];
static uint32_t table[GORMULAST_MAX_TABLE], starts[GORMULAST_MAX_NODES];
static int64_t p[MATRIX + 1], a[MATRIX + 1], factor[MATRIX], work[MATRIX];
static int64_t temperatures[GORMULAST_MAX_NODES], carried[GORMULAST_MAX_NODES];

static int accepted(uint64_t answer)
{
	if (GORMULAST_NUMBER(answer))
		printf("R %u %u\n", GORMULAST_NUMBER(answer), GORMULAST_PLACE(answer));
	return !GORMULAST_NUMBER(answer);
}

static void print(char letter, const int64_t *matrix, size_t nodes)
{
	size_t row, at, end;

	for (row = 0; row < nodes; row++) {
		for (end = starts[row]; row + 1 < nodes ? end < starts[row + 1] : matrix[end] != NONE; end++)
			;
		for (at = starts[row]; at < end; at++)
			printf("%c %zu %zu %lld\n", letter, row + 1, row + 1 - (end - 1 - at), (long long)matrix[at]);
	}
}

int main(int words, char **word)
{
	size_t length, nodes, node, at;
	uint64_t start, end;
	uint32_t step;

	at = fread(bytes, 1, sizeof bytes, stdin);
	if (!accepted(gormulast_read(bytes, at, table, GORMULAST_MAX_TABLE, &start, &end)))
		return 1;
	length = (size_t)(end - start) / 7;
	nodes = table[length - 4];
	for (at = 0; at <= MATRIX; at++)
		p[at] = a[at] = NONE;
	if (!accepted(gormulast_build(table, length, p, MATRIX, a, MATRIX, factor, MATRIX, work, MATRIX, starts, nodes)))
		return 1;
	print('P', p, nodes);
	print('A', a, nodes);
	for (node = 0; node < nodes; node++)
		temperatures[node] = table[2];
	for (at = 1; at + 1 < (size_t)words; at += 2) {
		node = strtoul(word[at], NULL, 10);
		if (node < 1 || node > nodes)
			return 2;
		temperatures[node - 1] = strtoll(word[at + 1], NULL, 10);
	}
	for (step = 0; step < table[3]; step++)
		if (!accepted(gormulast_step(table, length, p, MATRIX, a, MATRIX, factor, MATRIX, starts, nodes,
					     temperatures, nodes, carried, nodes)))
			return 1;
	for (node = 0; node < nodes; node++)
		printf("T %zu %lld\n", node + 1, (long long)temperatures[node]);
	printf("Z %u %zu\n", table[3], nodes);
	return 0;
}
