// SPDX-License-Identifier: GPL-2.0-only OR MIT
#define _GNU_SOURCE
#include "lent.h"
#include <setjmp.h>
#include <signal.h>
#include <stdio.h>
#include <stdlib.h>
#include <string.h>
#include <sys/mman.h>
#include <unistd.h>

enum { FENCE = 64, MARK = 0xA5, WIDE = 256 };

static size_t page(void)
{
	return (size_t)sysconf(_SC_PAGESIZE);
}

static void *must(void *mapped, const char *what)
{
	if (mapped != MAP_FAILED)
		return mapped;
	perror(what);
	exit(2);
}

/* Guard, sight to write, guard, sight to read, guard: a guard is many pages wide, so that a place far off meets it too. */
void arena_lay(struct arena *arena, size_t bytes)
{
	size_t guard = WIDE * page();
	unsigned char *all;
	int file = memfd_create("lent", 0);

	arena->bytes = (bytes + FENCE + page() - 1) / page() * page();
	if (file < 0 || ftruncate(file, (off_t)arena->bytes)) {
		perror("guards: memory");
		exit(2);
	}
	all = must(mmap(NULL, 3 * guard + 2 * arena->bytes, PROT_NONE, MAP_PRIVATE | MAP_ANONYMOUS | MAP_NORESERVE, -1, 0), "guards: pages");
	arena->write = must(mmap(all + guard, arena->bytes, PROT_READ | PROT_WRITE, MAP_SHARED | MAP_FIXED, file, 0), "guards: write");
	arena->read = must(mmap(all + 2 * guard + arena->bytes, arena->bytes, PROT_READ, MAP_SHARED | MAP_FIXED, file, 0), "guards: read");
	close(file);
}

/* Where the fence begins. */
static size_t fence(const struct arena *arena, const struct slice *slice)
{
	return slice->ends ? arena->bytes - slice->bytes - FENCE : slice->bytes;
}

void arena_lend(const struct arena *arena, struct slice *slice, const void *from, size_t length, size_t size, bool write, bool ends)
{
	size_t at;

	slice->length = length;
	slice->bytes = length * size;
	slice->ends = ends;
	at = ends ? arena->bytes - slice->bytes : 0;
	slice->own = arena->write + at;
	slice->at = (write ? arena->write : arena->read) + at;
	memset(arena->write + fence(arena, slice), MARK, FENCE);
	memcpy(slice->own, from, slice->bytes);
}

bool arena_fenced(const struct arena *arena, const struct slice *slice)
{
	const unsigned char *marks = arena->write + fence(arena, slice);

	return marks[0] == MARK && !memcmp(marks, marks + 1, FENCE - 1);
}

const char *arena_place(const struct arena *arena, const struct slice *slice, const unsigned char *address)
{
	static char words[96];
	const unsigned char *first = slice->at, *end = slice->at + slice->bytes;
	size_t reach = WIDE * page();

	if (address >= first && address < end)
		return "inside it, where it is lent to be read alone";
	if (address >= end && (size_t)(address - end) < reach + arena->bytes)
		snprintf(words, sizeof words, "byte %zu past its end", (size_t)(address - end) + 1);
	else if (address < first && (size_t)(first - address) <= reach + arena->bytes)
		snprintf(words, sizeof words, "byte %zu before its start", (size_t)(first - address));
	else
		return NULL;
	return words;
}

static sigjmp_buf back;

static void jump_back(int number)
{
	siglongjmp(back, number);
}

/* Whether to read, or to write, one byte is a fault. */
static bool faults(volatile unsigned char *byte, bool write)
{
	struct sigaction action = { .sa_handler = jump_back }, segv, bus;
	volatile bool fault = true;

	sigaction(SIGSEGV, &action, &segv);
	sigaction(SIGBUS, &action, &bus);
	if (!sigsetjmp(back, 1)) {
		if (write)
			*byte = 1;
		else
			(void)*byte;
		fault = false;
	}
	sigaction(SIGSEGV, &segv, NULL);
	sigaction(SIGBUS, &bus, NULL);
	return fault;
}

bool arena_guards(const struct arena *arena)
{
	return faults(arena->write - 1, false) && faults(arena->write + arena->bytes, false) && faults(arena->read - 1, false) &&
	       faults(arena->read + arena->bytes, false) && faults(arena->read, true) && !faults(arena->write, true) &&
	       !faults(arena->read, false);
}
