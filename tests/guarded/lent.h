/* SPDX-License-Identifier: GPL-2.0-only OR MIT */
/* Slices to lend, one end of which lies at a page that can't be touched. */
#ifndef LENT_H
#define LENT_H

#include <stdbool.h>
#include <stddef.h>

/* Memory of whole pages, seen twice, each time between pages that can't be touched: once to write, once to read alone. */
struct arena {
	unsigned char *write, *read;
	size_t bytes;
};

/* What a call is lent. */
struct slice {
	unsigned char *at; /* in one of the two sights */
	size_t length;     /* in numbers */
	size_t bytes;
	bool ends;         /* it ends at the page; else it begins there */
	unsigned char *own; /* the same bytes, to write */
};

/* Room for so many bytes and a fence. */
void arena_lay(struct arena *arena, size_t bytes);

/* Lends a copy of the bytes, with a fence of marks at the end where no page is. */
void arena_lend(const struct arena *arena, struct slice *slice, const void *from, size_t length, size_t size, bool write, bool ends);

/* The fence is whole. */
bool arena_fenced(const struct arena *arena, const struct slice *slice);

/* Where an address lies, in words of the arena's slice, or null where it is none of the arena's. */
const char *arena_place(const struct arena *arena, const struct slice *slice, const unsigned char *address);

/* Each touch that must be a fault is one, and no other. */
bool arena_guards(const struct arena *arena);

#endif
