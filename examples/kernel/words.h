/* SPDX-License-Identifier: GPL-2.0-only OR MIT */
#ifndef WORDS_H
#define WORDS_H

#include <gormulast.h>

/* An answer in plain words, without a newline: "accepted", "accepted, corrections 2", "refused 7: row 3 of the factor
 * has a pivot under 16". Gives how many bytes it has. */
int words_of(uint64_t answer, char *words, size_t room);

#endif
