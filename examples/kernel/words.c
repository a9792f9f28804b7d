// SPDX-License-Identifier: GPL-2.0-only OR MIT
#include <linux/kernel.h>
#include "words.h"

int words_of(uint64_t answer, char *words, size_t room)
{
	unsigned int number = GORMULAST_NUMBER(answer), corrections = GORMULAST_CORRECTIONS(answer);
	int length;

	if (number) {
		length = scnprintf(words, room, "refused %u: ", number);
		return length + scnprintf(words + length, room - length, gormulast_words(number), GORMULAST_PLACE(answer));
	}
	if (corrections)
		return scnprintf(words, room, "accepted, corrections %u", corrections);
	return scnprintf(words, room, "accepted");
}
