// SPDX-License-Identifier: GPL-2.0-only OR MIT
/* Calls with buffers of any length and content: short, foreign, damaged.
 *
 *   /dev/lent   written: cases, one after another, done when the file is closed; read: the same bytes as the calls left them
 *
 * The buffers of a case lie side by side, so a number written outside of one is seen in the next.
 */
#include <linux/fs.h>
#include <linux/miscdevice.h>
#include <linux/module.h>
#include <linux/uaccess.h>
#include <linux/vmalloc.h>
#include <gormulast.h>

#define ROOM (8 << 20)

enum { CALL_READ, CALL_WRITE, CALL_BUILD, CALL_REPLACE, CALL_STEP };
enum { P, A, FACTOR, WORK, TEMPERATURES, CARRIED, TABLE, STARTS, BYTES, BUFFERS };

/* Then the buffers in their order, the last one filled up to a multiple of 8 bytes. */
struct lent {
	uint64_t answer, start, end;
	uint32_t call, card, new[GORMULAST_CARD_NUMBERS];
	uint32_t lengths[BUFFERS], unused; /* so that it has a multiple of 8 bytes */
};

static uint8_t *bytes;
static size_t length;

static size_t size_of(int buffer)
{
	return buffer < TABLE ? 8 : buffer < BYTES ? 4 : 1;
}

static uint64_t answer_of(struct lent *lent, void **at)
{
	const uint32_t *n = lent->lengths, *new = lent->new;

	switch (lent->call) {
	case CALL_READ:
		return gormulast_read(at[BYTES], n[BYTES], at[TABLE], n[TABLE], &lent->start, &lent->end);
	case CALL_WRITE:
		return gormulast_write(at[TABLE], n[TABLE], at[BYTES], n[BYTES]);
	case CALL_BUILD:
		return gormulast_build(at[TABLE], n[TABLE], at[P], n[P], at[A], n[A], at[FACTOR], n[FACTOR], at[WORK], n[WORK],
				       at[STARTS], n[STARTS]);
	case CALL_REPLACE:
		return gormulast_replace(at[TABLE], n[TABLE], at[P], n[P], at[A], n[A], at[FACTOR], n[FACTOR], at[WORK], n[WORK],
					 at[STARTS], n[STARTS], lent->card, new[0], new[1], new[2], new[3], new[4], new[5]);
	case CALL_STEP:
		return gormulast_step(at[TABLE], n[TABLE], at[P], n[P], at[A], n[A], at[FACTOR], n[FACTOR], at[STARTS], n[STARTS],
				      at[TEMPERATURES], n[TEMPERATURES], at[CARRIED], n[CARRIED]);
	}
	return U64_MAX;
}

/* Does the first case of so many bytes; how many are left after it, or -1 where they are no case. */
static ssize_t done(uint8_t *from, size_t left)
{
	struct lent *lent = (struct lent *)from;
	void *at[BUFFERS];
	size_t next = sizeof(*lent);
	int i;

	if (left < next)
		return -1;
	for (i = 0; i < BUFFERS; i++) {
		at[i] = from + next;
		next += lent->lengths[i] * size_of(i);
	}
	next = ALIGN(next, 8);
	if (left < next)
		return -1;
	lent->answer = answer_of(lent, at);
	return left - next;
}

static ssize_t lent_write(struct file *file, const char __user *from, size_t count, loff_t *at)
{
	if (*at == 0)
		length = 0;
	if (count > ROOM - length || copy_from_user(bytes + length, from, count))
		return -EFAULT;
	length += count;
	*at += count;
	return count;
}

static int lent_release(struct inode *inode, struct file *file)
{
	ssize_t left = file->f_mode & FMODE_WRITE ? length : 0;

	while (left > 0)
		left = done(bytes + length - left, left);
	if (left < 0)
		length = 0;
	return 0;
}

static ssize_t lent_read(struct file *file, char __user *to, size_t count, loff_t *at)
{
	return simple_read_from_buffer(to, count, at, bytes, length);
}

static const struct file_operations lent_file = {
	.owner = THIS_MODULE,
	.read = lent_read,
	.write = lent_write,
	.release = lent_release,
};

static struct miscdevice device = {
	.minor = MISC_DYNAMIC_MINOR,
	.name = "lent",
	.fops = &lent_file,
	.mode = 0600,
};

static int __init lent_load(void)
{
	int error;

	bytes = vzalloc(ROOM);
	if (!bytes)
		return -ENOMEM;
	error = misc_register(&device);
	if (error)
		vfree(bytes);
	return error;
}
module_init(lent_load);

static void __exit lent_unload(void)
{
	misc_deregister(&device);
	vfree(bytes);
}
module_exit(lent_unload);

MODULE_DESCRIPTION("Lends the calls of gormulast.h anything, for tests");
MODULE_LICENSE("Dual MIT/GPL");
