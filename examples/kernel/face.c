// SPDX-License-Identifier: GPL-2.0-only OR MIT
/* One model of a board, for all who may open its files.
 *
 *   /dev/gormulast                       written: a deck, taken when the file is closed; read: the deck as it stands
 *   /sys/class/misc/gormulast/replace    written: a card's number, its letter's ASCII code, its five fields
 *   /sys/class/misc/gormulast/steps      written: how many steps to take, 1 to 100,000; the first refusal ends them
 *   /sys/class/misc/gormulast/temperatures   read: ticks, one number for each node
 *   /sys/class/misc/gormulast/carried    read: what the last step left to the next, one number for each node
 *   /sys/class/misc/gormulast/zones      written: the band edges in ticks, then the nodes of each zone, a ';' before each zone: as
 *                                        "19595264 19660800;1 2 3;4 5"; a new deck has no zones
 *   /sys/class/misc/gormulast/bands      read: of each zone the band of its coldest node
 *   /sys/class/misc/gormulast/answer     read: the last answer, in plain words
 *
 * A write that is not such numbers fails and leaves the last answer. All memory is taken once, when the module is loaded: for any
 * deck, or with numbers=N for those whose matrices keep at most N, which tools/number tells.
 */
#include <linux/miscdevice.h>
#include <linux/mm.h>
#include <linux/module.h>
#include <linux/mutex.h>
#include <linux/sched/signal.h>
#include <linux/slab.h>
#include <linux/string.h>
#include <linux/sysfs.h>
#include <linux/uaccess.h>
#include "model.h"
#include "words.h"

#define MOST_STEPS 100000

static unsigned int numbers = MOST_NUMBERS;
module_param(numbers, uint, 0444);
MODULE_PARM_DESC(numbers, "how many numbers a matrix may keep; a deck that needs more is refused");

static struct board {
	struct mutex lock; /* over all that follows */
	struct model model;
	uint64_t answer; /* the last one */
	uint32_t steps;  /* that it came after, where it is a step's */
	bool open;       /* the bytes are someone's */
	size_t length;   /* of the bytes */
	struct zones asked; /* zones not yet accepted */
	uint8_t bytes[GORMULAST_MAX_BYTES + 1]; /* one more than a deck may have, to see that it is too long */
} *board;

static void answered(uint64_t answer, uint32_t steps)
{
	board->answer = answer;
	board->steps = steps;
}

/* ---- the deck */

/* One at a time, to read or to write. A reader gets the deck as it stands now. */
static int deck_open(struct inode *inode, struct file *file)
{
	int error = 0;

	mutex_lock(&board->lock);
	if (board->open) {
		error = -EBUSY;
	} else if ((file->f_flags & O_ACCMODE) == O_RDWR) {
		error = -EINVAL;
	} else {
		board->open = true;
		board->length = file->f_mode & FMODE_READ ?
			model_bytes(&board->model, board->bytes, sizeof(board->bytes)) : 0;
	}
	mutex_unlock(&board->lock);
	return error;
}

static ssize_t deck_read(struct file *file, char __user *to, size_t count, loff_t *at)
{
	ssize_t got;

	mutex_lock(&board->lock);
	got = simple_read_from_buffer(to, count, at, board->bytes, board->length);
	mutex_unlock(&board->lock);
	return got;
}

/* Adds to the bytes. Those for which there is no room are let go: the length alone then refuses the deck. */
static ssize_t deck_write(struct file *file, const char __user *from, size_t count, loff_t *at)
{
	ssize_t taken = count;
	size_t kept;

	mutex_lock(&board->lock);
	kept = min(count, sizeof(board->bytes) - board->length);
	if (copy_from_user(board->bytes + board->length, from, kept))
		taken = -EFAULT;
	else
		board->length += kept;
	mutex_unlock(&board->lock);
	return taken;
}

static int deck_release(struct inode *inode, struct file *file)
{
	mutex_lock(&board->lock);
	if (file->f_mode & FMODE_WRITE)
		answered(model_deck(&board->model, board->bytes, board->length), 0);
	board->open = false;
	mutex_unlock(&board->lock);
	return 0;
}

static const struct file_operations deck_file = {
	.owner = THIS_MODULE,
	.open = deck_open,
	.read = deck_read,
	.write = deck_write,
	.release = deck_release,
};

/* ---- the rest */

/* Exactly so many numbers, a blank between two. */
static int numbers_of(const char *text, uint32_t *numbers, size_t count)
{
	char line[96], *rest = line, *word;
	size_t i;

	if (strscpy(line, text, sizeof(line)) < 0)
		return -EINVAL;
	for (i = 0; i < count; i++) {
		word = strsep(&rest, " ");
		if (!word || kstrtou32(word, 10, &numbers[i]))
			return -EINVAL;
	}
	return rest ? -EINVAL : 0;
}

static ssize_t replace_store(struct device *device, struct device_attribute *attribute, const char *text, size_t count)
{
	uint32_t numbers[1 + GORMULAST_CARD_NUMBERS];
	int error = numbers_of(text, numbers, ARRAY_SIZE(numbers));

	if (error)
		return error;
	mutex_lock(&board->lock);
	answered(model_replace(&board->model, numbers[0], numbers + 1), 0);
	mutex_unlock(&board->lock);
	return count;
}
static DEVICE_ATTR_WO(replace);

static ssize_t steps_store(struct device *device, struct device_attribute *attribute, const char *text, size_t count)
{
	uint32_t wanted, done = 0;
	uint64_t answer;
	int error = numbers_of(text, &wanted, 1);

	if (error)
		return error;
	if (wanted < 1 || wanted > MOST_STEPS)
		return -EINVAL;
	mutex_lock(&board->lock);
	do {
		answer = model_step(&board->model);
		if (GORMULAST_NUMBER(answer))
			break;
		done++;
		cond_resched();
	} while (done < wanted && !fatal_signal_pending(current));
	answered(answer, done);
	mutex_unlock(&board->lock);
	return count;
}
static DEVICE_ATTR_WO(steps);

/* Numbers up to the end of a list, with one blank between two; how many, or -1 where they are more than there is room for or no numbers. */
static int list_of(char *list, uint32_t *numbers, size_t room)
{
	size_t count = 0;
	char *word;

	while (list && *list && (word = strsep(&list, " "))) {
		if (count == room || kstrtou32(word, 10, &numbers[count++]))
			return -1;
	}
	return count;
}

/* Lists, a ';' between two: the edges first, then each zone's nodes. */
static int zones_of(char *text, struct zones *zones)
{
	char *list = strsep(&text, ";");
	int count = list_of(list, zones->edges, ARRAY_SIZE(zones->edges));

	zones->edged = count;
	zones->zones = zones->placed = 0;
	while (count >= 0 && (list = strsep(&text, ";"))) {
		if (zones->zones == ARRAY_SIZE(zones->counts))
			return -EINVAL;
		count = list_of(list, zones->members + zones->placed, ARRAY_SIZE(zones->members) - zones->placed);
		if (count < 0)
			break;
		zones->counts[zones->zones++] = count;
		zones->placed += count;
	}
	return count < 0 ? -EINVAL : 0;
}

/* Text that is no such lists leaves the zones and the last answer. */
static ssize_t zones_store(struct device *device, struct device_attribute *attribute, const char *text, size_t count)
{
	char *copy = kstrndup(text, count, GFP_KERNEL), *rest = copy;
	int error;

	if (!copy)
		return -ENOMEM;
	mutex_lock(&board->lock);
	error = zones_of(strsep(&rest, "\n"), &board->asked);
	if (!error)
		answered(model_zones(&board->model, &board->asked), 0);
	mutex_unlock(&board->lock);
	kfree(copy);
	return error ? error : count;
}
static DEVICE_ATTR_WO(zones);

static ssize_t bands_show(struct device *device, struct device_attribute *attribute, char *page)
{
	size_t zone;
	int at = 0;

	mutex_lock(&board->lock);
	for (zone = 0; zone < board->model.zones.zones; zone++)
		at += sysfs_emit_at(page, at, "%s%u", zone ? " " : "", board->model.summary[3 * zone + 2]);
	mutex_unlock(&board->lock);
	return at + sysfs_emit_at(page, at, "\n");
}
static DEVICE_ATTR_RO(bands);

/* One for each node. */
static ssize_t show_numbers(const int64_t *numbers, char *page)
{
	size_t node;
	int at = 0;

	mutex_lock(&board->lock);
	for (node = 0; node < board->model.nodes; node++)
		at += sysfs_emit_at(page, at, "%s%lld", node ? " " : "", numbers[node]);
	mutex_unlock(&board->lock);
	return at + sysfs_emit_at(page, at, "\n");
}

static ssize_t temperatures_show(struct device *device, struct device_attribute *attribute, char *page)
{
	return show_numbers(board->model.temperatures, page);
}
static DEVICE_ATTR_RO(temperatures);

static ssize_t carried_show(struct device *device, struct device_attribute *attribute, char *page)
{
	return show_numbers(board->model.carried, page);
}
static DEVICE_ATTR_RO(carried);

static ssize_t answer_show(struct device *device, struct device_attribute *attribute, char *page)
{
	int at;

	mutex_lock(&board->lock);
	at = words_of(board->answer, page, PAGE_SIZE);
	if (board->steps)
		at += sysfs_emit_at(page, at, ", steps %u", board->steps);
	mutex_unlock(&board->lock);
	return at + sysfs_emit_at(page, at, "\n");
}
static DEVICE_ATTR_RO(answer);

static struct attribute *board_attrs[] = {
	&dev_attr_replace.attr,
	&dev_attr_steps.attr,
	&dev_attr_temperatures.attr,
	&dev_attr_carried.attr,
	&dev_attr_zones.attr,
	&dev_attr_bands.attr,
	&dev_attr_answer.attr,
	NULL,
};
ATTRIBUTE_GROUPS(board);

static struct miscdevice device = {
	.minor = MISC_DYNAMIC_MINOR,
	.name = "gormulast",
	.fops = &deck_file,
	.groups = board_groups,
	.mode = 0600,
};

static int __init board_load(void)
{
	int error = -ENOMEM;
	int64_t *matrices;

	if (numbers < 1 || numbers > MOST_NUMBERS)
		return -EINVAL;
	board = kvzalloc(sizeof(*board), GFP_KERNEL);
	matrices = kvcalloc(MATRICES * numbers, sizeof(*matrices), GFP_KERNEL);
	if (!board || !matrices)
		goto free;
	model_lend(&board->model, matrices, numbers);
	mutex_init(&board->lock);
	board->answer = U64_MAX; /* none yet */
	error = misc_register(&device);
	if (!error)
		return 0;
free:
	kvfree(matrices);
	kvfree(board);
	return error;
}
module_init(board_load);

static void __exit board_unload(void)
{
	misc_deregister(&device);
	kvfree(board->model.p); /* and the other matrices, which lie behind it */
	kvfree(board);
}
module_exit(board_unload);

MODULE_DESCRIPTION("A heat model of a board, in whole numbers");
MODULE_LICENSE("Dual MIT/GPL");
