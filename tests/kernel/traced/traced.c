// SPDX-License-Identifier: GPL-2.0-only OR MIT
/* Stack traces from inside the module gormulast: at each place one, when it is first reached. The kernel's log has them once this
 * is unloaded, the innermost function first.
 *
 *     insmod traced.ko places=gormulast_step+12,gormulast_write+60
 */
#include <linux/kernel.h>
#include <linux/kprobes.h>
#include <linux/module.h>
#include <linux/stacktrace.h>
#include <linux/string.h>

#define MOST 512 /* the text has some 130; with a longer list the kernel refuses to load this, so that none is left out */
#define DEEP 40

static char *places[MOST];
static int count;
module_param_array(places, charp, &count, 0);

static struct place {
	struct kprobe probe;
	char name[64];
	unsigned long trace[DEEP];
	unsigned int depth;
} found[MOST];

static int reached(struct kprobe *probe, struct pt_regs *regs)
{
	struct place *place = container_of(probe, struct place, probe);

	if (!place->depth)
		place->depth = stack_trace_save(place->trace, DEEP, 0);
	return 0;
}

/* With it a probe stays a plain trap. */
static void passed(struct kprobe *probe, struct pt_regs *regs, unsigned long flags)
{
}

static int watch(struct place *place, const char *words)
{
	const char *plus = strchrnul(words, '+');

	scnprintf(place->name, sizeof(place->name), "gormulast:%.*s", (int)(plus - words), words);
	place->probe.symbol_name = place->name;
	place->probe.pre_handler = reached;
	place->probe.post_handler = passed;
	if (!*plus || kstrtouint(plus + 1, 10, &place->probe.offset))
		return -EINVAL;
	return register_kprobe(&place->probe);
}

static void tell(const struct place *place)
{
	static char line[900];
	size_t at = 0;
	unsigned int i;

	for (i = 0; i < place->depth; i++)
		at += scnprintf(line + at, sizeof(line) - at, " %ps", (void *)place->trace[i]);
	if (place->depth)
		pr_info("trace:%s\n", line);
}

static int __init traced_load(void)
{
	int i, error;

	for (i = 0; i < count; i++) {
		error = watch(&found[i], places[i]);
		if (error) {
			while (i-- > 0)
				unregister_kprobe(&found[i].probe);
			return error;
		}
	}
	return 0;
}
module_init(traced_load);

static void __exit traced_unload(void)
{
	int i;

	for (i = 0; i < count; i++) {
		unregister_kprobe(&found[i].probe);
		tell(&found[i]);
	}
}
module_exit(traced_unload);

MODULE_DESCRIPTION("Stack traces from inside the module gormulast, for tests");
MODULE_LICENSE("Dual MIT/GPL");
