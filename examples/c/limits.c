/*
 * The limits of a machine with one cgroup, and of one context in both of its domains, as they come of memory, settings and completed writes.
 *
 * Words: the machine's available pages, the cgroup's file pages, the pages that may still be charged to it, and the context's part of the
 * completed writes in percent. Where a number is refused it says by which call and status, and its status is 1.
 */
#include <errno.h>
#include <inttypes.h>
#include <stdio.h>
#include <stdlib.h>

#include "wbt.h"

static int told(uint32_t status, const char *call)
{
	if (status != WBT_OK)
		fprintf(stderr, "%s: status %" PRIu32 "\n", call, status);
	return status == WBT_OK;
}

/* A domain's line: its thresholds, and the context's part of them. */
static int print_domain(const char *name, uint64_t avail, const struct wbt_thresholds *domain, const struct wbt_share *share)
{
	uint64_t part, background;

	if (!told(wbt_context_threshold(domain->thresh, share, &part), "wbt_context_threshold"))
		return 0;
	if (!told(wbt_context_background(part, domain->bg, domain->thresh, &background), "wbt_context_background"))
		return 0;
	printf("%s available %" PRIu64 " threshold %" PRIu64 " background %" PRIu64 " context %" PRIu64 " background %" PRIu64 "\n", name, avail,
	       domain->thresh, domain->bg, part, background);
	return 1;
}

static int number(const char *word, uint64_t *out)
{
	char *end;

	errno = 0;
	*out = strtoull(word, &end, 10);
	return !errno && *word >= '0' && *word <= '9' && !*end;
}

int main(int count, char **words)
{
	const struct wbt_settings settings = { .ratio = 20, .bg_ratio = 10 };
	struct wbt_share share = { .den = 100, .max = 100 };
	struct wbt_thresholds global, cgroup;
	uint64_t avail, filepages, headroom, available;

	if (count != 5 || !number(words[1], &avail) || !number(words[2], &filepages) || !number(words[3], &headroom)
	    || !number(words[4], &share.num)) {
		fprintf(stderr, "usage: limits AVAIL FILEPAGES HEADROOM PERCENT\n");
		return 2;
	}
	if (!told(wbt_global_thresholds(avail, &settings, &global), "wbt_global_thresholds"))
		return 1;
	if (!told(wbt_cgroup_available(filepages, headroom, 0, avail, 0, &available), "wbt_cgroup_available"))
		return 1;
	if (!told(wbt_cgroup_thresholds(available, avail, &settings, &cgroup), "wbt_cgroup_thresholds"))
		return 1;
	return !print_domain("machine", avail, &global, &share) || !print_domain("cgroup", available, &cgroup, &share);
}
