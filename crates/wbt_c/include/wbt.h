/*
 * The laws of dirty page throttling, for callers in C. Link with libwbt.a, which tools/make-c makes.
 *
 * Units: a page has 4096 bytes; a tick is a millisecond; rates are pages a second; a position ratio is a number of 1024ths.
 * docs/LAWS.md has each formula, and crates/wbt_c/src the contract of each call: when it returns WBT_OK, and what it then has written.
 *
 * A call takes no memory, keeps nothing between calls, blocks nowhere, and may be made by any thread. It tests what it is given: it returns
 * WBT_OK and has written its result, or it returns another status, of the first test that fails, and has written nothing.
 *
 * What no call tests, and the caller keeps to:
 *   - each pointer is that of a whole struct or number of its type, aligned for it, and not null;
 *   - what a call writes is reached through no other pointer of the same call, and no other thread reads or writes it meanwhile;
 *   - what a call only reads (a pointer to const) nobody writes meanwhile.
 */
#ifndef WBT_H
#define WBT_H

#include <stdint.h>

#ifdef __cplusplus
extern "C" {
#endif

enum wbt_status {
	WBT_OK = 0,
	WBT_BAD_CPUS = 1,	/* cpus isn't 1 to 64 */
	WBT_BAD_CAP = 2,	/* cap isn't 1 to 1024 */
	WBT_BAD_NOW = 3,	/* the moment is 2^62 or more */
	WBT_BAD_WRITER = 4,	/* a writer's or a CPU's count of pages is 2^52 or more, or their sum */
	WBT_BAD_ESTIMATE = 5,	/* avg isn't 1 to 2^44 - 1, ratelimit is 0, or the estimate isn't sound */
	WBT_BAD_CONTEXT = 6,	/* wb_dirty is 2^33 or more */
	WBT_BAD_DOMAIN = 7,	/* not bg <= thresh <= hard <= 4294967295 */
	WBT_BAD_FLAG = 8,	/* a flag is neither 0 nor 1 */
	WBT_BAD_CGROUP = 9,	/* as WBT_BAD_DOMAIN, of the cgroup's domain */
	WBT_BAD_PART = 10,	/* on a strict device: a wb_thresh is above its domain's thresh */
	WBT_BAD_SETTINGS = 11,	/* a percentage is above 100, or a number of bytes above 2^48 */
	WBT_BAD_SAMPLE = 12,	/* a total is 2^40 or more, the ratio 2^32 or more, the moment 2^62 or more, or the flag above 1 */
	WBT_BAD_WRITERS = 13,	/* more than 1024 writers */
	WBT_BAD_CONTEXTS = 14,	/* more than 64 contexts */
	WBT_BAD_LIMIT = 15,	/* a limit above 4294967295 */
	WBT_TOO_EARLY = 16,	/* fewer than 200 ticks since the estimate */
	WBT_BAD_FRACTION = 17,	/* den isn't 1 to 2^41 - 1, or num is greater */
	WBT_BAD_SHARES = 18,	/* sum_min or max is above 100, or min above max */
	WBT_BAD_PAGES = 19	/* filepages or headroom is above 2^40 */
};

enum wbt_kind {
	WBT_FREE = 0,		/* go on at once */
	WBT_GO = 1,		/* go on after the pause */
	WBT_EXEMPT = 2,		/* go on after the pause, since the context has so few pages */
	WBT_WAIT = 3		/* ask again after the pause */
};

struct wbt_domain {
	uint64_t thresh, bg, hard;	/* limits of the domain, pages */
	uint64_t dirty;			/* its dirty pages, those under writeback among them */
	uint64_t wb_thresh;		/* the context's part of thresh, pages */
};

struct wbt_writer {
	uint64_t nr_dirtied;		/* pages dirtied since the last pause */
	uint64_t nr_dirtied_pause;	/* allowance: pages before the next check */
	uint64_t paused_when;		/* the tick at which the last pause ended; 0: none yet */
};

struct wbt_check {
	struct wbt_domain global;
	struct wbt_domain cgroup;	/* read where has_cgroup is 1 */
	uint64_t has_cgroup;		/* 0 or 1 */
	uint64_t wb_dirty;		/* the context's dirty pages, those under writeback among them */
	uint64_t cpus;			/* 1 to 64 */
	uint64_t cap;			/* the most pages left to a writer, 1 to 1024 */
	uint64_t avg;			/* average bandwidth, pages a second */
	uint64_t ratelimit;		/* rate limit of the context's writers, pages a second */
	struct wbt_writer writer;
	uint64_t now;			/* ticks */
};

struct wbt_decision {
	uint64_t kind;			/* enum wbt_kind */
	uint64_t pause;			/* ticks, at most 200 */
	uint64_t left;			/* pages that the writer may dirty then, at most cap; 0 for WBT_WAIT */
	struct wbt_writer writer;	/* its numbers after the check */
	uint64_t exceeded;		/* 1 where the context is over its threshold: hand it to wbt_page_done */
};

struct wbt_settings {
	uint64_t ratio, bg_ratio;	/* percent of the available pages, 0 to 100 */
	uint64_t bytes, bg_bytes;	/* replace the percentages where they aren't 0, at most 2^48 */
};

struct wbt_thresholds {
	uint64_t thresh, bg;		/* pages */
};

struct wbt_share {
	uint64_t num, den;		/* the context's fraction of completed writes, num / den */
	uint64_t sum_min;		/* the least shares of all devices together, percent */
	uint64_t min, max;		/* the least and the greatest share of the context's device, percent */
};

struct wbt_estimate {
	uint64_t version;
	uint64_t bw, avg, ratelimit, balanced;		/* pages a second */
	uint64_t written_stamp, dirtied_stamp;		/* pages */
	uint64_t at;					/* ticks */
};

struct wbt_sample {
	uint64_t now;			/* ticks */
	uint64_t written, dirtied;	/* pages, in all */
	uint64_t ratio;			/* position ratio, 1024ths */
	uint64_t below_setpoint;	/* 0 or 1: whether the domain's dirty pages are below its setpoint */
};

struct wbt_least {
	uint64_t pages;			/* the allowance after a pause */
	uint64_t pause;			/* ticks: a shorter pause isn't made */
};

struct wbt_counts {
	uint64_t since_check;		/* pages that the CPU's writers dirtied since it counted anew */
	uint64_t leaks;			/* pages of writers that ended */
};

/* What a check decides about a writer, where its device isn't strict, and where it is. */
uint32_t wbt_decide(const struct wbt_check *check, struct wbt_decision *out);
uint32_t wbt_strict_decide(const struct wbt_check *check, struct wbt_decision *out);

/* Thresholds of the global domain, and of a cgroup's where the machine has global_avail pages. The first hard limit is thresh. */
uint32_t wbt_global_thresholds(uint64_t avail, const struct wbt_settings *settings, struct wbt_thresholds *out);
uint32_t wbt_cgroup_thresholds(uint64_t avail, uint64_t global_avail, const struct wbt_settings *settings, struct wbt_thresholds *out);

/*
 * Available pages of a cgroup: its file pages, of which so many are dirty, and of the machine's clean pages elsewhere as many as may still be
 * charged to it.
 */
uint32_t wbt_cgroup_available(uint64_t filepages, uint64_t headroom, uint64_t dirty, uint64_t global_avail,
			      uint64_t global_dirty, uint64_t *out);

/* The part of a context in the threshold of its domain, and in the background threshold bg: as context_thresh is to thresh. */
uint32_t wbt_context_threshold(uint64_t thresh, const struct wbt_share *share, uint64_t *out);
uint32_t wbt_context_background(uint64_t context_thresh, uint64_t bg, uint64_t thresh, uint64_t *out);

/* The hard limit that follows limit; up to which page writers are free; and where the control holds the domain. No number is refused. */
uint64_t wbt_followed_limit(uint64_t limit, uint64_t thresh, uint64_t dirty);
uint64_t wbt_freerun(const struct wbt_domain *domain);
uint64_t wbt_setpoint(const struct wbt_domain *domain);

/* Position ratios, in 1024ths. */
uint32_t wbt_ratio(const struct wbt_domain *domain, uint64_t wb_dirty, uint64_t avg, uint64_t *out);
uint32_t wbt_strict_ratio(const struct wbt_domain *domain, uint64_t wb_dirty, uint64_t *out);

/* The estimate at the start, and its update by a sample, at least 200 ticks after the last. */
uint32_t wbt_first_estimate(uint64_t now, struct wbt_estimate *out);
uint32_t wbt_update_estimate(struct wbt_estimate *estimate, const struct wbt_sample *sample);

/* Longest pause in ticks, least pause of a writer that may dirty rate pages a second, and pages of a free writer before its next check. */
uint32_t wbt_longest_pause(uint64_t wb_dirty, uint64_t avg, uint64_t *out);
uint32_t wbt_least_pause(uint64_t wb_dirty, uint64_t avg, uint64_t ratelimit, uint64_t rate, struct wbt_least *out);
uint64_t wbt_poll_interval(uint64_t thresh, uint64_t dirty);

/* When a writer's check is due. After each page that it dirtied: wbt_page_done. Where it ends: wbt_end_writer. */
void wbt_first_writer(struct wbt_writer *out);
uint32_t wbt_ratelimit_pages(uint64_t thresh, uint32_t cpus, uint64_t *out);
uint32_t wbt_page_done(struct wbt_counts *counts, struct wbt_writer *writer, uint64_t left, uint64_t exceeded,
		       uint64_t ratelimit_pages, uint64_t *due);
uint32_t wbt_end_writer(struct wbt_counts *counts, const struct wbt_writer *writer);

/*
 * The error of a context's reading, the bound of a domain with its greatest hard limit, and of a context of a strict device with the greatest
 * of its thresholds. A bound is one of a system that counts and grants as docs/LAWS.md says: wbt_bound computes the number.
 */
uint32_t wbt_error(uint32_t cpus, uint64_t *out);
uint32_t wbt_bound(uint64_t hard, uint32_t cpus, uint64_t writers, uint64_t cap, uint64_t contexts, uint64_t *out);
uint32_t wbt_strict_context_bound(uint64_t most, uint32_t cpus, uint64_t writers, uint64_t cap, uint64_t *out);

#ifdef __cplusplus
}
#endif

#endif
