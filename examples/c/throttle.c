/*
 * A writer and a flusher of one file, throttled by libwbt.a. The writer dirties pages of a new file in the current folder as fast as it is let;
 * a flusher thread has them written, at a bounded rate. The writer asks for a decision where its check is due, and pauses by it.
 *
 * Words: the number of pages (1 to 65536), the flusher's rate in pages a second (1 to 65536). It ends by itself, prints what it did, and its
 * status is 1 where more pages were dirty than the bound says or a call failed.
 */
#define _POSIX_C_SOURCE 200809L
#include <errno.h>
#include <fcntl.h>
#include <inttypes.h>
#include <pthread.h>
#include <stdio.h>
#include <stdlib.h>
#include <string.h>
#include <time.h>
#include <unistd.h>

#include "wbt.h"

#define PAGE 4096
#define AVAIL 4000	/* available pages of the machine that is played: its threshold is some 800 */
#define CAP 64
#define BATCH 64	/* pages that the flusher writes at once */

struct state {
	pthread_mutex_t lock;
	uint64_t dirtied;	/* pages dirtied in all */
	uint64_t written;	/* pages written in all */
	uint64_t greatest;	/* most pages dirty at a time */
	uint64_t rate;		/* pages a second of the flusher */
	int ended;		/* the writer has dirtied its last page */
	int failed;
	int file;
};

struct tally {
	uint64_t checks, pauses, paused, longest;
};

static uint64_t ticks(void)
{
	struct timespec at;

	clock_gettime(CLOCK_MONOTONIC, &at);
	return (uint64_t)at.tv_sec * 1000 + (uint64_t)at.tv_nsec / 1000000 + 1;
}

static void rest(uint64_t pause)
{
	struct timespec left = { (time_t)(pause / 1000), (long)(pause % 1000) * 1000000 };

	while (nanosleep(&left, &left) && errno == EINTR)
		;
}

static void must(uint32_t status, const char *call)
{
	if (status == WBT_OK)
		return;
	fprintf(stderr, "%s: status %" PRIu32 "\n", call, status);
	exit(1);
}

static uint64_t dirty_pages(struct state *state)
{
	uint64_t dirty;

	pthread_mutex_lock(&state->lock);
	dirty = state->dirtied - state->written;
	pthread_mutex_unlock(&state->lock);
	return dirty;
}

/* Writes what is dirty, up to BATCH pages at a time, and takes as long for them as a disk of that rate. */
static void *flush(void *words)
{
	struct state *state = words;

	for (;;) {
		uint64_t dirty, pages;
		int over;

		pthread_mutex_lock(&state->lock);
		dirty = state->dirtied - state->written;
		over = state->ended;
		pthread_mutex_unlock(&state->lock);
		if (!dirty && over)
			return NULL;
		pages = dirty < BATCH ? dirty : BATCH;
		if (!pages) {
			rest(1);
			continue;
		}
		if (fdatasync(state->file))
			state->failed = 1;
		rest(pages * 1000 / state->rate + 1);
		pthread_mutex_lock(&state->lock);
		state->written += pages;
		pthread_mutex_unlock(&state->lock);
	}
}

/* Takes a sample; one that comes too early leaves the estimate. */
static void sample(struct state *state, const struct wbt_check *check, struct wbt_estimate *estimate)
{
	struct wbt_sample sample = { .now = ticks() };
	uint32_t status;

	must(wbt_ratio(&check->global, check->wb_dirty, estimate->avg, &sample.ratio), "wbt_ratio");
	pthread_mutex_lock(&state->lock);
	sample.written = state->written;
	sample.dirtied = state->dirtied;
	pthread_mutex_unlock(&state->lock);
	sample.below_setpoint = check->global.dirty < wbt_setpoint(&check->global);
	status = wbt_update_estimate(estimate, &sample);
	if (status != WBT_TOO_EARLY)
		must(status, "wbt_update_estimate");
}

/* Asks until the writer may go on, and returns how many pages it then may dirty. */
static uint64_t check_writer(struct state *state, struct wbt_check *check, struct wbt_estimate *estimate,
			     struct tally *tally, uint64_t *exceeded)
{
	struct wbt_decision decision;

	do {
		check->global.dirty = check->wb_dirty = dirty_pages(state);
		sample(state, check, estimate);
		check->avg = estimate->avg;
		check->ratelimit = estimate->ratelimit;
		check->now = ticks();
		must(wbt_decide(check, &decision), "wbt_decide");
		tally->checks++;
		tally->pauses += decision.pause > 0;
		tally->paused += decision.pause;
		if (tally->longest < decision.pause)
			tally->longest = decision.pause;
		rest(decision.pause);
		check->writer = decision.writer;
		*exceeded = decision.exceeded;
	} while (decision.kind == WBT_WAIT);
	return decision.left;
}

static void dirty_page(struct state *state, uint64_t number)
{
	static char page[PAGE];
	uint64_t dirty;

	memset(page, (int)(number & 255), sizeof(page));
	if (pwrite(state->file, page, sizeof(page), (off_t)(number * PAGE)) != PAGE)
		state->failed = 1;
	pthread_mutex_lock(&state->lock);
	state->dirtied++;
	dirty = state->dirtied - state->written;
	if (state->greatest < dirty)
		state->greatest = dirty;
	pthread_mutex_unlock(&state->lock);
}

/* The writer: a page, and where its check is due, a check. */
static void write_all(struct state *state, struct wbt_check *check, uint64_t pages, struct tally *tally)
{
	struct wbt_counts counts = { 0, 0 };
	struct wbt_estimate estimate;
	uint64_t every, due, exceeded = 0, left;

	must(wbt_first_estimate(ticks(), &estimate), "wbt_first_estimate");
	must(wbt_ratelimit_pages(check->global.thresh, 1, &every), "wbt_ratelimit_pages");
	wbt_first_writer(&check->writer);
	left = check->writer.nr_dirtied_pause < CAP ? check->writer.nr_dirtied_pause : CAP;
	for (uint64_t number = 0; number < pages; number++) {
		dirty_page(state, number);
		left--;
		must(wbt_page_done(&counts, &check->writer, left, exceeded, every, &due), "wbt_page_done");
		if (due)
			left = check_writer(state, check, &estimate, tally, &exceeded);
	}
	must(wbt_end_writer(&counts, &check->writer), "wbt_end_writer");
}

static uint64_t number(const char *word)
{
	char *end;
	unsigned long n = strtoul(word, &end, 10);

	if (*end || n < 1 || n > 65536) {
		fprintf(stderr, "usage: throttle PAGES RATE, each 1 to 65536\n");
		exit(2);
	}
	return n;
}

int main(int count, char **words)
{
	struct wbt_settings settings = { .ratio = 20, .bg_ratio = 10 };
	struct wbt_check check = { .cpus = 1, .cap = CAP };
	struct wbt_thresholds thresholds;
	struct state state = { .lock = PTHREAD_MUTEX_INITIALIZER };
	struct tally tally = { 0 };
	char name[] = "throttle-XXXXXX";
	uint64_t pages, bound;
	pthread_t flusher;

	pages = number(count > 1 ? words[1] : "6000");
	state.rate = number(count > 2 ? words[2] : "2000");
	must(wbt_global_thresholds(AVAIL, &settings, &thresholds), "wbt_global_thresholds");
	check.global = (struct wbt_domain){ thresholds.thresh, thresholds.bg, thresholds.thresh, 0, thresholds.thresh };
	must(wbt_bound(check.global.hard, 1, 1, CAP, 1, &bound), "wbt_bound");

	state.file = mkstemp(name);
	if (state.file < 0 || unlink(name)) {
		perror(name);
		return 1;
	}
	if (pthread_create(&flusher, NULL, flush, &state)) {
		fprintf(stderr, "no thread\n");
		return 1;
	}
	write_all(&state, &check, pages, &tally);
	pthread_mutex_lock(&state.lock);
	state.ended = 1;
	pthread_mutex_unlock(&state.lock);
	pthread_join(flusher, NULL);
	close(state.file);

	printf("pages %" PRIu64 " written %" PRIu64 "\n", state.dirtied, state.written);
	printf("checks %" PRIu64 " pauses %" PRIu64 " paused %" PRIu64 " longest %" PRIu64 "\n", tally.checks, tally.pauses,
	       tally.paused, tally.longest);
	printf("greatest %" PRIu64 " hard %" PRIu64 " bound %" PRIu64 "\n", state.greatest, check.global.hard, bound);
	return state.failed || state.written != pages || state.greatest > bound || tally.longest > 200;
}
