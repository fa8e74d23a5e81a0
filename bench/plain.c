// The atomic operations of `wbsim bulk N`, a page at a time, and nothing of the control: no limits, no checks, no pauses, no estimates, no
// proportions, no journal. It is what bulk.sh compares with. Nothing here is proved.
//
// Two threads write four inodes, two each and a page of each in turn; two threads clean them, two inodes each. For each page that a writer
// dirties: a fetch_or of the page's word, which has 32 pages of two bits; a fetch_add of the CPU's own word of the context's counter and one
// of the domain's, with a fold into the shared word and a fetch_sub where the batch is reached; a fetch_or of the inode's mark, and a push
// where it was clear. For each page that is cleaned: a load and a compare_exchange, then a fetch_and and two fetch_adds, again with folds.
//
// usage: plain N
#include <pthread.h>
#include <sched.h>
#include <stdatomic.h>
#include <stdint.h>
#include <stdio.h>
#include <stdlib.h>

enum { CPUS = 4, INODES = 4, DEVICES = 2, CHUNK = 1024, CONTEXT_BATCH = 24, DOMAIN_BATCH = 32, LINE = 64 };

// A counter: a word for each CPU on a line of its own, and the shared one, whose high bits count the folds.
struct counter {
    struct { _Alignas(LINE) atomic_llong own; } cpus[CPUS];
    _Alignas(LINE) atomic_ullong shared;
    long long batch;
};

// Inodes that were marked: each stands there at most once.
struct queue {
    _Alignas(LINE) atomic_uint pushed;
    atomic_int slots[INODES];
    unsigned taken;
};

struct inode {
    uint32_t first, pages;
    _Alignas(LINE) atomic_ullong mark;
};

static atomic_ullong *words;
static struct inode inodes[INODES];
static struct counter contexts[DEVICES], domain;
static struct queue queues[DEVICES];
static _Alignas(LINE) atomic_int writing = 2;
static uint64_t dirtied[2], cleaned[DEVICES];

static void add(struct counter *counter, int cpu, long long by)
{
    long long own = atomic_fetch_add(&counter->cpus[cpu].own, by) + by;
    if (own >= counter->batch || own <= -counter->batch) {
        atomic_fetch_add(&counter->shared, (1ULL << 24) + (unsigned long long)own);
        atomic_fetch_sub(&counter->cpus[cpu].own, own);
    }
}

static void push(struct queue *queue, int inode)
{
    unsigned at = atomic_fetch_add(&queue->pushed, 1) % INODES;
    while (atomic_load(&queue->slots[at]) != -1)
        sched_yield();
    atomic_store(&queue->slots[at], inode);
}

static int take(struct queue *queue)
{
    int inode = atomic_exchange(&queue->slots[queue->taken % INODES], -1);
    if (inode != -1)
        queue->taken++;
    return inode;
}

static void mark(int inode)
{
    if (atomic_fetch_or(&inodes[inode].mark, 1) == 0)
        push(&queues[inode % DEVICES], inode);
}

static void dirty(int cpu, int inode, uint32_t page)
{
    unsigned long long bit = 1ULL << (page % 32 * 2);
    if (atomic_fetch_or(&words[page / 32], bit) & bit)
        return;
    add(&contexts[inode % DEVICES], cpu, 1);
    add(&domain, cpu, 1);
    mark(inode);
    dirtied[cpu]++;
}

// CPU 0 has the inodes 0 and 1, CPU 1 the inodes 2 and 3.
static void *write_pages(void *at)
{
    int cpu = (int)(intptr_t)at;
    for (uint32_t page = 0; page < inodes[0].pages; page++)
        for (int inode = 2 * cpu; inode < 2 * cpu + 2; inode++)
            if (page < inodes[inode].pages)
                dirty(cpu, inode, inodes[inode].first + page);
    atomic_fetch_sub(&writing, 1);
    return NULL;
}

static int claim(uint32_t page)
{
    unsigned long long is_dirty = 1ULL << (page % 32 * 2), is_writeback = is_dirty << 1;
    unsigned long long found = atomic_load(&words[page / 32]);
    return (found & is_dirty) && !(found & is_writeback)
        && atomic_compare_exchange_strong(&words[page / 32], &found, (found & ~is_dirty) | is_writeback);
}

static void complete(int cpu, int device, uint32_t page)
{
    atomic_fetch_and(&words[page / 32], ~(2ULL << (page % 32 * 2)));
    add(&contexts[device], cpu, -1);
    add(&domain, cpu, -1);
    cleaned[device]++;
}

// One scan: it claims a chunk at a time and completes it. A page that was missed stays dirty, and the inode is marked again.
static void clean(int cpu, int device, int inode)
{
    uint32_t held[CHUNK], count = 0, end = inodes[inode].first + inodes[inode].pages;
    int missed = 0;
    atomic_fetch_and(&inodes[inode].mark, 0);
    for (uint32_t page = inodes[inode].first; page <= end; page++) {
        if (count == CHUNK || page == end) {
            for (uint32_t i = 0; i < count; i++)
                complete(cpu, device, held[i]);
            count = 0;
        }
        if (page == end)
            break;
        if (claim(page))
            held[count++] = page;
        else if (atomic_load(&words[page / 32]) >> (page % 32 * 2) & 1)
            missed = 1;
    }
    if (missed)
        mark(inode);
}

static void *clean_pages(void *at)
{
    int device = (int)(intptr_t)at, cpu = device + 2;
    for (;;) {
        int last = atomic_load(&writing) == 0;
        int inode = take(&queues[device]);
        if (inode != -1)
            clean(cpu, device, inode);
        else if (last)
            return NULL;
        else
            sched_yield();
    }
}

int main(int argc, char **argv)
{
    long n = argc == 2 ? atol(argv[1]) : 0;
    if (n < INODES || n > 2097152) {
        fprintf(stderr, "usage: plain N, 4 to 2097152\n");
        return 1;
    }
    words = calloc((size_t)n / 32 + 1, sizeof *words);
    if (words == NULL)
        return 6;
    uint32_t first = 0;
    for (int i = 0; i < INODES; i++) {
        inodes[i].first = first;
        inodes[i].pages = (uint32_t)(n / INODES + (i < n % INODES));
        first += inodes[i].pages;
    }
    for (int d = 0; d < DEVICES; d++) {
        contexts[d].batch = CONTEXT_BATCH;
        for (int i = 0; i < INODES; i++)
            atomic_store(&queues[d].slots[i], -1);
    }
    domain.batch = DOMAIN_BATCH;

    pthread_t threads[CPUS];
    for (intptr_t cpu = 0; cpu < CPUS; cpu++)
        if (pthread_create(&threads[cpu], NULL, cpu < 2 ? write_pages : clean_pages, (void *)(cpu % 2)) != 0)
            return 6;
    for (int cpu = 0; cpu < CPUS; cpu++)
        pthread_join(threads[cpu], NULL);

    uint64_t left = 0;
    for (long page = 0; page < n; page++)
        left += (atomic_load(&words[page / 32]) >> (page % 32 * 2) & 3) != 0;
    printf("bulk %ld dirtied %llu cleaned %llu left %llu\n", n, (unsigned long long)(dirtied[0] + dirtied[1]),
        (unsigned long long)(cleaned[0] + cleaned[1]), (unsigned long long)left);
    return 0;
}
