/*
 * What the files of the benchmark share: a page as a candidate is given it, a task as it is timed, and who has what.
 */
#ifndef BENCH_H
#define BENCH_H

#include <stddef.h>
#include <stdint.h>

#define BUCKET_BYTES ((size_t)1 << 24)
#define LARGEST_PAGE ((size_t)1 << 16)
#define COUNT(list) (sizeof(list) / sizeof((list)[0]))

struct page {
    const uint8_t *bytes;
    size_t length;
    size_t n;
    uint8_t *beside; /* where as many bytes may be written */
};

/* Something that goes over one page, once for each n that it is measured with; n is 0 where it has none. */
struct candidate {
    const char *name;
    size_t n;
    uint64_t (*call)(const struct page *page);
};

/* Something that is timed: what one call answers is kept from being optimised away. */
struct task {
    const char *name;
    size_t n;
    size_t bytes; /* that one call goes over */
    uint64_t (*run)(void *with);
    void *with;
    size_t repeats; /* calls in a batch */
    double best;    /* seconds a call */
};

/* bench.c */
void stop(const char *why);
void need(int holds, const char *what);
void *room(size_t bytes);
void fill(uint8_t *bytes, size_t count, uint64_t seed);
void race(const char *what, size_t size, struct task *tasks, size_t count, double seconds);

/* tables.c: signatures of whole pages, n components, into s. */
void tables_prepare(void);
void tables_sign(size_t n, const uint8_t *bytes, size_t length, uint16_t s[4]);
void long_tables_sign(size_t n, const uint8_t *bytes, size_t length, uint16_t s[4]);
void horner_sign(size_t n, const uint8_t *bytes, size_t length, uint16_t s[4]);

/* peers.c */
extern const struct candidate candidates[];
extern const size_t candidate_count;
extern uint64_t (*const page_hash)(const struct page *page); /* XXH3, or NULL without its package */
void peers_prepare(void);

/* paths.c */
void paths(void);

#endif
