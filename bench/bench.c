/*
 * The benchmark: the library against its peers over the C header, all candidates of a comparison in turn in one run, the best time of each.
 * It writes what,size,n,candidate,gbps to standard output, and what it is at to standard error.
 */
#define _POSIX_C_SOURCE 200112L
#include "bench.h"

#include "../include/cotelark.h"

#include <stdio.h>
#include <stdlib.h>
#include <string.h>
#include <time.h>

#define BATCH_SECONDS 50e-6 /* one timing is of at least so much work */
#define BATCHES 4           /* in a row, since after another candidate the first one finds its bytes farther away */
#define ROUNDS_LEAST 4
#define ROUNDS_MOST 800

static volatile uint64_t sink;

void stop(const char *why)
{
    fprintf(stderr, "The benchmark stops: %s.\n", why);
    exit(1);
}

void need(int holds, const char *what)
{
    if (!holds) {
        stop(what);
    }
}

/* Whole cache lines, so that no candidate's bytes begin within one. */
void *room(size_t bytes)
{
    void *memory = aligned_alloc(4096, (bytes + 4095) / 4096 * 4096);
    need(memory != NULL, "no memory");
    return memory;
}

void fill(uint8_t *bytes, size_t count, uint64_t seed)
{
    uint64_t x = seed * 0x9E3779B97F4A7C15u + 1;
    for (size_t i = 0; i < count; i += 1) {
        x ^= x << 13;
        x ^= x >> 7;
        x ^= x << 17;
        bytes[i] = (uint8_t)(x >> 32);
    }
}

static double seconds_now(void)
{
    struct timespec t;
    clock_gettime(CLOCK_MONOTONIC, &t);
    return (double)t.tv_sec + (double)t.tv_nsec * 1e-9;
}

/* The seconds that a batch of calls takes. */
static double batch(const struct task *task)
{
    double start = seconds_now();
    for (size_t i = 0; i < task->repeats; i += 1) {
        sink = task->run(task->with);
    }
    return seconds_now() - start;
}

/* As many calls a batch as it takes to fill one. */
static void calibrate(struct task *task)
{
    task->repeats = 1;
    while (batch(task) < BATCH_SECONDS) {
        task->repeats *= 2;
    }
    task->best = batch(task) / (double)task->repeats;
}

static void slice(struct task *task)
{
    for (size_t i = 0; i < BATCHES; i += 1) {
        double call = batch(task) / (double)task->repeats;
        task->best = call < task->best ? call : task->best;
    }
}

/* Each task once; the seconds that took. */
static double in_turn(struct task *tasks, size_t count)
{
    double start = seconds_now();
    for (size_t i = 0; i < count; i += 1) {
        slice(&tasks[i]);
    }
    return seconds_now() - start;
}

static size_t rounds_in(double seconds, double a_round)
{
    double rounds = seconds / a_round;
    return rounds < ROUNDS_LEAST ? ROUNDS_LEAST : rounds > ROUNDS_MOST ? ROUNDS_MOST : (size_t)rounds;
}

static void write_rows(const char *what, size_t size, const struct task *tasks, size_t count)
{
    for (size_t i = 0; i < count; i += 1) {
        printf("%s,%zu,%zu,\"%s\",%.4f\n", what, size, tasks[i].n, tasks[i].name, (double)tasks[i].bytes / tasks[i].best * 1e-9);
    }
    fflush(stdout);
}

/* Round after round, each task once in each, for some seconds. */
void race(const char *what, size_t size, struct task *tasks, size_t count, double seconds)
{
    for (size_t i = 0; i < count; i += 1) {
        calibrate(&tasks[i]);
    }
    size_t rounds = rounds_in(seconds, in_turn(tasks, count));
    fprintf(stderr, "%s, %zu bytes: %zu candidates, %zu rounds\n", what, size, count, rounds);
    for (size_t left = rounds; left > 0; left -= 1) {
        in_turn(tasks, count);
    }
    write_rows(what, size, tasks, count);
}

/* A size of which every page is gone over: one page up to 64 KiB, and a bucket of such pages. */
struct span {
    const struct candidate *candidate;
    const uint8_t *from;
    uint8_t *beside;
    size_t bytes;
};

static uint64_t over_pages(void *with)
{
    const struct span *span = with;
    size_t most = span->bytes < LARGEST_PAGE ? span->bytes : LARGEST_PAGE;
    uint64_t sum = 0;
    for (size_t at = 0; at < span->bytes; at += most) {
        struct page page = {span->from + at, most, span->candidate->n, span->beside + at};
        sum ^= span->candidate->call(&page);
    }
    return sum;
}

static void agree(size_t n, const uint8_t *bytes, size_t length)
{
    uint16_t own[4], other[4];
    need(cotelark_sign(n, bytes, length, own) == 0, "the library refuses a page");
    tables_sign(n, bytes, length, other);
    need(memcmp(own, other, sizeof own) == 0, "the library and the logarithm tables sign a page differently");
    long_tables_sign(n, bytes, length, other);
    need(memcmp(own, other, sizeof own) == 0, "the library and the long logarithm tables sign a page differently");
    horner_sign(n, bytes, length, other);
    need(memcmp(own, other, sizeof own) == 0, "the library and Horner's rule sign a page differently");
}

/* Every length that is measured, and others; every n. */
static void agree_on_lengths(const uint8_t *bytes)
{
    static const size_t lengths[] = {0, 1, 2, 3, 15, 17, 127, 128, 129, 511, 512, 1000, 1024, 4095, 4096, 4097, 16384, 30001, 65535, 65536, 131068};
    for (size_t i = 0; i < COUNT(lengths) * 4; i += 1) {
        agree(i % 4 + 1, bytes, lengths[i / 4]);
    }
}

static void sign_size(size_t bytes, const uint8_t *from, uint8_t *beside, double seconds)
{
    struct span *spans = room(candidate_count * sizeof *spans);
    struct task *tasks = room(candidate_count * sizeof *tasks);
    for (size_t i = 0; i < candidate_count; i += 1) {
        spans[i] = (struct span){&candidates[i], from, beside, bytes};
        tasks[i] = (struct task){.name = candidates[i].name, .n = candidates[i].n, .bytes = bytes, .run = over_pages, .with = &spans[i]};
    }
    race("sign", bytes, tasks, candidate_count, seconds);
    free(tasks);
    free(spans);
}

static void signing(void)
{
    static const size_t sizes[] = {128, 512, 1024, 4096, 16384, 65536, BUCKET_BYTES};
    uint8_t *from = room(BUCKET_BYTES);
    uint8_t *beside = room(BUCKET_BYTES);
    fill(from, BUCKET_BYTES, 1);
    fill(beside, BUCKET_BYTES, 2);
    agree_on_lengths(from);
    for (size_t i = 0; i < COUNT(sizes); i += 1) {
        sign_size(sizes[i], from, beside, sizes[i] < BUCKET_BYTES ? 4 : 15);
    }
    free(beside);
    free(from);
}

int main(void)
{
    peers_prepare();
    printf("what,size,n,candidate,gbps\n");
    signing();
    paths();
    return 0;
}
