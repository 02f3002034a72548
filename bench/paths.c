/*
 * What stands on signing, each beside its peers: the map, stores and loads of a bucket of 16 MiB, caption fields, and the repair of a page.
 */
#define _GNU_SOURCE
#include "bench.h"

#include "../include/cotelark.h"

#include <stdlib.h>
#include <string.h>

/* Which of two tables was given last. Each task that takes them in turn has a place of its own, so that it never finds the same one twice. */
struct turns {
    size_t store;
    size_t hash;
    size_t copy;
};

/* Two tables that differ in every page, and the backup of the first. What is written over and over is written elsewhere. */
struct bucket {
    size_t n;
    size_t page_bytes;
    size_t pages;
    size_t map_bytes;
    uint8_t *tables[2];
    uint8_t *image;
    uint8_t *map;
    uint8_t *other_image; /* where tables are written to */
    uint8_t *other_map;   /* that of the last table stored there */
    uint8_t *made_map;
    size_t *list;
    uint64_t *hashes;       /* those of the first table */
    uint64_t *other_hashes; /* those of the last table stored by hashes */
    struct turns last;
};

static const uint8_t *next_table(const struct bucket *b, size_t *last)
{
    *last = 1 - *last;
    return b->tables[*last];
}

static uint64_t sign_pages(void *with)
{
    const struct bucket *b = with;
    uint64_t sum = 0;
    for (size_t at = 0; at < BUCKET_BYTES; at += b->page_bytes) {
        uint16_t s[4];
        need(cotelark_sign(b->n, b->tables[0] + at, b->page_bytes, s) == 0, "cotelark_sign");
        sum += s[0];
    }
    return sum;
}

static uint64_t make_map(void *with)
{
    const struct bucket *b = with;
    size_t written;
    need(cotelark_make_map(b->n, b->page_bytes, b->tables[0], BUCKET_BYTES, b->made_map, b->map_bytes, &written) == 0, "cotelark_make_map");
    return written;
}

static size_t store(const struct bucket *b, const uint8_t *table, uint8_t *image, uint8_t *map)
{
    size_t written;
    uint32_t status = cotelark_store(table, BUCKET_BYTES, image, BUCKET_BYTES, map, b->map_bytes, b->list, b->pages, &written);
    need(status == 0, "cotelark_store");
    return written;
}

static uint64_t store_none(void *with)
{
    struct bucket *b = with;
    need(store(b, b->tables[0], b->image, b->map) == 0, "a store wrote a page that had not changed");
    return 0;
}

static uint64_t store_all(void *with)
{
    struct bucket *b = with;
    need(store(b, next_table(b, &b->last.store), b->other_image, b->other_map) == b->pages, "a store missed a page");
    return 0;
}

static uint64_t step_none(void *with)
{
    const struct bucket *b = with;
    size_t place = 0, value;
    uint32_t answer = COTELARK_STEP_KEPT;
    while (answer == COTELARK_STEP_KEPT) {
        cotelark_step(&place, b->tables[0], BUCKET_BYTES, b->image, BUCKET_BYTES, b->map, b->map_bytes, &answer, &value);
    }
    need(answer == COTELARK_STEP_FINISHED, "cotelark_step");
    return place;
}

/* A store by hashes: each page whose hash is not the one kept is copied, and its hash kept. */
static size_t store_by_hash(const struct bucket *b, const uint8_t *table, uint64_t *hashes)
{
    size_t written = 0;
    for (size_t k = 0; k < b->pages; k += 1) {
        struct page page = {table + k * b->page_bytes, b->page_bytes, 0, b->other_image + k * b->page_bytes};
        uint64_t hash = page_hash(&page);
        if (hash != hashes[k]) {
            memcpy(page.beside, page.bytes, page.length);
            hashes[k] = hash;
            written += 1;
        }
    }
    return written;
}

static uint64_t hash_none(void *with)
{
    struct bucket *b = with;
    need(store_by_hash(b, b->tables[0], b->hashes) == 0, "a store by hashes wrote a page that had not changed");
    return 0;
}

static uint64_t hash_all(void *with)
{
    struct bucket *b = with;
    need(store_by_hash(b, next_table(b, &b->last.hash), b->other_hashes) == b->pages, "a store by hashes missed a page");
    return 0;
}

static uint64_t copy_bucket(void *with)
{
    struct bucket *b = with;
    memcpy(b->other_image, next_table(b, &b->last.copy), BUCKET_BYTES);
    return b->other_image[BUCKET_BYTES - 1];
}

static uint64_t sign_and_copy(void *with)
{
    struct bucket *b = with;
    uint64_t sum = sign_pages(b);
    memcpy(b->other_image, b->tables[0], BUCKET_BYTES);
    return sum + b->other_image[BUCKET_BYTES - 1];
}

static uint64_t load_bucket(void *with)
{
    struct bucket *b = with;
    size_t moved;
    uint32_t status = cotelark_load_bucket(b->image, BUCKET_BYTES, b->map, b->map_bytes, b->other_image, BUCKET_BYTES, &moved);
    need(status == 0, "cotelark_load_bucket");
    return moved;
}

static uint64_t load_pages(void *with)
{
    const struct bucket *b = with;
    size_t start, bytes, value;
    uint64_t sum = 0;
    for (size_t k = 0; k < b->pages; k += 1) {
        need(cotelark_load_page(b->image, BUCKET_BYTES, b->map, b->map_bytes, k, &start, &bytes, &value) == 0, "cotelark_load_page");
        sum += b->image[start];
    }
    return sum;
}

static void bucket_rooms(struct bucket *b)
{
    b->tables[0] = room(BUCKET_BYTES);
    b->tables[1] = room(BUCKET_BYTES);
    b->image = room(BUCKET_BYTES);
    b->other_image = room(BUCKET_BYTES);
    b->map = room(b->map_bytes);
    b->other_map = room(b->map_bytes);
    b->made_map = room(b->map_bytes);
    b->list = room(b->pages * sizeof *b->list);
    b->hashes = room(b->pages * sizeof *b->hashes);
    b->other_hashes = room(b->pages * sizeof *b->other_hashes);
}

static struct bucket bucket_made(size_t n, size_t page_bytes)
{
    struct bucket b = {.n = n, .page_bytes = page_bytes, .pages = BUCKET_BYTES / page_bytes};
    b.map_bytes = 18 + b.pages * (3 + 2 * n);
    bucket_rooms(&b);
    fill(b.tables[0], BUCKET_BYTES, 3);
    fill(b.tables[1], BUCKET_BYTES, 4);
    memcpy(b.image, b.tables[0], BUCKET_BYTES);
    memcpy(b.other_image, b.tables[0], BUCKET_BYTES);
    make_map(&b);
    memcpy(b.map, b.made_map, b.map_bytes);
    memcpy(b.other_map, b.made_map, b.map_bytes);
    memset(b.hashes, 0, b.pages * sizeof *b.hashes);
    if (page_hash != NULL) {
        store_by_hash(&b, b.tables[0], b.hashes);
    }
    memcpy(b.other_hashes, b.hashes, b.pages * sizeof *b.hashes);
    return b;
}

static void bucket_gone(struct bucket *b)
{
    free(b->tables[0]);
    free(b->tables[1]);
    free(b->image);
    free(b->other_image);
    free(b->map);
    free(b->other_map);
    free(b->made_map);
    free(b->list);
    free(b->hashes);
    free(b->other_hashes);
}

/* That two stores in turn leave each table in the image, and the map of the first as it was made. */
static void check_stores(struct bucket *b)
{
    store_all(b);
    need(memcmp(b->other_image, b->tables[1], BUCKET_BYTES) == 0, "a stored table is not the image");
    store_all(b);
    need(memcmp(b->other_image, b->tables[0], BUCKET_BYTES) == 0, "a stored table is not the image");
    need(memcmp(b->map, b->other_map, b->map_bytes) == 0, "two maps of one table differ");
}

static void bucket_paths(size_t n, size_t page_bytes)
{
    struct bucket b = bucket_made(n, page_bytes);
    check_stores(&b);
    struct task tasks[] = {
        {.name = "sign the pages", .run = sign_pages},
        {.name = "make map", .run = make_map},
        {.name = "store, nothing changed", .run = store_none},
        {.name = "store by steps, nothing changed", .run = step_none},
        {.name = "store, all changed", .run = store_all},
        {.name = "copy", .run = copy_bucket},
        {.name = "sign the pages and copy", .run = sign_and_copy},
        {.name = "load bucket", .run = load_bucket},
        {.name = "load page by page", .run = load_pages},
        {.name = "XXH3 store, nothing changed", .run = hash_none},
        {.name = "XXH3 store, all changed", .run = hash_all},
    };
    for (size_t i = 0; i < COUNT(tasks); i += 1) {
        tasks[i].n = n;
        tasks[i].bytes = BUCKET_BYTES;
        tasks[i].with = &b;
    }
    race("bucket", page_bytes, tasks, COUNT(tasks) - (page_hash == NULL ? 2 : 0), 9);
    bucket_gone(&b);
}

/* A field of a caption, plain and in its code, and a pattern that does not occur in it. */
struct caption {
    size_t bytes;
    uint8_t *plain;
    uint8_t *code;
    uint8_t *output;
    uint8_t *pattern;
    size_t pattern_bytes;
    size_t *list;
};

static uint64_t encode(void *with)
{
    const struct caption *c = with;
    size_t written;
    need(cotelark_encode(c->plain, c->bytes, c->output, c->bytes, &written) == 0, "cotelark_encode");
    return written;
}

static uint64_t decode(void *with)
{
    const struct caption *c = with;
    size_t written;
    need(cotelark_decode(c->code, c->bytes, c->output, c->bytes, &written) == 0, "cotelark_decode");
    return written;
}

static uint64_t copy_field(void *with)
{
    const struct caption *c = with;
    memcpy(c->output, c->plain, c->bytes);
    return c->output[c->bytes - 1];
}

static uint64_t search(void *with)
{
    const struct caption *c = with;
    size_t found;
    need(cotelark_search(c->code, c->bytes, c->pattern, c->pattern_bytes, c->list, c->bytes / 2, &found) == 0, "cotelark_search");
    return found;
}

static uint64_t search_plain(void *with)
{
    const struct caption *c = with;
    return memmem(c->plain, c->bytes, c->pattern, c->pattern_bytes) != NULL;
}

static uint64_t decode_and_search(void *with)
{
    const struct caption *c = with;
    decode(with);
    return memmem(c->output, c->bytes, c->pattern, c->pattern_bytes) != NULL;
}

/* Text, as symbols: small letters and spaces. */
static void fill_text(uint8_t *bytes, size_t count, uint64_t seed)
{
    fill(bytes, count, seed);
    for (size_t i = 0; i < count; i += 2) {
        bytes[i] = (uint8_t)"etaoinshrdlcumwfgypbvkjxqz      "[bytes[i] % 32];
        bytes[i + 1] = 0;
    }
}

static struct caption caption_made(size_t symbols, size_t pattern_symbols)
{
    struct caption c = {.bytes = 2 * symbols, .pattern_bytes = 2 * pattern_symbols};
    c.plain = room(c.bytes);
    c.code = room(c.bytes);
    c.output = room(c.bytes);
    c.pattern = room(c.pattern_bytes);
    c.list = room(symbols * sizeof *c.list);
    fill_text(c.plain, c.bytes, 5);
    fill_text(c.pattern, c.pattern_bytes, 6);
    encode(&c);
    memcpy(c.code, c.output, c.bytes);
    decode(&c);
    need(memcmp(c.output, c.plain, c.bytes) == 0, "a decoded code is not the field");
    need(search_plain(&c) == 0, "the pattern occurs in the field");
    return c;
}

static void caption_gone(struct caption *c)
{
    free(c->plain);
    free(c->code);
    free(c->output);
    free(c->pattern);
    free(c->list);
}

static void recoding(size_t symbols)
{
    struct caption c = caption_made(symbols, 8);
    struct task tasks[] = {
        {.name = "encode", .bytes = c.bytes, .run = encode, .with = &c},
        {.name = "decode", .bytes = c.bytes, .run = decode, .with = &c},
        {.name = "copy", .bytes = c.bytes, .run = copy_field, .with = &c},
    };
    race("caption", c.bytes, tasks, COUNT(tasks), 3);
    caption_gone(&c);
}

static void searching(size_t pattern_symbols)
{
    struct caption c = caption_made(32768, pattern_symbols);
    struct task tasks[] = {
        {.name = "search", .bytes = c.bytes, .run = search, .with = &c},
        {.name = "memmem on the decoded field", .bytes = c.bytes, .run = search_plain, .with = &c},
        {.name = "decode and memmem", .bytes = c.bytes, .run = decode_and_search, .with = &c},
    };
    race("search", c.pattern_bytes, tasks, COUNT(tasks), 3);
    caption_gone(&c);
}

/* A page of a bucket's image, in which one byte is damaged before each call. */
struct damage {
    struct bucket *bucket;
    size_t page;
    size_t at; /* in the page */
};

static uint32_t repair(const struct damage *d)
{
    const struct bucket *b = d->bucket;
    uint32_t answer, marked;
    uint16_t before, after;
    size_t position, value;
    uint32_t status = cotelark_repair_page(b->image, BUCKET_BYTES, b->map, b->map_bytes, d->page, &answer, &position, &before, &after, &marked,
                                           &value);
    need(status == 0, "cotelark_repair_page");
    return answer;
}

static uint64_t repair_whole(void *with)
{
    need(repair(with) == COTELARK_REPAIR_WHOLE, "a whole page was not found whole");
    return 0;
}

static uint64_t repair_damaged(void *with)
{
    const struct damage *d = with;
    d->bucket->image[d->page * d->bucket->page_bytes + d->at] ^= 0x55;
    need(repair(d) == COTELARK_REPAIR_REPAIRED, "a damaged symbol was not put right");
    return 0;
}

static uint64_t sign_one(void *with)
{
    const struct damage *d = with;
    const struct bucket *b = d->bucket;
    uint16_t s[4];
    need(cotelark_sign(b->n, b->image + d->page * b->page_bytes, b->page_bytes, s) == 0, "cotelark_sign");
    return s[0];
}

static void repairs(size_t n, size_t page_bytes)
{
    struct bucket b = bucket_made(n, page_bytes);
    struct damage middle = {&b, b.pages / 2, page_bytes / 2};
    struct damage end = {&b, b.pages / 2, page_bytes - 2};
    struct task tasks[] = {
        {.name = "sign the page", .n = n, .bytes = page_bytes, .run = sign_one, .with = &end},
        {.name = "repair, whole page", .n = n, .bytes = page_bytes, .run = repair_whole, .with = &end},
        {.name = "repair, symbol in the middle", .n = n, .bytes = page_bytes, .run = repair_damaged, .with = &middle},
        {.name = "repair, last symbol", .n = n, .bytes = page_bytes, .run = repair_damaged, .with = &end},
    };
    race("repair", page_bytes, tasks, COUNT(tasks), 4);
    bucket_gone(&b);
}

void paths(void)
{
    static const size_t numbers[] = {1, 2, 4};
    for (size_t i = 0; i < COUNT(numbers); i += 1) {
        bucket_paths(numbers[i], 4096);
        bucket_paths(numbers[i], 65536);
    }
    recoding(1024);
    recoding(32768);
    searching(8);
    searching(64);
    repairs(2, 65536);
    repairs(4, 65536);
}
