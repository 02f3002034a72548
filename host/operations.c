/*
 * Every operation of the C interface once, refused and not, with the answers of the scope's cases worked by hand.
 * It uses nothing but the header, lends heap buffers of exactly the length that it names, and is C11 and C++ alike.
 */
#include "../include/cotelark.h"

#include <stdio.h>
#include <stdlib.h>
#include <string.h>

static int held = 0;
static int failed = 0;

static void expect(int holds, const char *what)
{
    if (holds) {
        held += 1;
    } else {
        failed += 1;
        printf("FAILED: %s\n", what);
    }
}

/* A lent buffer with nothing in it yet; no place at all where it has no bytes. */
static void *lend(size_t bytes)
{
    void *memory = bytes == 0 ? NULL : malloc(bytes);
    if (bytes != 0 && memory == NULL) {
        printf("no memory\n");
        exit(2);
    }
    return memory;
}

static uint8_t *lend_bytes(const void *from, size_t bytes)
{
    uint8_t *buffer = (uint8_t *)lend(bytes);
    if (bytes != 0) {
        memcpy(buffer, from, bytes);
    }
    return buffer;
}

static size_t *lend_list(size_t numbers)
{
    return (size_t *)lend(numbers * sizeof(size_t));
}

/* The bucket of three symbols 1, 2, 3, and its map with pages of four bytes and n = 2. */
static const uint8_t BUCKET[6] = {1, 0, 2, 0, 3, 0};
static const uint8_t MAP[32] = {1, 1, 0, 2, 2, 4, 0, 4, 0, 0, 0, 3, 4, 0, 6, 0, 0, 0, 4, 4, 0, 5, 0, 9, 0, 4, 4, 0, 3, 0, 3, 0};

static int is_signature(const uint16_t s[4], uint16_t s1, uint16_t s2)
{
    return s[0] == s1 && s[1] == s2 && s[2] == 0 && s[3] == 0;
}

static void signing(void)
{
    uint8_t *object = lend_bytes(BUCKET, 4);
    uint16_t s[4] = {7, 7, 7, 7};
    expect(cotelark_sign(5, object, 4, s) == COTELARK_SIZE && s[0] == 7 && s[3] == 7, "sign refuses n = 5 and leaves the signature");
    expect(cotelark_sign(2, object, 4, s) == 0 && is_signature(s, 5, 9), "sign 1, 2");
    expect(cotelark_sign(2, NULL, 0, s) == 0 && is_signature(s, 0, 0), "sign no symbols");
    free(object);
}

static void joining(void)
{
    const uint16_t one[4] = {1, 1, 0, 0};
    const uint16_t two[4] = {2, 2, 0, 0};
    uint16_t joined[4] = {7, 7, 7, 7};
    expect(cotelark_join(2, one, 1, 3, two, 1, joined) == COTELARK_MATCH && joined[1] == 7, "join refuses two n");
    expect(cotelark_join(2, one, SIZE_MAX, 2, two, 1, joined) == COTELARK_LONG && joined[1] == 7, "join refuses too many symbols");
    expect(cotelark_join(2, one, 1, 2, two, 1, joined) == 0 && is_signature(joined, 5, 9), "join 1 and 2");
}

static void editing(void)
{
    const uint16_t page[4] = {5, 9, 0, 0};
    uint8_t *before = lend_bytes("\2\0", 2);
    uint8_t *after = lend_bytes("\3\0", 2);
    uint16_t edited[4] = {7, 7, 7, 7};
    expect(cotelark_edit(2, page, 1, before, 1, after, 2, edited) == COTELARK_ODD && edited[2] == 7, "edit refuses an odd piece");
    expect(cotelark_edit(2, page, 1, before, 2, after, 2, edited) == 0 && is_signature(edited, 7, 0xD), "edit 1, 2 to 1, 3");
    free(before);
    free(after);
}

static void making(void)
{
    uint8_t *bucket = lend_bytes(BUCKET, sizeof BUCKET);
    uint8_t *map = (uint8_t *)lend(sizeof MAP);
    size_t value = 7;
    expect(cotelark_make_map(2, 4, bucket, 6, map, 31, &value) == COTELARK_ROOM && value == 32, "make map refuses 31 bytes and names 32");
    expect(cotelark_make_map(2, 3, bucket, 6, map, 32, &value) == COTELARK_PAGE && value == 0, "make map refuses a page of 3 bytes");
    expect(cotelark_make_map(2, 4, bucket, 6, map, 32, &value) == 0 && value == 32 && memcmp(map, MAP, 32) == 0, "make map");
    free(bucket);
    free(map);
}

static void reading(void)
{
    uint8_t *map = lend_bytes(MAP, sizeof MAP);
    size_t n = 7, page = 7, bucket = 7, pages = 7, value = 7;
    uint32_t status = cotelark_read_map(map, 31, &n, &page, &bucket, &pages, &value);
    expect(status == COTELARK_MAP && value == 25 && n == 0 && page == 0 && bucket == 0 && pages == 0, "read map refuses at 25");
    status = cotelark_read_map(map, 32, &n, &page, &bucket, &pages, &value);
    expect(status == 0 && value == 0 && n == 2 && page == 4 && bucket == 6 && pages == 2, "read map");
    status = cotelark_read_map(NULL, 0, &n, &page, &bucket, &pages, &value);
    expect(status == COTELARK_MAP && value == 0, "read map refuses no bytes at 0");
    free(map);
}

static void listing(void)
{
    static const char text[] = "n 2 page 4 bucket 6 pages 2\n0 0005 0009\n1 0003 0003\n";
    const size_t length = sizeof text - 1;
    uint8_t *map = lend_bytes(MAP, sizeof MAP);
    uint8_t *output = (uint8_t *)lend(length);
    size_t value = 7;
    expect(cotelark_list_map(map, 32, output, length - 1, &value) == COTELARK_ROOM && value == length, "list map refuses a short output");
    expect(cotelark_list_map(map, 32, output, length, &value) == 0 && value == length && memcmp(output, text, length) == 0, "list map");
    free(map);
    free(output);
}

/* The table's second page holds a 9 where the image has a 3. */
static void storing(void)
{
    static const uint8_t entry[7] = {4, 4, 0, 9, 0, 9, 0};
    uint8_t *table = lend_bytes("\1\0\2\0\11\0", 6);
    uint8_t *image = lend_bytes(BUCKET, 6);
    uint8_t *map = lend_bytes(MAP, 32);
    size_t *list = lend_list(2);
    size_t value = 7;
    expect(cotelark_store(table, 6, image, 6, map, 32, list, 1, &value) == COTELARK_ROOM && value == 2, "store refuses a list of one");
    expect(cotelark_store(table, 6, image, 5, map, 32, list, 2, &value) == COTELARK_MATCH && value == 0, "store refuses a short image");
    expect(memcmp(image, BUCKET, 6) == 0 && memcmp(map, MAP, 32) == 0, "a refused store changes nothing");
    expect(cotelark_store(table, 6, image, 6, map, 32, list, 2, &value) == 0 && value == 1 && list[0] == 1, "store writes page 1");
    expect(memcmp(image, table, 6) == 0 && memcmp(map, MAP, 25) == 0 && memcmp(map + 25, entry, 7) == 0, "image and map after the store");
    free(table);
    free(image);
    free(map);
    free(list);
}

static void stepping(void)
{
    uint8_t *table = lend_bytes("\1\0\2\0\11\0", 6);
    uint8_t *image = lend_bytes(BUCKET, 6);
    uint8_t *map = lend_bytes(MAP, 32);
    size_t place = 3, value = 7;
    uint32_t answer = 7;
    uint32_t status = cotelark_step(&place, table, 6, image, 6, map, 32, &answer, &value);
    expect(status == COTELARK_PAGENO && answer == COTELARK_STEP_REFUSED && place == 3 && value == 0, "step refuses place 3");
    place = 0;
    status = cotelark_step(&place, table, 6, image, 6, map, 32, &answer, &value);
    expect(status == 0 && answer == COTELARK_STEP_KEPT && place == 1 && value == 0, "the first step keeps page 0");
    status = cotelark_step(&place, table, 6, image, 6, map, 32, &answer, &value);
    expect(status == 0 && answer == COTELARK_STEP_WRITTEN && place == 2 && value == 1, "the second step writes page 1");
    status = cotelark_step(&place, table, 6, image, 6, map, 32, &answer, &value);
    expect(status == 0 && answer == COTELARK_STEP_FINISHED && place == 2 && value == 0, "the third step is finished");
    expect(memcmp(image, table, 6) == 0, "the image after the steps");
    free(table);
    free(image);
    free(map);
}

static void loading_page(void)
{
    uint8_t *image = lend_bytes(BUCKET, 6);
    uint8_t *map = lend_bytes(MAP, 32);
    size_t start = 7, bytes = 7, value = 7;
    expect(cotelark_load_page(image, 6, map, 32, 1, &start, &bytes, &value) == 0 && start == 4 && bytes == 2 && value == 0, "load page 1");
    expect(cotelark_ask_page(image, 6, map, 32, 1, &value) == 0 && value == 0, "nothing stands against page 1");
    image[4] = 4;
    uint32_t status = cotelark_load_page(image, 6, map, 32, 1, &start, &bytes, &value);
    expect(status == COTELARK_DAMAGED && start == 0 && bytes == 0 && value == 1, "load page refuses a damaged page");
    expect(cotelark_ask_page(image, 6, map, 32, 2, &value) == COTELARK_PAGENO && value == 0, "the question refuses page 2");
    free(image);
    free(map);
}

static void loading_bucket(void)
{
    uint8_t *image = lend_bytes(BUCKET, 6);
    uint8_t *map = lend_bytes(MAP, 32);
    uint8_t *table = (uint8_t *)lend(6);
    size_t value = 7;
    expect(cotelark_load_bucket(image, 6, map, 32, table, 6, &value) == 0 && value == 6 && memcmp(table, image, 6) == 0, "load bucket");
    image[0] = 2;
    expect(cotelark_load_bucket(image, 6, map, 32, table, 6, &value) == COTELARK_DAMAGED && value == 0, "load bucket refuses page 0");
    expect(memcmp(table, BUCKET, 6) == 0, "a refused load changes nothing");
    free(image);
    free(map);
    free(table);
}

/* The status of a repair, and what it tells. */
typedef struct {
    uint32_t status, answer, marked;
    size_t position, value;
    uint16_t before, after;
} repair;

static repair repair_of(uint8_t *image, size_t image_bytes, const uint8_t *its_map, size_t map_bytes, size_t page)
{
    uint8_t *map = lend_bytes(its_map, map_bytes);
    repair told = {7, 7, 7, 7, 7, 7, 7};
    told.status = cotelark_repair_page(image, image_bytes, map, map_bytes, page, &told.answer, &told.position, &told.before, &told.after,
                                       &told.marked, &told.value);
    free(map);
    return told;
}

static int tells_repaired(repair told, size_t position, uint16_t before, uint16_t after, uint32_t marked)
{
    return told.status == 0 && told.answer == COTELARK_REPAIR_REPAIRED && told.position == position && told.before == before && told.after == after &&
           told.marked == marked && told.value == 0;
}

/* Refused, whole or beyond: no symbol is told of. */
static int tells_only(repair told, uint32_t status, uint32_t answer, size_t value)
{
    return told.status == status && told.answer == answer && told.position == 0 && told.before == 0 && told.after == 0 && told.marked == 0 &&
           told.value == value;
}

/* The image's first page holds a 3 where the bucket has a 2, its second page a 4 where that has a 3. */
static void repairing(void)
{
    static const uint8_t first_right[6] = {1, 0, 2, 0, 4, 0};
    uint8_t *image = lend_bytes("\1\0\3\0\4\0", 6);
    expect(tells_repaired(repair_of(image, 6, MAP, 32, 0), 1, 3, 2, 1), "repair puts symbol 1 of page 0 right, with a mark");
    expect(memcmp(image, first_right, 6) == 0, "a repair changes one symbol");
    expect(tells_only(repair_of(image, 6, MAP, 32, 0), 0, COTELARK_REPAIR_WHOLE, 0), "page 0 is whole then");
    expect(tells_only(repair_of(image, 6, MAP, 31, 1), COTELARK_MAP, COTELARK_REPAIR_REFUSED, 25), "repair refuses a cut map at 25");
    expect(tells_only(repair_of(image, 5, MAP, 32, 1), COTELARK_MATCH, COTELARK_REPAIR_REFUSED, 0), "repair refuses a short image");
    expect(tells_only(repair_of(image, 6, MAP, 32, 2), COTELARK_PAGENO, COTELARK_REPAIR_REFUSED, 0), "repair refuses page 2");
    expect(memcmp(image, first_right, 6) == 0, "a whole page and a refused repair change nothing");
    expect(tells_repaired(repair_of(image, 6, MAP, 32, 1), 0, 4, 3, 1) && memcmp(image, BUCKET, 6) == 0, "repair puts page 1 right");
    free(image);
}

/* Maps of a page of three zeros, with n of 1 to 3, over a page that has two of them damaged. */
static void repairing_by_n(void)
{
    static const uint8_t one[23] = {1, 1, 0, 1, 2, 4, 0, 6, 0, 0, 0, 3, 4, 0, 6, 0, 0, 0, 4, 2, 0, 0, 0};
    static const uint8_t two[25] = {1, 1, 0, 2, 2, 4, 0, 6, 0, 0, 0, 3, 4, 0, 6, 0, 0, 0, 4, 4, 0, 0, 0, 0, 0};
    static const uint8_t three[27] = {1, 1, 0, 3, 2, 4, 0, 6, 0, 0, 0, 3, 4, 0, 6, 0, 0, 0, 4, 6, 0, 0, 0, 0, 0, 0, 0};
    static const uint8_t damaged[6] = {8, 0, 6, 0, 0, 0};
    static const uint8_t taken_for_one[6] = {8, 0, 6, 0, 1, 0};
    uint8_t *image = lend_bytes(damaged, 6);
    expect(tells_only(repair_of(image, 6, one, 23, 1), COTELARK_PAGENO, COTELARK_REPAIR_REFUSED, 0), "repair refuses page 1 before n = 1");
    expect(tells_only(repair_of(image, 6, one, 23, 0), COTELARK_THIN, COTELARK_REPAIR_REFUSED, 0), "repair refuses n = 1");
    expect(tells_only(repair_of(image, 6, three, 27, 0), 0, COTELARK_REPAIR_BEYOND, 0), "two damaged symbols are beyond with n = 3");
    expect(memcmp(image, damaged, 6) == 0, "a page beyond repair stays");
    expect(tells_repaired(repair_of(image, 6, two, 25, 0), 2, 0, 1, 1), "two damaged symbols are taken for one with n = 2");
    expect(memcmp(image, taken_for_one, 6) == 0, "8, 6, 0 becomes 8, 6, 1");
    memset(image, 0, 6);
    expect(tells_only(repair_of(image, 6, one, 23, 0), COTELARK_THIN, COTELARK_REPAIR_REFUSED, 0), "repair refuses n = 1 for a whole page too");
    image[5] = 0x80;
    expect(tells_repaired(repair_of(image, 6, three, 27, 0), 2, 0x8000, 0, 0) && image[5] == 0, "a repair with n = 3 carries no mark");
    free(image);
}

/* The entries of the symbols 41 and 141, in hex, for a page of one byte. */
static void repairing_odd_page(void)
{
    static const uint8_t low[25] = {1, 1, 0, 2, 2, 4, 0, 2, 0, 0, 0, 3, 4, 0, 1, 0, 0, 0, 4, 4, 0, 0x41, 0, 0x41, 0};
    static const uint8_t high[25] = {1, 1, 0, 2, 2, 4, 0, 2, 0, 0, 0, 3, 4, 0, 1, 0, 0, 0, 4, 4, 0, 0x41, 1, 0x41, 1};
    uint8_t *image = lend_bytes("\1", 1);
    expect(tells_only(repair_of(image, 1, high, 25, 0), 0, COTELARK_REPAIR_BEYOND, 0) && image[0] == 1, "no change completes an odd page");
    expect(tells_repaired(repair_of(image, 1, low, 25, 0), 0, 1, 0x41, 1) && image[0] == 0x41, "repair puts an odd page right");
    free(image);
}

static void captions(void)
{
    static const uint8_t encoded[6] = {1, 0, 5, 0, 9, 0};
    uint8_t *plain = lend_bytes(BUCKET, 6);
    uint8_t *code = (uint8_t *)lend(6);
    uint8_t *pattern = lend_bytes("\2\0\3\0", 4);
    size_t *list = lend_list(2);
    size_t value = 7;
    expect(cotelark_encode(plain, 5, code, 6, &value) == COTELARK_ODD && value == 0, "encode refuses five bytes");
    expect(cotelark_encode(plain, 6, code, 6, &value) == 0 && value == 6 && memcmp(code, encoded, 6) == 0, "encode 1, 2, 3");
    expect(cotelark_search(code, 6, pattern, 4, list, 1, &value) == COTELARK_ROOM && value == 2, "search refuses a list of one");
    expect(cotelark_search(code, 6, pattern, 0, list, 2, &value) == COTELARK_EMPTY && value == 0, "search refuses an empty pattern");
    expect(cotelark_search(code, 6, pattern, 4, list, 2, &value) == 0 && value == 1 && list[0] == 1, "search finds place 1");
    memset(plain, 0, 6);
    expect(cotelark_decode(code, 6, plain, 5, &value) == COTELARK_ROOM && value == 6, "decode refuses a short output");
    expect(cotelark_decode(code, 6, plain, 6, &value) == 0 && value == 6 && memcmp(plain, BUCKET, 6) == 0, "decode");
    free(plain);
    free(code);
    free(pattern);
    free(list);
}

int main(void)
{
    signing();
    joining();
    editing();
    making();
    reading();
    listing();
    storing();
    stepping();
    loading_page();
    loading_bucket();
    repairing();
    repairing_by_n();
    repairing_odd_page();
    captions();
    printf("C interface: %d held, %d failed\n", held, failed);
    return failed == 0 ? 0 : 1;
}
