/*
 * Cotelark's C interface: page signatures, the signature map of a bucket, stores, loads and repairs, and caption fields.
 * The functions are those of the crate `cotelark`, each proved to meet its contract for every input; the archive is made by `make archive`.
 *
 * Every function answers a status: 0, or the number of the refusal, the lowest that applies.
 *
 * - Bytes, symbols, pages and numbers of a list are counted in size_t, and any number may be handed in: one that is out of bounds is refused, never
 *   wrapped. A symbol is two bytes, low byte first. Pages, places and positions start at 0.
 * - A buffer is a pointer and a length, and where the length is 0 the pointer may be NULL; or it is an array of four symbols. One that is written must
 *   not overlap another one of the same call.
 * - A pointer to a single number other than the place of a step is where a part of the answer goes: it must point to one, and each call writes it,
 *   refused or not. `value` is the success value that the function names, or the value beside the refusal: 0 where nothing else is said.
 * - A refused call changes no byte of the buffers lent to it, nor the place of a step. After success, an output past the part written is as it was.
 * - Nothing is kept between calls, allocated or freed. Calls on separate buffers may run at the same time.
 */
#ifndef COTELARK_H
#define COTELARK_H

#include <stddef.h>
#include <stdint.h>

#ifdef __cplusplus
extern "C" {
#endif

/* The refusals. */
#define COTELARK_SIZE 1u     /* n outside 1 to 4 */
#define COTELARK_PAGE 2u     /* page bytes odd, below 2 or above 65,536 */
#define COTELARK_LONG 3u     /* an object above 65,534 symbols, a bucket above 16,777,216 bytes or 4,096 pages, a caption field above 32,768 symbols */
#define COTELARK_ODD 4u      /* an odd number of bytes where whole symbols are due */
#define COTELARK_MAP 5u      /* the map breaks a rule; value: the offset of the field that breaks it, or of the first byte left over */
#define COTELARK_MATCH 6u    /* two lengths, or two n, that belong together differ */
#define COTELARK_ROOM 7u     /* an output is too short; value: the length needed, in bytes, or in numbers for a list */
#define COTELARK_EMPTY 8u    /* the pattern has no symbol */
#define COTELARK_PAGENO 9u   /* page number not allowed */
#define COTELARK_DAMAGED 10u /* a page asked for has another signature in the image than in its entry; value: the lowest such page */

#define COTELARK_THIN 14u    /* n = 1: one component does not tell which symbol is damaged */

/* What a step answers. */
#define COTELARK_STEP_REFUSED 0u
#define COTELARK_STEP_KEPT 1u
#define COTELARK_STEP_WRITTEN 2u
#define COTELARK_STEP_FINISHED 3u

/* What a repair answers. */
#define COTELARK_REPAIR_REFUSED 0u
#define COTELARK_REPAIR_WHOLE 1u
#define COTELARK_REPAIR_REPAIRED 2u
#define COTELARK_REPAIR_BEYOND 3u

/*
 * The n-symbol signature of an object of at most 65,534 symbols; an odd last byte is completed by a zero.
 * Writes the components s1 .. sn to `signature`, and zeros above n.
 * Refused: SIZE, LONG.
 */
uint32_t cotelark_sign(size_t n, const uint8_t *object, size_t object_bytes, uint16_t signature[4]);

/*
 * The signature of two parts end to end, from theirs; the first part has `first_symbols` symbols, the second `second_symbols`.
 * It is the whole's own signature when each one handed in is its part's own and the first part has an even number of bytes.
 * Components above n are ignored on entry. Writes the components to `joined`, and zeros above n.
 * Refused: SIZE (either n), LONG (both counts together), MATCH (two different n).
 */
uint32_t cotelark_join(size_t first_n, const uint16_t first[4], size_t first_symbols, size_t second_n, const uint16_t second[4], size_t second_symbols,
                       uint16_t joined[4]);

/*
 * The signature of a page in which old bytes are replaced by new ones, from symbol `at_symbol` on; the page itself is not needed.
 * It is the edited page's own signature when the one handed in is the page's own and the page holds the old bytes there.
 * Components above n are ignored on entry. Writes the components to `edited`, and zeros above n.
 * Refused: SIZE, LONG (at_symbol and the old bytes' symbols together), ODD (either piece), MATCH (pieces of unequal length).
 */
uint32_t cotelark_edit(size_t n, const uint16_t signature[4], size_t at_symbol, const uint8_t *old_piece, size_t old_bytes, const uint8_t *new_piece,
                       size_t new_bytes, uint16_t edited[4]);

/*
 * The signature map of a bucket: 18 + pages * (3 + 2 * n) bytes, written to the start of `output`. The last page may be short.
 * value: the bytes written.
 * Refused: SIZE, PAGE, LONG, ROOM.
 */
uint32_t cotelark_make_map(size_t n, size_t page_bytes, const uint8_t *bucket, size_t bucket_bytes, uint8_t *output, size_t output_bytes, size_t *value);

/*
 * What a map's first fields say, once the whole map is found to keep its rules. Its buffer must end with the map.
 * Writes n, the bytes of a page and of the bucket, and the page count; zeros when refused.
 * value: 0.
 * Refused: MAP.
 */
uint32_t cotelark_read_map(const uint8_t *map, size_t map_bytes, size_t *n, size_t *page_bytes, size_t *bucket_bytes, size_t *pages, size_t *value);

/*
 * A map as text, written to the start of `output`: a line with n, page bytes, bucket bytes and page count, then a line a page; of a map that breaks a
 * rule the one line `map refused at P`. Every line ends with a newline.
 * value: the bytes written.
 * Refused: ROOM.
 */
uint32_t cotelark_list_map(const uint8_t *map, size_t map_bytes, uint8_t *output, size_t output_bytes, size_t *value);

/*
 * Stores a table: each page whose signature is not its entry's goes into the image, its signature into the entry, and its number to the next place of
 * `list`, upward. The other pages are kept. The list needs room for as many numbers as there are pages.
 * value: how many pages were written.
 * Refused: MAP, MATCH (table, image and the map's bucket differ in length), ROOM.
 */
uint32_t cotelark_store(const uint8_t *table, size_t table_bytes, uint8_t *image, size_t image_bytes, uint8_t *map, size_t map_bytes, size_t *list,
                        size_t list_numbers, size_t *value);

/*
 * One page of a store: the one at *place. Steps from place 0 until the answer is COTELARK_STEP_FINISHED do what a whole store does, without the list.
 * answer: COTELARK_STEP_KEPT or COTELARK_STEP_WRITTEN, and *place goes up by one; COTELARK_STEP_FINISHED where *place is the page count, and
 * COTELARK_STEP_REFUSED, and *place stays.
 * value: the page that was kept or written; 0 when finished.
 * Refused: MAP, MATCH (table, image and the map's bucket differ in length), PAGENO (a place above the page count).
 */
uint32_t cotelark_step(size_t *place, const uint8_t *table, size_t table_bytes, uint8_t *image, size_t image_bytes, uint8_t *map, size_t map_bytes,
                       uint32_t *answer, size_t *value);

/*
 * Where one page stands in the image: `bytes` bytes from image + start on, if they have their entry's signature. Nothing is copied.
 * Writes start and bytes; zeros when refused, and no page has 0 bytes.
 * value: 0.
 * Refused: MAP, MATCH (the image and the map's bucket differ in length), PAGENO (at or above the page count), DAMAGED.
 */
uint32_t cotelark_load_page(const uint8_t *image, size_t image_bytes, const uint8_t *map, size_t map_bytes, size_t page, size_t *start, size_t *bytes,
                            size_t *value);

/*
 * The same inputs put as a question: whether that page would be loaded.
 * value: 0.
 * Refused: as cotelark_load_page.
 */
uint32_t cotelark_ask_page(const uint8_t *image, size_t image_bytes, const uint8_t *map, size_t map_bytes, size_t page, size_t *value);

/*
 * Loads a bucket: all of the image goes into the table, once every page is found to have its entry's signature.
 * value: the bytes moved.
 * Refused: MAP, MATCH (table, image and the map's bucket differ in length), DAMAGED.
 */
uint32_t cotelark_load_bucket(const uint8_t *image, size_t image_bytes, const uint8_t *map, size_t map_bytes, uint8_t *table, size_t table_bytes,
                              size_t *value);

/*
 * Puts a page of the image right that one damaged symbol keeps from its entry's signature.
 * answer: COTELARK_REPAIR_WHOLE where the page has that signature; COTELARK_REPAIR_REPAIRED where the change of one symbol gives it, and was made;
 * COTELARK_REPAIR_BEYOND where no such change does; COTELARK_REPAIR_REFUSED. Only a repair changes the image, and only in that symbol. The zero that completes
 * an odd page is not in the image: a page that only another byte there would put right is beyond.
 * Writes the symbol's position in the page, its old and its new value, and `marked`; all are 0 unless repaired.
 * marked: 1 for a repair with n = 2, and 0 for one with n of 3 or 4. With n = 2 two damaged symbols may be taken for one: over a page of three zeros, 8, 6, 0
 * becomes 8, 6, 1. With n of 3 or 4 two are beyond. As long as the entry is the undamaged page's, one damaged symbol is always restored.
 * value: 0.
 * Refused: MAP, MATCH (the image and the map's bucket differ in length), PAGENO (at or above the page count), THIN.
 */
uint32_t cotelark_repair_page(uint8_t *image, size_t image_bytes, const uint8_t *map, size_t map_bytes, size_t page, uint32_t *answer,
                              size_t *position, uint16_t *old_symbol, uint16_t *new_symbol, uint32_t *marked, size_t *value);

/*
 * The cumulative code of a plain caption field of at most 32,768 symbols, written to the start of `output`; and the plain field of a code.
 * value: the bytes written, which are the field's.
 * Refused: LONG, ODD, ROOM.
 */
uint32_t cotelark_encode(const uint8_t *plain, size_t plain_bytes, uint8_t *output, size_t output_bytes, size_t *value);
uint32_t cotelark_decode(const uint8_t *code, size_t code_bytes, uint8_t *output, size_t output_bytes, size_t *value);

/*
 * The places at which a plain pattern of l symbols hits in an encoded field of m symbols, upward, written to the start of `list`. The list needs room
 * for m - l + 1 numbers when l is from 1 to m, and otherwise for none.
 * value: how many places were found.
 * Refused: LONG (the field), ODD (field or pattern), ROOM, EMPTY.
 */
uint32_t cotelark_search(const uint8_t *code, size_t code_bytes, const uint8_t *pattern, size_t pattern_bytes, size_t *list, size_t list_numbers,
                         size_t *value);

#ifdef __cplusplus
}
#endif

#endif
