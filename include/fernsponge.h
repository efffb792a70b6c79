/* Fernsponge: ranges of keys, sheets and rates of them, and positions of a log. Link libfernsponge.a (`make lib` puts it and this file into
 * target/, and `make install` where you say).
 *
 * Every function is proved to meet its contract, as long as the caller passes what the parameters say:
 * - a lent slice is an address and a length in elements. The address is not null and is aligned for its elements, also where the length is 0: a
 *   null address is not among what the functions are proved for, so lend the address of any element where there is none;
 * - numbers of a known count, as counts[3], are an address alone;
 * - a bool is 0 or 1;
 * - what is lent for writing overlaps nothing else that the call is lent, and nothing writes to what is lent while the call runs.
 *
 * All memory is the caller's: it is lent until the call returns. Nothing is kept after that, nothing is allocated, and there is nothing to free. A
 * pointer to const is read; what another pointer names is written where the call answers, as far as the comment says, and may be read before.
 * Strings have lengths and no 0 at their end.
 *
 * Threads: the library has no variables of its own, takes no lock and never waits. Any calls may run at the same time, as long as what one of them is
 * lent for writing is lent to no other. As compiled for x86-64, a call takes less than 4 KB of stack, but for fernsponge_collect: some 112 KB.
 *
 * Costs are told as O(..) with each function. A comparison of two keys costs O(bytes of the shorter one), and a key of an item has at most 255. Each
 * call checks all that it is given, so that one on a list or on intervals costs O(their number) at least.
 *
 * A function that may refuse returns 0 and writes its answer, or returns a refusal and writes nothing at all. FERNSPONGE_NUMBER,
 * FERNSPONGE_SIDE and FERNSPONGE_INDEX take a refusal apart; its numbers are those of enum fernsponge_refusal:
 *
 *    1  malformed: an unknown code, wrapper or kind, words of an absent key that are not 0, a list whose words are no multiple of 6 or that
 *       has more than 2,048 items, a pool of more than 65,536 bytes, a count beyond its buffer, an odd number of interval, window or key
 *       words, a report with more than 16 examples, a card that has not one amount for each item
 *    2  a key longer than 255 bytes, or reaching past the pool: of an item, of a row of a sheet, or of an invoice
 *    3  an item that is not upright: its start is above its end, or they are equal and one of them is left out, as in [05,05)
 *    4  an item out of order: in the algebra each item ends below the start of the next. In a list that is inserted into, items ascend by start and
 *       then by end, each plain one ends below the start of the next plain one, and no two are equal in code, wrapper and key bytes
 *    5  a wrapped item in a position query, or in a list that is to be written as a sheet
 *    6  the result needs more room than was lent; an insertion would make a list of 2,049 items; a sheet that is read has more than 2,048 rows
 *    7  a position key that is not 8 bytes
 *    8  proved positions that do not ascend strictly, spans that are turned round or start below the end of the one before
 *    9  intervals that are not canonical: nonempty, ascending, each end below the next start; a stored total that is not the number of the
 *       rows that they cover
 *   12  a row of a sheet that says no item
 *   14  an amount of a card below -10^12 or above 10^12
 *   15  an invoice of more than 1,000 keys
 *   16  windows of at most 0 rows
 *
 * Side 0 is ours, 1 theirs; position items, intervals, sheets, and a card's items and amounts are side 0, proved positions, spans, windows of a
 * plan, an item to insert and the keys of an invoice side 1. A pool, want of room, a report, an unknown kind and refusal 16 are side 0.
 * The index is that of the item, row, amount, key, pair or position, from 0, and one above 2^40 is told as 2^40; a wrong stored total has
 * the number of pairs; a single item, a pool, the shape of a list, a card or an invoice, want of room, a report, an unknown kind, and refusals 15 and
 * 16 have index 0.
 *
 * Of several faults the first in this order is told: of a list that is read, the pool's size, the list's shape, then item by item 1, 2, 3, 5 and 7,
 * then 4; ours entirely before theirs; of positions 1, 9, 8, then 16; 6 is last. Where a function differs, it says so.
 *
 * Keys stand in one pool of bytes, and an item names its keys by offset and length. An item is six words: code, wrapper, start offset, start
 * length, end offset, end length; the words of a key that its kind has not are 0. An item that may be missing is seven words: 1 and its six, or
 * seven times 0.
 */
#ifndef FERNSPONGE_H
#define FERNSPONGE_H

#include <stdbool.h>
#include <stddef.h>
#include <stdint.h>

#ifdef __cplusplus
extern "C" {
#endif

#define FERNSPONGE_VERSION "0.1.0"
#define FERNSPONGE_VERSION_MAJOR 0
#define FERNSPONGE_VERSION_MINOR 1
#define FERNSPONGE_VERSION_PATCH 0

/* The parts of a refusal: its number, whose input it means, and which element. */
#define FERNSPONGE_NUMBER(refusal) ((unsigned)((refusal) & 0xff))
#define FERNSPONGE_SIDE(refusal) ((unsigned)((refusal) >> 8 & 0xff))
#define FERNSPONGE_INDEX(refusal) ((uint64_t)(refusal) >> 16)

enum fernsponge_refusal {
    FERNSPONGE_REFUSED_MALFORMED = 1,
    FERNSPONGE_REFUSED_KEY_OUTSIDE = 2,
    FERNSPONGE_REFUSED_NOT_UPRIGHT = 3,
    FERNSPONGE_REFUSED_OUT_OF_ORDER = 4,
    FERNSPONGE_REFUSED_WRAPPED = 5,
    FERNSPONGE_REFUSED_NO_ROOM = 6,
    FERNSPONGE_REFUSED_NO_POSITION = 7,
    FERNSPONGE_REFUSED_NOT_ASCENDING = 8,
    FERNSPONGE_REFUSED_NOT_CANONICAL = 9,
    FERNSPONGE_REFUSED_BAD_ROW = 12,
    FERNSPONGE_REFUSED_AMOUNT_OUTSIDE = 14,
    FERNSPONGE_REFUSED_TOO_MANY_KEYS = 15,
    FERNSPONGE_REFUSED_EMPTY_WINDOWS = 16
};

enum fernsponge_side {
    FERNSPONGE_OURS = 0,
    FERNSPONGE_THEIRS = 1
};

/* Limits: the most items of a list, bytes of a pool, bytes of a key, keys of an invoice; the least and the most of an amount; the bytes of a key
 * that names a position; the most bytes of a report's text, and of a row that is written. The greatest index that is told. */
#define FERNSPONGE_MOST_ITEMS 2048
#define FERNSPONGE_MOST_POOL_BYTES 65536
#define FERNSPONGE_MOST_KEY_BYTES 255
#define FERNSPONGE_MOST_INVOICE_KEYS 1000
#define FERNSPONGE_LEAST_AMOUNT INT64_C(-1000000000000)
#define FERNSPONGE_MOST_AMOUNT INT64_C(1000000000000)
#define FERNSPONGE_POSITION_KEY_BYTES 8
#define FERNSPONGE_MOST_REPORT_BYTES 394
#define FERNSPONGE_MOST_ROW_BYTES 1045
#define FERNSPONGE_MOST_INDEX (UINT64_C(1) << 40)

/* Words of an item, of two boundaries, of an item that may be missing; places for the examples of a report. */
#define FERNSPONGE_ITEM_WORDS 6
#define FERNSPONGE_SET_WORDS 6
#define FERNSPONGE_MAYBE_WORDS 7
#define FERNSPONGE_EXAMPLES 16

/* Codes of items: a stands for the start, b for the end. */
enum fernsponge_code {
    FERNSPONGE_KEY = 0,                      /* k = a */
    FERNSPONGE_RANGE = 1,                    /* a <= k < b */
    FERNSPONGE_RANGE_INCLUSIVE = 2,          /* a <= k <= b */
    FERNSPONGE_RANGE_FULL = 3,               /* every key */
    FERNSPONGE_RANGE_FROM = 4,               /* a <= k */
    FERNSPONGE_RANGE_TO = 5,                 /* k < b */
    FERNSPONGE_RANGE_TO_INCLUSIVE = 6,       /* k <= b */
    FERNSPONGE_RANGE_AFTER = 7,              /* a < k */
    FERNSPONGE_RANGE_AFTER_TO = 8,           /* a < k < b */
    FERNSPONGE_RANGE_AFTER_TO_INCLUSIVE = 9  /* a < k <= b */
};

enum fernsponge_wrapper {
    FERNSPONGE_PLAIN = 0,
    FERNSPONGE_COUNT = 1,
    FERNSPONGE_SUM = 2,
    FERNSPONGE_COUNT_AND_SUM = 3
};

/* Kinds of boundaries. Any other number is refused with 1, side 0 and index 0, before all else. */
enum fernsponge_kind {
    FERNSPONGE_UNBOUNDED_START = 0,
    FERNSPONGE_UNBOUNDED_END = 1,
    FERNSPONGE_INCLUSIVE = 2,
    FERNSPONGE_EXCLUSIVE_START = 3,
    FERNSPONGE_EXCLUSIVE_END = 4
};

/* ---- keys: bytes of any length; nothing is refused */

/* How a stands to b: it returns 0 for less, 1 for equal, 2 for greater. O(bytes of the shorter key). */
uint64_t fernsponge_compare(const uint8_t *a, size_t a_length, const uint8_t *b, size_t b_length);

struct fernsponge_part {
    const uint8_t *at;
    size_t length;
};

/* The smaller of a and b, and b on a tie: *part is then that key's own address and length. No byte is copied, so that *part serves as long as these
 * bytes do. It is a lent slice before the call too: set it to {a, 0} or the like. O(bytes of the shorter key). */
void fernsponge_order_items(const uint8_t *a, size_t a_length, const uint8_t *b, size_t b_length, struct fernsponge_part *part);

/* ---- boundaries: a kind beside the bytes of a key, of any length. Of an unbounded one no byte is read */

/* How the boundary of kind_a at a stands to that of kind_b at b: *order is 0 for less, 1 for equal, 2 for greater. What is returned is a refusal, or
 * 0. O(bytes of the shorter key). */
uint64_t fernsponge_compare_boundaries(uint32_t kind_a, const uint8_t *a, size_t a_length, uint32_t kind_b, const uint8_t *b,
                                       size_t b_length, uint32_t *order);

/* The kind of the inverted boundary, as a start or as an end: inclusive becomes the exclusive one of that side, either exclusive one becomes
 * inclusive, and the unbounded stay. O(1). */
uint64_t fernsponge_invert(uint32_t kind, bool is_start, uint32_t *inverted);

/* ---- one item, upright or not. Refused are the pool (1), then 1 and 2 of the item, side 0 and index 0; the wrapper is read through */

/* The two boundaries of an item, as six words of their own: kinds of start and end, then offset and length of each key. O(1). */
uint64_t fernsponge_to_range_set(const uint8_t *pool, size_t pool_length, const uint32_t item[FERNSPONGE_ITEM_WORDS],
                                 uint32_t range[FERNSPONGE_SET_WORDS]);

/* The item of two boundaries, which may be missing: then no item has them. An unbounded one has no key: its words are 0, and others are refused with
 * 1, as an unknown kind is, before the pool. Inclusive to inclusive at the same bytes is a Key, with the start's offset. O(bytes of the shorter
 * key). */
uint64_t fernsponge_to_query_item(const uint8_t *pool, size_t pool_length, const uint32_t range[FERNSPONGE_SET_WORDS],
                                  uint32_t item[FERNSPONGE_MAYBE_WORDS]);

/* Two numbers, 1 for yes: the item holds the key; the key sits on an exclusive bound. The key is lent bytes of any length. O(bytes of the shorter
 * key). */
uint64_t fernsponge_could_contain_key(const uint8_t *pool, size_t pool_length, const uint32_t item[FERNSPONGE_ITEM_WORDS],
                                      const uint8_t *key, size_t key_length, uint32_t held[2]);

/* *yes is 1 where keys that the item holds may stand left of the key, or, where to_left is false, right of it. 0 means that none does; 1 may be a
 * false hope. The key is lent bytes of any length. O(bytes of the shorter key). */
uint64_t fernsponge_could_have_items_in_direction(const uint8_t *pool, size_t pool_length, const uint32_t item[FERNSPONGE_ITEM_WORDS],
                                                  const uint8_t *key, size_t key_length, bool to_left, uint32_t *yes);

/* ---- lists. A list's length is its number of words, six an item */

/* Whether a list can be used in the algebra, as ours or as theirs: 0, or the refusal of that side. O(items) comparisons. */
uint64_t fernsponge_check_list(const uint8_t *pool, size_t pool_length, const uint32_t *words, size_t words_length, bool theirs);

/* Which item of a list holds a key: found is 1 and its index, or twice 0 where no item holds it. The key is lent bytes of any length. The list
 * is checked as check_list does it, as ours. O(items) comparisons for the check, O(log items) for the search. */
uint64_t fernsponge_find_item(const uint8_t *pool, size_t pool_length, const uint32_t *words, size_t words_length, const uint8_t *key,
                              size_t key_length, uint64_t found[2]);

/* What two upright items share, and what each keeps left and right of the other; any may be missing. Wrappers are read through and dropped. The item
 * of theirs is side 1, and both have index 0. O(1) comparisons. */
uint64_t fernsponge_intersect_items(const uint8_t *pool, size_t pool_length, const uint32_t ours[FERNSPONGE_ITEM_WORDS],
                                    const uint32_t theirs[FERNSPONGE_ITEM_WORDS], uint32_t in_both[FERNSPONGE_MAYBE_WORDS],
                                    uint32_t ours_left[FERNSPONGE_MAYBE_WORDS], uint32_t ours_right[FERNSPONGE_MAYBE_WORDS],
                                    uint32_t theirs_left[FERNSPONGE_MAYBE_WORDS], uint32_t theirs_right[FERNSPONGE_MAYBE_WORDS]);

/* The three lists of two: shared, what both hold; ours, what only ours holds; theirs, what only theirs holds. Each goes to the front of the words
 * lent for it, and the words past it stay; counts has the items of each, in this order. As much room as both lists have together is always enough
 * for each; where one has less, all are counted before they are written, and 6 is told where one does not fit. Every item of them holds a key: what
 * lies below the empty key, and what lies between a key and that key with a zero byte appended, is in none of them.
 * O(items of both) comparisons. */
uint64_t fernsponge_intersect_many(const uint8_t *pool, size_t pool_length, const uint32_t *ours, size_t ours_length,
                                   const uint32_t *theirs, size_t theirs_length, uint32_t *shared_out, size_t shared_out_length,
                                   uint32_t *ours_out, size_t ours_out_length, uint32_t *theirs_out, size_t theirs_out_length,
                                   uint64_t counts[3]);

/* Inserts an item into the list of the first count items of words; *after is how many there are then. Freed words up to the old count become 0,
 * later ones stay.
 *
 * An item that is equal to the new one, in code, wrapper and key bytes, is replaced. Plain items merge with the new one, if that is plain too, where
 * neither ends below the start of the other, to the item of the smallest start and the largest end; of equal boundaries the new item's offset
 * stays. All others stay as they are: those that only touch it, as [01,05) and [05,09] do, every wrapped one, and every one where the new one is
 * wrapped. The result goes before the first item that is not below it, by start and then end.
 *
 * Plain items may be inserted in any order: where there is room for each step, the lists are the same, item by item, by kind,
 * wrapper and key bytes. Offsets may differ where equal keys stand at two places, and so may words past the list. A wrapped item and
 * another of the same range stand in order of arrival, the later one first; the result of an insertion arrives with it, whatever it replaced or
 * merged with.
 *
 * The list is checked each time, upright (3) and in its order (4), then the new item (1, 2 and 3, side 1 and index 0); a count of more items than
 * words has, or than 2,048, is refused with 1. 6 exactly where the new list has more items than words has room for, or than 2,048. O(items)
 * comparisons for the check, O(log items) for the place; the items behind it move once. */
uint64_t fernsponge_insert_item(const uint8_t *pool, size_t pool_length, uint32_t *words, size_t words_length, size_t count,
                                const uint32_t item[FERNSPONGE_ITEM_WORDS], uint64_t *after);

/* Collects a pool: the keys that the items of two lists name go to the front of fresh, and the items' offsets are rewritten, so that both lists
 * stand over fresh and every key reads as before; *used is how many bytes the keys have there. Equal keys stand there once, wherever they stood,
 * one after another in order of first use: ours before theirs, item by item, start before end. The empty key gets offset 0. Nothing else of an
 * item changes, and bytes of fresh past the keys stay: keys of later insertions may be written there. The old pool is only read; other lists and
 * the keys of an invoice still stand over it. Where there is one list, the length of the other is 0.
 *
 * The size of the old pool is checked first and then that of fresh, both side 0, then ours and then theirs: the shape of each, and item by item
 * 1 and 2. Items need be neither upright nor in order. 6 exactly where the distinct keys together have more bytes than fresh. Keys may overlap in
 * the old pool, so that apart they can need more bytes than it has; 65,536 bytes of fresh, the most that a pool has, are refused only where the
 * keys need more.
 *
 * O(n * log n) comparisons of n keys, and beside them moves of two bytes in its table: none where all keys ascend, and at worst n * n / 2. It takes
 * some 112 KB of stack. */
uint64_t fernsponge_collect(const uint8_t *pool, size_t pool_length, uint8_t *fresh, size_t fresh_length, uint32_t *ours, size_t ours_length,
                            uint32_t *theirs, size_t theirs_length, uint64_t *used);

/* ---- sheets. A sheet is comma-separated text under RFC 4180, a row for each item, of three fields: the item's name, which is Key, Range,
 * RangeInclusive, RangeFull, RangeFrom, RangeTo, RangeToInclusive, RangeAfter, RangeAfterTo or RangeAfterToInclusive, in exactly that case; its
 * start key; its end key. A key is hexadecimal, two digits a byte, and the empty key is `-`; the field of a key that the item does not have is
 * empty. CR LF ends a row. There is no header, and a text of no bytes has no items. Sheets have plain items only */

/* Reads a sheet: its keys go to the front of pool, and its items to the front of out, six words each, wrapper 0; *items is how many items, and
 * *bytes how many bytes of keys these are. The keys are packed in the order read, start before end, equal ones each time; an empty key gets the
 * place where packing stands, and length 0. Bytes and words past them stay. A field may be quoted, digits are read in either case, and the last row
 * may lack its line end. Room of out is whole items, out_length / 6; spare words are no fault, and stay.
 *
 * The whole text is checked first: 12 and the number of the first bad row, counted from 0. A row is bad that has not three fields; whose first is
 * none of the ten names; whose second or third is not as the item has it: not empty where it has no such key, or, where it has one, neither `-`
 * nor digits alone, two or more and even in number; in which a quote is not closed, or stands inside a field; or that does not end in CR LF, unless
 * the text ends there. So a blank row is bad, a space, a CR or LF alone, a byte order mark, and, as no name and no key has a quote, a doubled
 * quote. No row before the first bad one has a line end inside, so that its number is that of its line.
 *
 * Then 1 for a pool of more than 65,536 bytes, then 2 and the number of the first row that has a key longer than 255 bytes, then 6, exactly where
 * the keys have more bytes than pool, or the items are more than out has room for, or more than 2,048. Items need be neither upright nor in order.
 * It costs O(text_length): the text is read once to check, and once more to write. */
uint64_t fernsponge_read_sheet(const uint8_t *text, size_t text_length, uint8_t *pool, size_t pool_length, uint32_t *out, size_t out_length,
                               uint64_t *items, uint64_t *bytes);

/* Writes a list of plain items as a sheet, to the front of text; *bytes is its length, with no 0 at its end, and bytes past it stay. Digits are in
 * upper case, no field is quoted, and CR LF ends every row. Reading it gives the same items by kind and key bytes, where pool and list have room.
 *
 * The pool's size is checked first, then the list's shape, then item by item 1, 2, and 5 for a wrapped one. Items need be neither upright nor in
 * order. 6 exactly where the sheet has more bytes than text; the longest row, two keys of 255 bytes and the longest name, has 1,045. It costs
 * O(words_length + bytes of the sheet): the items are walked to check, to measure and to write. */
uint64_t fernsponge_write_sheet(const uint8_t *pool, size_t pool_length, const uint32_t *words, size_t words_length, uint8_t *text,
                                size_t text_length, uint64_t *bytes);

/* ---- rate cards. A card is a list, checked as check_list does it, as ours, and one amount for each item: ten-thousandths of the currency
 * unit, from -10^12 to 10^12. Wrappers are read through. Nothing is lent for writing but the places of the answer */

/* An amount or a sum, in ten-thousandths, as the nearest number of cents, and of two the even one: 50 is 0, 150 is 2, -50 is 0, -150 is -2.
 * Any amount; it refuses nothing, and returns the cents. O(1). */
int64_t fernsponge_to_cents(int64_t amount);

/* The rate of a key: *has is 1 and *amount that of the item that holds it, or both are 0 where none does. The key is lent bytes of any length.
 * O(items) comparisons for the check of the card, O(log items) for the search. */
uint64_t fernsponge_rate(const uint8_t *pool, size_t pool_length, const uint32_t *words, size_t words_length, const int64_t *amounts,
                         size_t amounts_length, const uint8_t *key, size_t key_length, uint32_t *has, int64_t *amount);

/* The totals of an invoice of up to 1,000 keys: the exact sum of their rates, how many of them no item holds, and the sum in cents, as
 * to_cents has it. keys are words in pairs, offset and length in the pool, and keys_length is the number of words, two a key; a key that stands
 * there twice counts twice. The card is checked before the keys. O(items) comparisons for the check of the card, O(log items) for each key. */
uint64_t fernsponge_invoice(const uint8_t *pool, size_t pool_length, const uint32_t *words, size_t words_length, const int64_t *amounts,
                            size_t amounts_length, const uint32_t *keys, size_t keys_length, int64_t *sum, uint64_t *without, int64_t *cents);

/* ---- positions. Intervals are pairs of words, start and end, half-open; their length is the number of words.
 *
 * They are canonical (9, above), and fewer pairs would not do: no list of half-open pairs, sorted or not, overlapping or not, empty pairs included,
 * that covers the same positions has fewer, and a canonical list that covers the same positions is the same list. Both are proved of all
 * canonical pairs, and so of what from_query_items writes and of what any sequence of cover and uncover leaves. */

/* The position of a key of 8 bytes, the first the greatest; another is refused with 7, side 0 and index 0. O(1). */
uint64_t fernsponge_be_u64(const uint8_t *key, size_t key_length, uint64_t *position);

/* The positions below count that items cover, as canonical pairs at the front of out; *pairs is how many pairs, and *total how many positions
 * they cover: together a stored list (below). Items may stand in any order, and need not be upright.
 *
 * Room is counted before merging: 6 exactly where more items cover a position below count than out has pairs of room, out_length / 2, however few
 * pairs they merge to. So two words for each item are always enough. With one pair for each of the items that cover such a position, words of
 * these pairs that merging frees become 0, and later ones stay, an odd last word too. O(items) where their ranges ascend and stand apart, else
 * O(items * log items). */
uint64_t fernsponge_from_query_items(const uint8_t *pool, size_t pool_length, const uint32_t *items, size_t items_length, uint64_t count,
                                     uint64_t *out, size_t out_length, uint64_t *pairs, uint64_t *total);

/* *yes is 1 where a position is covered, else 0. O(pairs) for the check, O(log pairs) for the search. */
uint64_t fernsponge_contains(const uint64_t *intervals, size_t intervals_length, uint64_t position, uint32_t *yes);

/* How many positions are covered. O(pairs). */
uint64_t fernsponge_len(const uint64_t *intervals, size_t intervals_length, uint64_t *rows);

/* *yes is 1 where none is, else 0. O(pairs), for the check. */
uint64_t fernsponge_is_empty(const uint64_t *intervals, size_t intervals_length, uint32_t *yes);

/* A stored list is a buffer of words, how many pairs stand at its front, and beside it the total of the rows that they cover, which no one has to
 * count again. from_query_items makes one; the other functions on intervals are lent its first 2 * pairs words. Its room is words_length / 2 pairs;
 * an odd last word is no fault, and stays.
 *
 * Each of the next three functions checks the whole list before all else, once over its pairs, O(pairs): more pairs than room are refused with 1,
 * the first pair that is not canonical with 9 and its index, and then a total that is not the number of covered rows with 9 and the number of
 * pairs as index. No range is clipped: it may end at UINT64_MAX, a row that is never covered itself. */

/* The total of a stored list, which is the one that was passed: for who brings words of their own, as from a file. */
uint64_t fernsponge_stored_total(const uint64_t *words, size_t words_length, size_t pairs, uint64_t total, uint64_t *rows);

/* Covers the rows from start on, below end: the front of words is then the canonical list of these and of all that were covered; *after is
 * how many pairs it has, and *rows how many rows it covers. Freed words up to the old number of pairs become 0, later ones stay. A start that
 * is not below its end changes nothing, and the old numbers are told. 6 exactly where the new list has more pairs than room, so that a range which
 * merges pairs passes in a full buffer. Past the check it costs O(log pairs) to find the place, and the pairs that are touched or moved. */
uint64_t fernsponge_cover(uint64_t *words, size_t words_length, size_t pairs, uint64_t total, uint64_t start, uint64_t end,
                          uint64_t *after, uint64_t *rows);

/* Uncovers them: the list of all rows that were covered and are not among them, in the same way and at the same cost. Where a pair is cut in its
 * middle, there is one pair more. */
uint64_t fernsponge_uncover(uint64_t *words, size_t words_length, size_t pairs, uint64_t total, uint64_t start, uint64_t end,
                            uint64_t *after, uint64_t *rows);

/* A report is its total, how many examples it has, and their places: the smallest positions that are off, then zeros. */

/* The report that nothing is off; it refuses nothing, and returns 0. O(1). */
uint64_t fernsponge_empty_report(uint64_t *total, uint64_t *count, uint64_t examples[FERNSPONGE_EXAMPLES]);

/* Which covered positions are not among the proved ones, which ascend strictly. O(pairs + proved). */
uint64_t fernsponge_missing_from(const uint64_t *intervals, size_t intervals_length, const uint64_t *proved, size_t proved_length,
                                 uint64_t *total, uint64_t *count, uint64_t examples[FERNSPONGE_EXAMPLES]);

struct fernsponge_span {
    uint64_t start;
    uint64_t end;
};

/* Which covered positions lie in no span, from start on, below end. A span may be empty, and none starts below the end of the one before it.
 * O(pairs + spans). */
uint64_t fernsponge_missing_from_spans(const uint64_t *intervals, size_t intervals_length, const struct fernsponge_span *spans,
                                       size_t spans_length, uint64_t *total, uint64_t *count, uint64_t examples[FERNSPONGE_EXAMPLES]);

/* Which proved positions, which ascend strictly, are not covered. O(pairs + proved). */
uint64_t fernsponge_extra_in(const uint64_t *intervals, size_t intervals_length, const uint64_t *proved, size_t proved_length,
                             uint64_t *total, uint64_t *count, uint64_t examples[FERNSPONGE_EXAMPLES]);

/* A row is missing where it is covered and not proved. A plan is windows of rows to fetch again: pairs of words, start and end, half-open; its
 * length is the number of words. most is the most rows of a window. */

/* The plan of our planner, at the front of out; *windows is how many windows it has, and the words past them stay. It opens a window at the
 * first missing row that is not yet planned, and ends it behind the last missing row within most rows. Room for (covered rows / most +
 * intervals) windows, two words each, is always enough; with less, the windows are counted before they are written, and 6 is told where they do not
 * fit. An odd last word of out is no fault, and stays. O(pairs + proved + windows). */
uint64_t fernsponge_plan_refetch(const uint64_t *intervals, size_t intervals_length, const uint64_t *proved, size_t proved_length,
                                 uint64_t most, uint64_t *out, size_t out_length, uint64_t *windows);

/* 1 where a plan, of any planner, is accepted: its windows ascend and share no row, each is nonempty and at most `most` rows wide, each begins
 * and ends on a missing row, and together they contain every missing row. A window may start at the end of the one before it. Any other plan
 * is answered 0; of its words only an odd number is refused, before what is wrong with the proved positions. O(pairs + proved + windows). */
uint64_t fernsponge_check_plan(const uint64_t *intervals, size_t intervals_length, const uint64_t *proved, size_t proved_length, uint64_t most,
                               const uint64_t *plan, size_t plan_length, uint32_t *yes);

/* The text of a report, at the front of out; *written is its length, 394 bytes at most, with no 0 at its end, and bytes past it stay. 1 for a count
 * of more than 16 examples, then 6 exactly where the text is longer than out. O(1). */
uint64_t fernsponge_describe(uint64_t total, uint64_t count, const uint64_t examples[FERNSPONGE_EXAMPLES], uint8_t *out, size_t out_length,
                             uint64_t *written);

#ifdef __cplusplus
}
#endif

#endif
