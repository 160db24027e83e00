/*
 * Maaliskur: lists of 32-bit words in a lent pool. The functions of libmaaliskur.a, for C99 and C++ on x86-64.
 *
 * The caller lends two arrays: a pool of words, and a table of handles. A list is named by its slot in the table. The
 * pool's state is a value: each call takes it and hands the next one back in its answer. Nothing is allocated.
 *
 *     #include "maaliskur.h"
 *     static uint32_t pool[1024], handles[16], map[256];
 *     int main(void) {
 *         struct maaliskur_state cleared = {0, {0}};
 *         struct maaliskur_answer a = maaliskur_push(cleared, pool, 1024, handles, 16, 3, 7);
 *         a = maaliskur_push(a.state, pool, 1024, handles, 16, 3, 8);
 *         struct maaliskur_part list = maaliskur_part(a.state, pool, 1024, handles, 16, 3);
 *         a = maaliskur_audit(a.state, pool, 1024, handles, 16, map, 256);
 *         return a.number == MAALISKUR_DONE && pool[list.start] == 7 && pool[list.end - 1] == 8 ? 0 : 1;
 *     }
 *
 * Every call answers on every input: any state, words, handles, slots, positions, counts and elements. It is done, or
 * refused with a number, and then it has changed nothing, but for one case: an audit that is refused with 9 has cleared
 * the first used / 4 words of its map. (Used 4, the words 0, 0, 4294967295, 4294967295, heads and handles 0, and the
 * map 5, 6: it answers 9, and the map is 0, 6.) That, and what each call writes, is proved of the functions
 * behind this header. Of the blocks in the pool a call judges no more than the handles that it names, and the head of the
 * class that it needs a block of. That two slots share a block, or that blocks overlap or are lost, the audit sees; a call
 * may be done all the same. Not proved, and the caller's to see to:
 *
 * - A pointer is not null, also where its length is 0, is aligned as uint32_t is, and has as many words behind it as
 *   the length after it says.
 * - What a call writes overlaps nothing else that is lent to the same call, and nothing else touches it meanwhile.
 *   Arrays whose pointer is const are only read.
 */
#ifndef MAALISKUR_H
#define MAALISKUR_H

#include <stddef.h>
#include <stdint.h>

#ifdef __cplusplus
extern "C" {
#endif

/*
 * LIMITS
 */

/* The most words of a pool. */
#define MAALISKUR_POOL_LIMIT 65536u

/* The most handles of a table. */
#define MAALISKUR_TABLE_LIMIT 16384u

/* The most elements of a list. */
#define MAALISKUR_LONGEST 65535u

/* The number of classes, from 0 on, and so of heads. A block of class 0 has 4 words, and each class twice the one before. */
#define MAALISKUR_CLASSES 15u

/*
 * THE NUMBERS that calls answer with. The lowest that applies is given, judged on what stands before the call.
 */

/* The call is done. */
#define MAALISKUR_DONE 0u

/* The pool or the table is over its limit, or used is above the pool's length or not a multiple of 4. */
#define MAALISKUR_OVER_LIMIT 1u

/* A slot is not in the table. */
#define MAALISKUR_NO_SLOT 2u

/*
 * A handle that the call names is not locally sound. One is if it is 0, or if it leaves 1 on division by 4, is below
 * used, the length before it is at least 1, and its whole block lies below used.
 */
#define MAALISKUR_BAD_HANDLE 3u

/* A position or a range is outside the list. */
#define MAALISKUR_OUTSIDE 4u

/* Slots clash: the one to be filled is not empty, or two that have to be different are not. */
#define MAALISKUR_CLASH 5u

/*
 * A block is needed, and the head of its class is not locally sound. One is if it is 0, or if it leaves 1 on division by
 * 4, has 0 in the word before it, and its block of that class lies below used.
 */
#define MAALISKUR_BAD_HEAD 6u

/*
 * A block is needed and there is none: the list would be longer than MAALISKUR_LONGEST, or no block of its class is free
 * and the words from used on do not hold one. Blocks of other classes are never split or joined.
 */
#define MAALISKUR_NO_ROOM 7u

/* The audit alone: the map is shorter than used / 4 words. */
#define MAALISKUR_SHORT_MAP 8u

/* The audit alone: the pool is not sound. */
#define MAALISKUR_NOT_SOUND 9u

/*
 * STRUCTS
 */

/*
 * The pool's state: how many words are used, and for each class the head of its chain of free blocks. A list's block and
 * a free block are
 *
 *  | length | elements .. | excess words .. |        | 0 | next | anything .. |
 *             ^ handle = block start + 1                   ^ head or next = block start + 1
 *
 * Handle 0 is the empty list, and a head or next of 0 ends the chain. With used, all heads and all handles 0 the pool is
 * cleared, whatever its words are.
 */
struct maaliskur_state {
    uint32_t used;
    uint32_t heads[MAALISKUR_CLASSES];
};

/*
 * What a call answers: the number; the value, which is 0 where the call is refused or has nothing to return; and the
 * state to pass to the next call, which is the one that was given where the call is refused.
 */
struct maaliskur_answer {
    uint32_t number;
    uint32_t value;
    struct maaliskur_state state;
};

/* Where the elements of a list lie: in the pool's words from start to end, end not included. */
struct maaliskur_part {
    size_t start;
    size_t end;
};

/*
 * CALLS THAT READ A LIST. Each can answer 1, 2 or 3 besides the numbers that it names.
 */

/* Tells whether the list in a slot is empty: the value is 1 where it is, else 0. */
struct maaliskur_answer maaliskur_is_empty(struct maaliskur_state state, const uint32_t *pool, size_t pool_len,
                                           const uint32_t *handles, size_t handles_len, size_t slot);

/* Gives the number of elements of the list in a slot as the value. */
struct maaliskur_answer maaliskur_len(struct maaliskur_state state, const uint32_t *pool, size_t pool_len,
                                      const uint32_t *handles, size_t handles_len, size_t slot);

/* Tells whether the list in a slot is valid: the value is 1, and a list that is not is refused. */
struct maaliskur_answer maaliskur_is_valid(struct maaliskur_state state, const uint32_t *pool, size_t pool_len,
                                           const uint32_t *handles, size_t handles_len, size_t slot);

/* Gives the element at a position of the list in a slot as the value; 4 where position < length does not hold. */
struct maaliskur_answer maaliskur_get(struct maaliskur_state state, const uint32_t *pool, size_t pool_len,
                                      const uint32_t *handles, size_t handles_len, size_t slot, size_t position);

/* Gives the first element of the list in a slot as the value; 4 where the list is empty. */
struct maaliskur_answer maaliskur_first(struct maaliskur_state state, const uint32_t *pool, size_t pool_len,
                                        const uint32_t *handles, size_t handles_len, size_t slot);

/*
 * Returns where the elements of the list in a slot lie, to be read, or to be written where the caller may write the
 * pool. The part is empty for an empty list, and where maaliskur_len would be refused. It holds until the next call that
 * writes the pool.
 */
struct maaliskur_part maaliskur_part(struct maaliskur_state state, const uint32_t *pool, size_t pool_len,
                                     const uint32_t *handles, size_t handles_len, size_t slot);

/*
 * CALLS THAT WRITE A LIST. Each can answer 1, 2 or 3 besides the numbers that it names.
 */

/* Sets the element at a position of the list in a slot; 4 where position < length does not hold. */
struct maaliskur_answer maaliskur_set(struct maaliskur_state state, uint32_t *pool, size_t pool_len,
                                      const uint32_t *handles, size_t handles_len, size_t slot, size_t position,
                                      uint32_t element);

/* Puts a list of n elements into an empty slot; 5 where the slot is not empty; 6, 7. */
struct maaliskur_answer maaliskur_from_slice(struct maaliskur_state state, uint32_t *pool, size_t pool_len,
                                             uint32_t *handles, size_t handles_len, size_t slot,
                                             const uint32_t *elements, size_t n);

/* Puts a copy of the list in a slot into the empty slot to; 5 where that is not empty; 6, 7. */
struct maaliskur_answer maaliskur_deep_clone(struct maaliskur_state state, uint32_t *pool, size_t pool_len,
                                             uint32_t *handles, size_t handles_len, size_t slot, size_t to);

/* Moves the list in a slot to the empty slot to; 5 where that is the same slot or not empty. */
struct maaliskur_answer maaliskur_take(struct maaliskur_state state, const uint32_t *pool, size_t pool_len,
                                       uint32_t *handles, size_t handles_len, size_t slot, size_t to);

/* Removes all elements from the list in a slot, and gives its block back. */
struct maaliskur_answer maaliskur_clear(struct maaliskur_state state, uint32_t *pool, size_t pool_len,
                                        uint32_t *handles, size_t handles_len, size_t slot);

/* Appends an element to the list in a slot; the value is the length before; 6, 7. */
struct maaliskur_answer maaliskur_push(struct maaliskur_state state, uint32_t *pool, size_t pool_len,
                                       uint32_t *handles, size_t handles_len, size_t slot, uint32_t element);

/* Appends n elements to the list in a slot; 6, 7. */
struct maaliskur_answer maaliskur_extend(struct maaliskur_state state, uint32_t *pool, size_t pool_len,
                                         uint32_t *handles, size_t handles_len, size_t slot, const uint32_t *elements,
                                         size_t n);

/*
 * Copies the elements from start to end, end not included, of the list in the slot source into the list in a slot, at a
 * position, from which on its elements shift up; 4 where position <= length or start <= end <= length of the source does
 * not hold; 5 where the two slots have equal handles, two empty lists included; 6, 7.
 */
struct maaliskur_answer maaliskur_copy_from(struct maaliskur_state state, uint32_t *pool, size_t pool_len,
                                            uint32_t *handles, size_t handles_len, size_t slot, size_t source,
                                            size_t start, size_t end, size_t position);

/*
 * Puts an element at a position of the list in a slot, from which on its elements shift up; 4 where position <= length
 * does not hold; 6, 7.
 */
struct maaliskur_answer maaliskur_insert(struct maaliskur_state state, uint32_t *pool, size_t pool_len,
                                         uint32_t *handles, size_t handles_len, size_t slot, size_t position,
                                         uint32_t element);

/*
 * Grows the list in a slot by a count at a position, from which on its elements shift up. The places that opens keep
 * what stood there. 4 where position <= length does not hold; 6, 7.
 */
struct maaliskur_answer maaliskur_grow_at(struct maaliskur_state state, uint32_t *pool, size_t pool_len,
                                          uint32_t *handles, size_t handles_len, size_t slot, size_t position,
                                          size_t count);

/*
 * Removes the element at a position of the list in a slot; those behind it shift down. 4 where position < length does
 * not hold; 6 and 7, since a list that becomes shorter can need a smaller block before it gives its own back.
 */
struct maaliskur_answer maaliskur_remove(struct maaliskur_state state, uint32_t *pool, size_t pool_len,
                                         uint32_t *handles, size_t handles_len, size_t slot, size_t position);

/* Removes the element at a position of the list in a slot; the last takes its place. Refused as maaliskur_remove is. */
struct maaliskur_answer maaliskur_swap_remove(struct maaliskur_state state, uint32_t *pool, size_t pool_len,
                                              uint32_t *handles, size_t handles_len, size_t slot, size_t position);

/* Shortens the list in a slot to a length, and does nothing where it is no longer than that; 6, 7 as maaliskur_remove. */
struct maaliskur_answer maaliskur_truncate(struct maaliskur_state state, uint32_t *pool, size_t pool_len,
                                           uint32_t *handles, size_t handles_len, size_t slot, size_t length);

/*
 * THE WHOLE POOL
 */

/*
 * Clears the pool: nothing is used, no block is free, and every list is empty. No word of the pool is touched. Any state
 * is taken: 1 is for a pool or a table over its limit alone.
 */
struct maaliskur_answer maaliskur_clear_pool(struct maaliskur_state state, const uint32_t *pool, size_t pool_len,
                                             uint32_t *handles, size_t handles_len);

/* What the mark of a free block in the audit's map adds to its class. */
#define MAALISKUR_FREE 2147483648u

/*
 * Audits the pool: it is done where every handle and every pointer on each chain is locally sound, the chains end, and the
 * blocks do not overlap and cover all used words. The map then says at the first group of four words of each block
 * slot + 1, for the list in that slot, or MAALISKUR_FREE + class, for a free block, and at its other groups 0. The map
 * needs used / 4 words, and its words past them stay. It can answer 1; 8; and 9, with those words of the map 0.
 */
struct maaliskur_answer maaliskur_audit(struct maaliskur_state state, const uint32_t *pool, size_t pool_len,
                                        const uint32_t *handles, size_t handles_len, uint32_t *map, size_t map_len);

/*
 * CLASSES AND SIZES
 */

/*
 * Returns the class of a length, over MAALISKUR_LONGEST too: the least class whose block holds the length word and that
 * many elements.
 */
uint32_t maaliskur_class(uint32_t length);

/* Returns the words in a block of a class, 4 shifted left by it; 0 where 32 bits do not hold that, from class 30 on. */
uint32_t maaliskur_size(uint32_t size_class);

#ifdef __cplusplus
}
#endif

#endif
