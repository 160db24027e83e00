/*
 * The bench sheet of paper 01, P1 to P12, through the header: a line for each row, 'ok' or 'wrong', and status 1 if one is
 * wrong.
 */
#include "maaliskur.h"

#include <stdio.h>

#define SLOTS 3
#define MAX 4294967295u

/* A bench: memory that is all 0 at the start, of which the first words are lent as the pool; three slots; the state. */
struct bench {
    uint32_t memory[16384];
    size_t lent;
    uint32_t handles[SLOTS];
    struct maaliskur_state state;
};

/* What is to stand on a bench: the pool's first words, behind which all are still 0, the handles, and the state. */
struct stand {
    uint32_t words[16];
    uint32_t handles[SLOTS];
    struct maaliskur_state state;
};

static int failed;

/* Writes the line of a row. */
static void row(int p, int ok)
{
    printf("P%d %s\n", p, ok ? "ok" : "wrong");
    failed |= !ok;
}

/* Are the first n words those, and the others up to length 0? */
static int words_are(const uint32_t *words, size_t length, const uint32_t *expected, size_t n)
{
    for (size_t i = 0; i < length; i++) {
        if (words[i] != (i < n ? expected[i] : 0)) {
            return 0;
        }
    }
    return 1;
}

/* Does just that stand on the bench? */
static int stands(const struct bench *b, const struct stand *s)
{
    return words_are(b->memory, 16384, s->words, 16) && words_are(b->handles, SLOTS, s->handles, SLOTS) &&
           b->state.used == s->state.used &&
           words_are(b->state.heads, MAALISKUR_CLASSES, s->state.heads, MAALISKUR_CLASSES);
}

/* Takes the state out of an answer; is it this number with this value? */
static int answers(struct bench *b, struct maaliskur_answer a, uint32_t number, uint32_t value)
{
    b->state = a.state;
    return a.number == number && a.value == value;
}

static struct maaliskur_answer push(struct bench *b, size_t slot, uint32_t element)
{
    return maaliskur_push(b->state, b->memory, b->lent, b->handles, SLOTS, slot, element);
}

static struct maaliskur_answer remove_at(struct bench *b, size_t slot, size_t position)
{
    return maaliskur_remove(b->state, b->memory, b->lent, b->handles, SLOTS, slot, position);
}

static struct maaliskur_answer audit(const struct bench *b, uint32_t *map, size_t map_len)
{
    return maaliskur_audit(b->state, b->memory, b->lent, b->handles, SLOTS, map, map_len);
}

/* What stands after P4, and again where P6 is refused. */
static const struct stand after_p4 = {{1, 5, 8, 9, 4, 7, 8, 9, 10, MAX, MAX, MAX}, {5, 1}, {12, {0}}};

/* Goes through P1 to P4, for which 12 words are enough, and says of each whether it is right. */
static void four_rows(struct bench *b, int right[4])
{
    const struct stand after_p1 = {{1, 7, MAX, MAX}, {1}, {4, {0}}};
    const struct stand after_p2 = {{3, 7, 8, 9}, {1}, {4, {0}}};
    const struct stand after_p3 = {{0, 0, 8, 9, 4, 7, 8, 9, 10, MAX, MAX, MAX}, {5}, {12, {1}}};

    right[0] = answers(b, push(b, 0, 7), 0, 0) && stands(b, &after_p1);
    right[1] = answers(b, push(b, 0, 8), 0, 1) && answers(b, push(b, 0, 9), 0, 2) && stands(b, &after_p2);
    right[2] = answers(b, push(b, 0, 10), 0, 3) && stands(b, &after_p3);
    right[3] = answers(b, push(b, 1, 5), 0, 0) && stands(b, &after_p4);
}

int main(void)
{
    static struct bench b = {.lent = 16}, small = {.lent = 12}, fresh = {.lent = 16};
    const uint32_t more[] = {1, 2, 3}, list[] = {7, 8};
    const uint32_t blocks[] = {MAALISKUR_FREE, 2, 0, 1};
    const struct stand after_p5 = {{1, 5, 8, 9, 0, 0, 9, 10, 10, MAX, MAX, MAX, 3, 8, 9, 10}, {13, 1}, {16, {0, 5}}};
    const struct stand after_p8 = {{0, 0, 8, 9, 4, 5, 1, 2, 3, MAX, MAX, MAX, 3, 8, 9, 10}, {13, 5}, {16, {1}}};
    const struct stand after_p11 = {{3, 5, 1, 2, 0, 0, 1, 2, 3, MAX, MAX, MAX, 3, 8, 9, 10}, {13, 1}, {16, {0, 5}}};
    const struct stand after_p12 = {{3, 7, 7, 8}, {1}, {4, {0}}};
    uint32_t map[5] = {0};
    int right[4];

    four_rows(&b, right);
    for (int i = 0; i < 4; i++) {
        row(i + 1, right[i]);
    }
    row(5, answers(&b, remove_at(&b, 0, 0), 0, 0) && stands(&b, &after_p5));

    four_rows(&small, right);
    row(6, right[0] && right[1] && right[2] && right[3] && answers(&small, remove_at(&small, 0, 0), 7, 0) &&
               stands(&small, &after_p4));

    row(7, answers(&b, push(&b, 2, 1), 7, 0) && stands(&b, &after_p5));

    row(8, answers(&b, maaliskur_extend(b.state, b.memory, b.lent, b.handles, SLOTS, 1, more, 3), 0, 0) &&
               answers(&b, audit(&b, map, 5), 0, 0) && words_are(map, 5, blocks, 4) && stands(&b, &after_p8));

    b.handles[2] = 5;
    row(9, answers(&b, audit(&b, map, 5), 9, 0) && words_are(map, 5, NULL, 0));
    b.handles[2] = 0;

    row(10, maaliskur_class(1) == 0 && maaliskur_class(3) == 0 && maaliskur_class(4) == 1 && maaliskur_class(7) == 1 &&
                maaliskur_class(8) == 2 && maaliskur_class(65535) == 14);

    row(11, answers(&b, maaliskur_truncate(b.state, b.memory, b.lent, b.handles, SLOTS, 1, 3), 0, 0) &&
                stands(&b, &after_p11));

    row(12, answers(&fresh, maaliskur_from_slice(fresh.state, fresh.memory, fresh.lent, fresh.handles, SLOTS, 0, list, 2),
                    0, 0) &&
                answers(&fresh, maaliskur_grow_at(fresh.state, fresh.memory, fresh.lent, fresh.handles, SLOTS, 0, 0, 1), 0,
                        0) &&
                stands(&fresh, &after_p12));
    return failed;
}
