/*
 * The structs of the header have the sizes and offsets that the archive was compiled with, and arrive there and back by
 * value. Status 0 where that holds; else a line for each fact that does not.
 */
#include "maaliskur.h"

#include "holds.h"

/* Where each field lies, in bytes. */
static void offsets(void)
{
    HOLDS(sizeof(uint32_t) == 4 && sizeof(size_t) == 8);
    HOLDS(sizeof(struct maaliskur_state) == 64);
    HOLDS(offsetof(struct maaliskur_state, used) == 0);
    HOLDS(offsetof(struct maaliskur_state, heads) == 4);
    HOLDS(sizeof(struct maaliskur_answer) == 72);
    HOLDS(offsetof(struct maaliskur_answer, number) == 0);
    HOLDS(offsetof(struct maaliskur_answer, value) == 4);
    HOLDS(offsetof(struct maaliskur_answer, state) == 8);
    HOLDS(sizeof(struct maaliskur_part) == 16);
    HOLDS(offsetof(struct maaliskur_part, start) == 0);
    HOLDS(offsetof(struct maaliskur_part, end) == 8);
}

/* A state whose words are all different comes back as it was, beside a number and a value; and so does a part. */
static void there_and_back(void)
{
    const uint32_t pool[8] = {3, 11, 12, 13, 2, 21, 22, 23};
    const uint32_t handles[2] = {1, 5};
    struct maaliskur_state state = {8, {0}};
    struct maaliskur_answer a;
    struct maaliskur_part part;

    for (uint32_t c = 0; c < MAALISKUR_CLASSES; c++) {
        state.heads[c] = 1000 + c;
    }
    a = maaliskur_get(state, pool, 8, handles, 2, 0, 2);
    HOLDS(a.number == MAALISKUR_DONE && a.value == 13 && a.state.used == 8);
    for (uint32_t c = 0; c < MAALISKUR_CLASSES; c++) {
        HOLDS(a.state.heads[c] == 1000 + c);
    }
    a = maaliskur_get(state, pool, 8, handles, 2, 2, 0);
    HOLDS(a.number == MAALISKUR_NO_SLOT && a.value == 0 && a.state.used == 8);
    part = maaliskur_part(state, pool, 8, handles, 2, 1);
    HOLDS(part.start == 5 && part.end == 7);
}

int main(void)
{
    offsets();
    there_and_back();
    return failed;
}
