/*
 * Every function of the header is called, with arguments that cannot be exchanged unseen, and every number comes back: what
 * the header declares is what the archive has. Status 0 where all holds; else a line for each fact that does not.
 */
#include "maaliskur.h"

#include "holds.h"

#define WORDS 64
#define SLOTS 4

static uint32_t pool[WORDS], handles[SLOTS], map[WORDS / 4];
static struct maaliskur_state state;

/* Every call is lent these, and is followed by what is its own. */
#define LENT state, pool, WORDS, handles, SLOTS

/* Takes the state out of an answer; is it this number with this value? */
static int answers(struct maaliskur_answer a, uint32_t number, uint32_t value)
{
    state = a.state;
    return a.number == number && a.value == value;
}

/* Has the list in a slot just these n elements? */
static int list_is(size_t slot, const uint32_t *elements, size_t n)
{
    struct maaliskur_part part = maaliskur_part(LENT, slot);

    for (size_t i = 0; i < n && part.start + i < part.end; i++) {
        if (pool[part.start + i] != elements[i]) {
            return 0;
        }
    }
    return part.end - part.start == n;
}

#define LIST_IS(slot, ...) list_is(slot, (const uint32_t[]){__VA_ARGS__}, sizeof((const uint32_t[]){__VA_ARGS__}) / 4)

/* Lists are made, read, changed and moved, and the audit accepts them. */
static void done(void)
{
    const uint32_t five[] = {10, 11, 12, 13, 14}, two[] = {20, 21};

    state.used = 5;
    handles[3] = 7;
    HOLDS(answers(maaliskur_clear_pool(LENT), MAALISKUR_DONE, 0));
    HOLDS(state.used == 0 && handles[3] == 0);

    HOLDS(answers(maaliskur_from_slice(LENT, 2, five, 5), MAALISKUR_DONE, 0));
    HOLDS(LIST_IS(2, 10, 11, 12, 13, 14));
    HOLDS(answers(maaliskur_len(LENT, 2), MAALISKUR_DONE, 5));
    HOLDS(answers(maaliskur_is_empty(LENT, 1), MAALISKUR_DONE, 1));
    HOLDS(answers(maaliskur_is_empty(LENT, 2), MAALISKUR_DONE, 0));
    HOLDS(answers(maaliskur_is_valid(LENT, 2), MAALISKUR_DONE, 1));
    HOLDS(answers(maaliskur_get(LENT, 2, 3), MAALISKUR_DONE, 13));
    HOLDS(answers(maaliskur_first(LENT, 2), MAALISKUR_DONE, 10));
    HOLDS(answers(maaliskur_set(LENT, 2, 1, 99), MAALISKUR_DONE, 0));
    HOLDS(LIST_IS(2, 10, 99, 12, 13, 14));

    HOLDS(answers(maaliskur_deep_clone(LENT, 2, 0), MAALISKUR_DONE, 0));
    HOLDS(LIST_IS(0, 10, 99, 12, 13, 14));
    HOLDS(answers(maaliskur_push(LENT, 1, 30), MAALISKUR_DONE, 0));
    HOLDS(answers(maaliskur_push(LENT, 1, 31), MAALISKUR_DONE, 1));
    HOLDS(answers(maaliskur_extend(LENT, 1, two, 2), MAALISKUR_DONE, 0));
    HOLDS(LIST_IS(1, 30, 31, 20, 21));
    HOLDS(answers(maaliskur_copy_from(LENT, 1, 2, 1, 3, 2), MAALISKUR_DONE, 0));
    HOLDS(LIST_IS(1, 30, 31, 99, 12, 20, 21));
    HOLDS(answers(maaliskur_insert(LENT, 1, 2, 40), MAALISKUR_DONE, 0));
    HOLDS(LIST_IS(1, 30, 31, 40, 99, 12, 20, 21));
    HOLDS(answers(maaliskur_remove(LENT, 1, 1), MAALISKUR_DONE, 0));
    HOLDS(LIST_IS(1, 30, 40, 99, 12, 20, 21));
    HOLDS(answers(maaliskur_swap_remove(LENT, 1, 0), MAALISKUR_DONE, 0));
    HOLDS(LIST_IS(1, 21, 40, 99, 12, 20));
    HOLDS(answers(maaliskur_truncate(LENT, 1, 2), MAALISKUR_DONE, 0));
    HOLDS(LIST_IS(1, 21, 40));
    HOLDS(answers(maaliskur_grow_at(LENT, 2, 4, 2), MAALISKUR_DONE, 0));
    HOLDS(answers(maaliskur_len(LENT, 2), MAALISKUR_DONE, 7));
    HOLDS(answers(maaliskur_get(LENT, 2, 6), MAALISKUR_DONE, 14));
    HOLDS(answers(maaliskur_take(LENT, 1, 3), MAALISKUR_DONE, 0));
    HOLDS(handles[1] == 0 && LIST_IS(3, 21, 40));
    HOLDS(answers(maaliskur_clear(LENT, 0), MAALISKUR_DONE, 0));
    HOLDS(handles[0] == 0);
    HOLDS(answers(maaliskur_audit(LENT, map, WORDS / 4), MAALISKUR_DONE, 0));
    HOLDS(map[0] == 3 && map[1] == 0);
}

/* Every refusal, on the pool that stands. */
static void refused(void)
{
    static uint32_t large[MAALISKUR_POOL_LIMIT + 1], wide[MAALISKUR_TABLE_LIMIT + 1];
    struct maaliskur_state sound = state;
    uint32_t handle = handles[2];

    state.used += 1;
    HOLDS(answers(maaliskur_len(LENT, 2), MAALISKUR_OVER_LIMIT, 0));
    state = sound;
    HOLDS(answers(maaliskur_len(state, large, MAALISKUR_POOL_LIMIT + 1, handles, SLOTS, 2), MAALISKUR_OVER_LIMIT, 0));
    HOLDS(answers(maaliskur_len(state, pool, WORDS, wide, MAALISKUR_TABLE_LIMIT + 1, 2), MAALISKUR_OVER_LIMIT, 0));
    HOLDS(answers(maaliskur_len(LENT, SLOTS), MAALISKUR_NO_SLOT, 0));
    handles[2] += 1;
    HOLDS(answers(maaliskur_is_valid(LENT, 2), MAALISKUR_BAD_HANDLE, 0));
    HOLDS(maaliskur_part(LENT, 2).end == 0);
    handles[2] = handle;
    HOLDS(answers(maaliskur_get(LENT, 2, 7), MAALISKUR_OUTSIDE, 0));
    HOLDS(answers(maaliskur_first(LENT, 1), MAALISKUR_OUTSIDE, 0));
    HOLDS(answers(maaliskur_take(LENT, 2, 3), MAALISKUR_CLASH, 0));
    state.heads[0] = handle;
    HOLDS(answers(maaliskur_push(LENT, 1, 1), MAALISKUR_BAD_HEAD, 0));
    state = sound;
    HOLDS(answers(maaliskur_grow_at(LENT, 2, 0, MAALISKUR_LONGEST), MAALISKUR_NO_ROOM, 0));
    HOLDS(answers(maaliskur_audit(LENT, map, state.used / 4 - 1), MAALISKUR_SHORT_MAP, 0));
    handles[1] = handle;
    HOLDS(answers(maaliskur_audit(LENT, map, WORDS / 4), MAALISKUR_NOT_SOUND, 0));
    HOLDS(map[0] == 0);
}

/* The header's example: a block that is in no list and on no chain. Of the map the audit clears a word for each group that is used. */
static void lost(void)
{
    uint32_t words[4] = {0, 0, UINT32_MAX, UINT32_MAX}, slots[1] = {0}, groups[2] = {5, 6};
    struct maaliskur_state four = {4, {0}};
    struct maaliskur_answer a = maaliskur_audit(four, words, 4, slots, 1, groups, 2);

    HOLDS(a.number == MAALISKUR_NOT_SOUND && a.value == 0 && a.state.used == 4);
    HOLDS(groups[0] == 0 && groups[1] == 6);
}

/* Classes and sizes, and where 32 bits end. */
static void classes(void)
{
    HOLDS(maaliskur_class(0) == 0 && maaliskur_class(MAALISKUR_LONGEST) == MAALISKUR_CLASSES - 1);
    HOLDS(maaliskur_class(MAALISKUR_LONGEST + 1) == MAALISKUR_CLASSES && maaliskur_class(4294967295u) == 30);
    HOLDS(maaliskur_size(0) == 4 && maaliskur_size(MAALISKUR_CLASSES - 1) == MAALISKUR_LONGEST + 1);
    HOLDS(maaliskur_size(29) == 2147483648u && maaliskur_size(30) == 0 && maaliskur_size(4294967295u) == 0);
}

int main(void)
{
    done();
    refused();
    lost();
    classes();
    return failed;
}
