// The header is C++ too: a C++ program compiles with it and links the archive. Status 0 where a push is done and read back.
#include "maaliskur.h"

int main()
{
    static uint32_t pool[16], handles[3];
    maaliskur_state cleared = {0, {0}};
    maaliskur_answer answer = maaliskur_push(cleared, pool, 16, handles, 3, 1, 7);
    // the function hides the struct of the same name, as in C++ it may: the struct is named with its keyword
    struct maaliskur_part part = maaliskur_part(answer.state, pool, 16, handles, 3, 1);
    return answer.number == MAALISKUR_DONE && pool[part.start] == 7 && part.end == part.start + 1 ? 0 : 1;
}
