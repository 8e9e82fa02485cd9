/* lk_shrink_reach: it lowers the reach of mappings, and changes nothing else. */
#include "judge.h"

#define NUMBER(number) (given(#number, &number, sizeof number), number)

void both_shrink_reach(const struct lk_nat *nat, struct lk_mapping *mappings, size_t count, uint64_t now)
{
    const size_t used = used_len(count), len = used * sizeof *mappings;
    struct lk_mapping *changed;
    CALL(lk_shrink_reach);
    given("mappings", mappings, len);
    changed = room(mappings, len);
    lk_shrink_reach(given("nat", nat, sizeof *nat), changed, NUMBER(count), NUMBER(now));
    end_call(0, 0);
    for (size_t i = 0; i < used; i++)
        if (changed[i].reach < mappings[i].reach)
            mappings[i].reach = changed[i].reach;
    same_bytes("mappings", mappings, changed, len);
}
