/* The calls of multicast listener discovery beside their model. */
#include <string.h>
#include "judge.h"

#define NUMBER(number) (given(#number, &number, sizeof number), number)

static uint8_t wanted[MODEL_ROOM];

ptrdiff_t both_emit_mld_report(const struct lk_frame *headers, uint8_t *out, size_t cap)
{
    const size_t used = used_len(cap);
    uint8_t *came_out;
    ptrdiff_t came;
    CALL(lk_emit_mld_report);
    if (used != 0)
        memcpy(wanted, out, used);
    came_out = room(wanted, used);
    came = lk_emit_mld_report(given("headers", headers, sizeof *headers), came_out, NUMBER(cap));
    end_call(model_emit_mld_report(headers, wanted, cap), came);
    same_bytes("out", wanted, came_out, used);
    if (used != 0)
        memcpy(out, wanted, used);
    return came;
}

int both_find_mld_query(const uint8_t *frame, size_t len, const struct lk_addr *group, struct lk_mld_query *query)
{
    struct lk_mld_query stored = *query, *room_of_it;
    int came;
    CALL(lk_find_mld_query);
    room_of_it = room(query, sizeof *query);
    came = lk_find_mld_query(given("frame", frame, used_len(len)), NUMBER(len), given("group", group, sizeof *group), room_of_it);
    end_call(model_find_mld_query(frame, len, group, &stored), came);
    same_bytes("query", &stored, room_of_it, sizeof stored);
    *query = stored;
    return came;
}
