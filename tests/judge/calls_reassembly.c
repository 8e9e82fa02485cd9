/* The calls of reassembly beside their model, which has a table of its own. */
#include <string.h>
#include "judge.h"

#define NUMBER(number) (given(#number, &number, sizeof number), number)

static struct model_table_of_partials table;
static uint8_t wanted[MODEL_ROOM];

void forget_partials(void)
{
    for (size_t i = 0; i < MODEL_PARTIALS; i++)
        table.at[i].expires = 0;
}

static void *copy(void *to, const void *from, size_t len)
{
    return len == 0 ? to : memcpy(to, from, len);
}

/* What the caller may read of a packet. */
static void same_partial(const struct model_partial *one, const struct lk_reassembly *came)
{
    unsigned version = one->network == LK_IPV6 ? 6 : 4;
    same_number("expires", (ptrdiff_t)one->expires, (ptrdiff_t)came->expires);
    if (one->expires == 0)
        return;
    same_number("version", (ptrdiff_t)version, came->version);
    same_number("identification", (ptrdiff_t)one->ident, (ptrdiff_t)came->ident);
    if (version == 4)
        same_number("protocol", (ptrdiff_t)one->protocol, came->protocol);
    same_bytes("src", one->src.octets, came->src, 16);
    same_bytes("dst", one->dst.octets, came->dst, 16);
}

/* Only the packet at the place of the model, and its memory, may have changed. */
static void same_others(const struct lk_reassembly *before, const struct lk_reassembly *came, size_t count,
                        const uint8_t *memory, const uint8_t *came_memory, size_t memory_len)
{
    size_t part = count == 0 ? 0 : memory_len / count, rest = count * part;
    for (size_t i = 0; i < count; i++) {
        same_partial(&table.at[i], &came[i]);
        if (i == table.place)
            continue;
        same_bytes("another packet", &before[i], &came[i], sizeof *before);
        same_bytes("the memory of another packet", memory + i * part, came_memory + i * part, part);
    }
    if (memory_len > rest)
        same_bytes("the rest of the memory", memory + rest, came_memory + rest, memory_len - rest);
}

ptrdiff_t both_reassemble(struct lk_reassembly *partials, size_t count, uint8_t *memory, size_t memory_len, uint64_t now,
                          const uint8_t *frame, size_t len, uint8_t *out, size_t cap)
{
    size_t used = used_len(count), partials_len = used * sizeof *partials, used_memory = used_len(memory_len);
    struct lk_reassembly *came_partials;
    uint8_t *came_memory, *came_out;
    ptrdiff_t came;
    CALL(lk_reassemble);
    copy(wanted, out, used_len(cap));
    given("partials", partials, partials_len);
    came_partials = room(partials, partials_len);
    came_memory = room(memory, used_memory);
    came_out = room(out, used_len(cap));
    came = lk_reassemble(came_partials, NUMBER(count), came_memory, NUMBER(memory_len), NUMBER(now),
                         given("frame", frame, used_len(len)), NUMBER(len), came_out, NUMBER(cap));
    end_call(model_reassemble(&table, count, memory_len, now, frame, len, wanted, cap), came);
    same_bytes("out", wanted, came_out, used_len(cap));
    same_others(partials, came_partials, used, memory, came_memory, used_memory);
    copy(partials, came_partials, partials_len);
    copy(memory, came_memory, used_memory);
    copy(out, wanted, used_len(cap));
    return came;
}

size_t both_expire_reassembly(struct lk_reassembly *partials, size_t count, const uint8_t *memory, size_t memory_len, uint64_t now,
                   uint8_t *out, size_t cap)
{
    size_t used = used_len(count), partials_len = used * sizeof *partials, came;
    struct lk_reassembly *came_partials;
    uint8_t *came_out;
    CALL(lk_expire_reassembly);
    copy(wanted, out, used_len(cap));
    given("partials", partials, partials_len);
    came_partials = room(partials, partials_len);
    came_out = room(out, used_len(cap));
    came = lk_expire_reassembly(came_partials, NUMBER(count), given("memory", memory, used_len(memory_len)), NUMBER(memory_len),
                     NUMBER(now), came_out, NUMBER(cap));
    end_call((ptrdiff_t)model_expire_reassembly(&table, count, now, wanted, cap), (ptrdiff_t)came);
    same_bytes("out", wanted, came_out, used_len(cap));
    for (size_t i = 0; i < used; i++)
        same_partial(&table.at[i], &came_partials[i]);
    copy(partials, came_partials, partials_len);
    copy(out, wanted, used_len(cap));
    return came;
}
