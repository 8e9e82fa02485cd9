/* Faults of multicast listener discovery. */
#include <string.h>
#include "faults.h"
#include "ip_wire.h"

ptrdiff_t __real_lk_emit_mld_report(const struct lk_frame *headers, uint8_t *out, size_t cap);
int __real_lk_find_mld_query(const uint8_t *frame, size_t len, const struct lk_addr *group, struct lk_mld_query *query);

/* The router alert is of another protocol (RFC 2711, section 2.1: 1 is RSVP). */
ptrdiff_t __wrap_lk_emit_mld_report(const struct lk_frame *headers, uint8_t *out, size_t cap)
{
    ptrdiff_t result = __real_lk_emit_mld_report(headers, out, cap);
    if (fault == ALERT_OF_RSVP && result > 0)
        out[59] = 1;
    return result;
}

/* A query for another group is taken. */
int __wrap_lk_find_mld_query(const uint8_t *frame, size_t len, const struct lk_addr *group, struct lk_mld_query *query)
{
    struct lk_addr asked = {.version = 6};
    if (fault == QUERY_FOR_ANOTHER_TAKEN && len >= 86 && len < 0x20000 && frame[20] == 0 && frame[55] == 0 && frame[62] == 130) {
        memcpy(asked.octets, frame + 70, 16);
        return __real_lk_find_mld_query(frame, len, &asked, query);
    }
    return __real_lk_find_mld_query(frame, len, group, query);
}
