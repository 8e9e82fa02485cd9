/* Faults of ICMP errors, and of answers with them. */
#include <string.h>
#include "faults.h"
#include "ip_wire.h"

ptrdiff_t __real_lk_emit_icmp_error(const struct lk_interface *own, int problem, uint32_t mtu, const uint8_t *frame,
                                    size_t len, uint8_t *out, size_t cap);

ptrdiff_t __real_lk_answer(const struct lk_host *host, const uint8_t *ptr, size_t len, uint8_t *out, size_t cap);

static uint8_t copy[0x20000];

/* The error about the frame with another byte. */
static ptrdiff_t about_another(const struct lk_interface *own, int problem, uint32_t mtu, const uint8_t *frame,
                               size_t len, size_t at, uint8_t octet, uint8_t *out, size_t cap)
{
    memcpy(copy, frame, len);
    copy[at] = octet;
    return __real_lk_emit_icmp_error(own, problem, mtu, copy, len, out, cap);
}

ptrdiff_t __wrap_lk_emit_icmp_error(const struct lk_interface *own, int problem, uint32_t mtu, const uint8_t *frame,
                                    size_t len, uint8_t *out, size_t cap)
{
    const int is_copied = len >= 63 && len <= sizeof copy;
    ptrdiff_t result;
    if (fault == ERROR_ABOUT_AN_ERROR && is_copied && frame[12] == 8 && frame[14] == 0x45 && frame[23] == 1)
        return about_another(own, problem, mtu, frame, len, 34, 8, out, cap);
    if (fault == OTHER_PROBLEM && problem == LK_NEIGHBOUR_MISSING)
        problem = LK_NO_ROUTE_TO_DESTINATION;
    result = __real_lk_emit_icmp_error(own, problem, mtu, frame, len, out, cap);
    if (fault == MTU_LEFT_OUT && result > 0 && problem == LK_PACKET_TOO_BIG) {
        uint8_t *message = out + (out[12] == 8 ? 34 : 54);
        change_word(message + 4, 0, message + 2);
        change_word(message + 6, 0, message + 2);
    }
    if (result == 0 && is_copied && frame[12] == 0x86 && frame[54] == 58) {
        const int is_fragment = frame[20] == 44;
        if (is_fragment ? fault == LATER_FRAGMENT_TOLD && (frame[56] || frame[57] & 0xf8)
                        : fault == ERROR_AFTER_HEADERS_TOLD && frame[20] == 60)
            return about_another(own, problem, mtu, frame, len, 54, 59, out, cap);
    }
    return result;
}

/* Whether an answer is the error about a fragment that has to be discarded. */
static int is_about_fragment(const uint8_t *answer, ptrdiff_t len, unsigned code, unsigned pointer)
{
    return len >= 110 && answer[12] == 0x86 && answer[20] == 58 && answer[54] == 4 && answer[55] == code &&
           answer[61] == pointer && answer[68] == 44;
}

/* Answers about a destination option with the highest bits 01 as about one with 10; or with a pointer that is too low. Or
 * not at all about a fragment. */
ptrdiff_t answer_problem(const struct lk_host *host, const uint8_t *ptr, size_t len, uint8_t *out, size_t cap)
{
    ptrdiff_t result;
    if (fault == DROPPED_OPTION_TOLD && len >= 62 && len <= sizeof copy && ptr[12] == 0x86 && ptr[20] == 60 &&
        ptr[56] >> 6 == 1) {
        memcpy(copy, ptr, len);
        copy[56] ^= 0xc0;
        return __real_lk_answer(host, copy, len, out, cap);
    }
    result = __real_lk_answer(host, ptr, len, out, cap);
    if ((fault == CUT_FIRST_FRAGMENT_KEPT && is_about_fragment(out, result, 3, 0)) ||
        (fault == LONG_FRAGMENT_KEPT && is_about_fragment(out, result, 0, 42)))
        return 0;
    if (fault == POINTER_TO_THE_HEADER && result > 62 && out[12] == 0x86 && out[20] == 58 && out[54] == 4 && out[61] >= 40)
        change_word(out + 60, out[60] * 256u + out[61] - 40u, out + 56);
    return result;
}
