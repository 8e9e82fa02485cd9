/* Reads a frame, and writes the reply to it. */
#include <ip_wire.h>
#include <stdio.h>

int main(void)
{
    static const uint8_t frame[] = "\2\0\0\0\0\2\2\0\0\0\0\1\x08\0"  /* Ethernet */
        "\x45\0\0\x20\0\0\x40\0\x40\x11\xb6\xc9\xc0\0\2\1\xc0\0\2\2" /* IPv4 */
        "\xb5\xe3\x14\xe9\0\x0c\0\0" "ping";                         /* UDP */
    struct lk_frame f;
    uint8_t out[1514];
    char src[LK_ENDPOINT_TEXT];
    lk_read_frame(frame, sizeof frame - 1, &f);
    if (!lk_is_valid(&f) || f.transport != LK_UDP)
        return 1;
    lk_print_endpoint(&f.src, src, sizeof src);
    printf("%.*s from %s\n", (int)f.payload_len, (const char *)frame + f.payload_offset, src);
    lk_make_reply(&f);
    ptrdiff_t len = lk_emit_udp_frame(&f, (const uint8_t *)"pong", 4, out, sizeof out);
    printf("the reply has %td bytes\n", len);
    return len < 0;
}
