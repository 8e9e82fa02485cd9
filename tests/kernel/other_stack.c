/* A host over lwIP, a network stack of another ancestry than Linux's and this library's (Linux).
 *     other_stack -d DEVICE -m HARDWARE_ADDRESS -a ADDRESS/PREFIX [OPTION..] [SERVER]
 * With SERVER, an address, it pings it, exchanges UDP and TCP with port 7 there, compares each byte that comes back,
 * and prints what it counted. The status is 1 if something was wrong. Without SERVER it echoes at its own port 7,
 * prints "ready", and runs until a signal ends it.
 *     -g ADDRESS           of the router (IPv4)
 *     -l COUNT             loses one in so many frames, each way
 *     -s BYTES             the largest TCP echo
 *
 * It sends and receives frames by a packet socket on the device, on which the kernel must have no address. The other
 * end is a program on this TAP device, or the peer of this veth device without checksum offload. */
#define _GNU_SOURCE
#include <arpa/inet.h>
#include <linux/if_packet.h>
#include <lwip/etharp.h>
#include <lwip/ethip6.h>
#include <lwip/inet_chksum.h>
#include <lwip/init.h>
#include <lwip/raw.h>
#include <lwip/tcp.h>
#include <lwip/timeouts.h>
#include <lwip/udp.h>
#include <net/if.h>
#include <netinet/ether.h>
#include <netif/ethernet.h>
#include <poll.h>
#include <stdarg.h>
#include <stdio.h>
#include <stdlib.h>
#include <string.h>
#include <sys/socket.h>
#include <unistd.h>

enum { ECHO_PORT = 7, MTU = 1500, LONGEST_FRAME = 65535 + 18, FRAMES_AT_ONCE = 64 };
enum { LARGEST = 10000000, MOST_WRONG = 10 };
/* In milliseconds. With loss, a UDP packet is sent again after a while. */
enum { PATIENCE = 600000, UDP_PATIENCE = 50, UDP_TRIES = 2000 };

static struct netif netif;
static int frames;           /* the packet socket */
static unsigned long one_in; /* is lost; 0: none is */
static unsigned long frames_in, frames_out, lost, wrong;
static uint8_t data[LARGEST];

static void fail(const char *format, ...)
{
    va_list words;
    va_start(words, format);
    fputs("tests/kernel/other_stack: wrong: ", stderr);
    vfprintf(stderr, format, words);
    fputc('\n', stderr);
    va_end(words);
    if (++wrong == MOST_WRONG)
        exit(1);
}

static _Noreturn void give_up(const char *what)
{
    perror(what);
    exit(1);
}

/* ---- the device ---- */

static int is_lost(void)
{
    int result = one_in != 0 && (unsigned long)random() % one_in == 0;
    lost += (unsigned long)result;
    return result;
}

static err_t send_frame(struct netif *to, struct pbuf *frame)
{
    static uint8_t bytes[LONGEST_FRAME];
    size_t len = pbuf_copy_partial(frame, bytes, frame->tot_len, 0);
    (void)to;
    if (!is_lost() && send(frames, bytes, len, 0) == (ssize_t)len)
        frames_out++;
    return ERR_OK;
}

static void receive_frames(void)
{
    static uint8_t bytes[LONGEST_FRAME];
    for (int count = 0; count < FRAMES_AT_ONCE; count++) {
        ssize_t len = recv(frames, bytes, sizeof bytes, MSG_DONTWAIT);
        if (len <= 0 || len > UINT16_MAX)
            return;
        if (!(bytes[0] & 1) && memcmp(bytes, netif.hwaddr, ETH_HWADDR_LEN) != 0)
            continue;
        frames_in++;
        struct pbuf *frame = is_lost() ? NULL : pbuf_alloc(PBUF_RAW, (u16_t)len, PBUF_RAM);
        if (frame != NULL && (pbuf_take(frame, bytes, (u16_t)len) != ERR_OK || netif.input(frame, &netif) != ERR_OK))
            pbuf_free(frame);
    }
}

static err_t start_device(struct netif *started)
{
    started->name[0] = 'p';
    started->name[1] = 'k';
    started->mtu = MTU;
    started->hwaddr_len = ETH_HWADDR_LEN;
    started->flags = NETIF_FLAG_BROADCAST | NETIF_FLAG_ETHARP | NETIF_FLAG_ETHERNET | NETIF_FLAG_LINK_UP;
    started->output = etharp_output;
    started->output_ip6 = ethip6_output;
    started->linkoutput = send_frame;
    return ERR_OK;
}

/* Waits for frames and timers, for 20 ms at most. */
static void step(void)
{
    struct pollfd fd = {.fd = frames, .events = POLLIN};
    u32_t timer = sys_timeouts_sleeptime();
    poll(&fd, 1, timer < 20 ? (int)timer : 20);
    receive_frames();
    sys_check_timeouts();
}

/* Returns 0 if the value is still 0 after this time. */
static int wait_for(const int *value, u32_t milliseconds)
{
    u32_t begin = sys_now();
    while (*value == 0 && sys_now() - begin < milliseconds)
        step();
    return *value != 0;
}

/* ---- the client ---- */

struct exchange {
    size_t len;
    int is_received, is_wrong;
};

/* The packet begins with its IP header. The kernel of lwIP gets all but the reply. */
static u8_t on_ping(void *place, struct raw_pcb *pcb, struct pbuf *p, const ip_addr_t *addr)
{
    struct exchange *echo = place;
    int is_ipv6 = IP_IS_V6(addr);
    u16_t at = is_ipv6 ? 40 : 20;
    (void)pcb;
    if (pbuf_get_at(p, at) != (is_ipv6 ? 129 : 0))
        return 0;
    echo->is_received = 1;
    echo->is_wrong = p->tot_len != at + 8 + echo->len
                     || (echo->len > 0 && pbuf_memcmp(p, at + 8, data, (u16_t)echo->len) != 0);
    pbuf_free(p);
    return 1;
}

static void ping(const ip_addr_t *server, size_t len)
{
    struct exchange echo = {.len = len};
    int is_ipv6 = IP_IS_V6_VAL(*server), tries = one_in != 0 ? UDP_TRIES : 1;
    uint8_t header[8] = {is_ipv6 ? 128 : 8, 0, 0, 0, 0x12, 0x34, (uint8_t)(len >> 8), (uint8_t)len};
    struct raw_pcb *pcb = raw_new_ip_type(IP_GET_TYPE(server), is_ipv6 ? IP6_NEXTH_ICMP6 : IP_PROTO_ICMP);
    raw_recv(pcb, on_ping, &echo);
    pcb->chksum_reqd = (u8_t)is_ipv6;
    pcb->chksum_offset = 2;
    while (tries-- > 0 && !echo.is_received) {
        struct pbuf *p = pbuf_alloc(PBUF_IP, (u16_t)(sizeof header + len), PBUF_RAM);
        memset(header + 2, 0, 2);
        pbuf_take(p, header, sizeof header);
        pbuf_take_at(p, data, (u16_t)len, sizeof header);
        uint16_t checksum = is_ipv6 ? 0 : inet_chksum(p->payload, p->len);
        pbuf_take_at(p, &checksum, 2, 2);
        raw_sendto(pcb, p, server);
        pbuf_free(p);
        wait_for(&echo.is_received, one_in != 0 ? UDP_PATIENCE : PATIENCE);
    }
    if (!echo.is_received || echo.is_wrong)
        fail("ping of %zu octets: %s", len, echo.is_received ? "other octets" : "none");
    raw_remove(pcb);
}

static void on_udp_echo(void *place, struct udp_pcb *pcb, struct pbuf *p, const ip_addr_t *addr, u16_t port)
{
    struct exchange *echo = place;
    (void)pcb, (void)addr, (void)port;
    echo->is_received = 1;
    echo->is_wrong = p->tot_len != echo->len || (p->tot_len > 0 && pbuf_memcmp(p, 0, data, p->tot_len) != 0);
    pbuf_free(p);
}

static void echo_udp(const ip_addr_t *server, size_t len)
{
    struct exchange echo = {.len = len};
    int tries = one_in != 0 ? UDP_TRIES : 1;
    struct udp_pcb *pcb = udp_new_ip_type(IP_GET_TYPE(server));
    udp_recv(pcb, on_udp_echo, &echo);
    udp_connect(pcb, server, ECHO_PORT);
    while (tries-- > 0 && !echo.is_received) {
        struct pbuf *p = pbuf_alloc(PBUF_TRANSPORT, (u16_t)len, PBUF_RAM);
        pbuf_take(p, data, (u16_t)len);
        udp_send(pcb, p);
        pbuf_free(p);
        wait_for(&echo.is_received, one_in != 0 ? UDP_PATIENCE : PATIENCE);
    }
    if (!echo.is_received || echo.is_wrong)
        fail("UDP echo of %zu octets: %s", len, echo.is_received ? "other octets" : "none");
    udp_remove(pcb);
}

struct tcp_echo {
    size_t len, sent, received;
    int is_shut, is_wrong, is_ended;
};

static void send_more(struct tcp_echo *echo, struct tcp_pcb *pcb)
{
    while (echo->sent < echo->len) {
        size_t len = echo->len - echo->sent, room = tcp_sndbuf(pcb);
        len = len < room ? len : room;
        len = len < UINT16_MAX ? len : UINT16_MAX;
        if (len == 0 || tcp_write(pcb, data + echo->sent, (u16_t)len, TCP_WRITE_FLAG_COPY) != ERR_OK)
            break;
        echo->sent += len;
    }
    if (echo->sent == echo->len && !echo->is_shut)
        echo->is_shut = tcp_shutdown(pcb, 0, 1) == ERR_OK;
    tcp_output(pcb);
}

static err_t on_connected(void *place, struct tcp_pcb *pcb, err_t error)
{
    (void)error;
    send_more(place, pcb);
    return ERR_OK;
}

static err_t on_sent(void *place, struct tcp_pcb *pcb, u16_t len)
{
    (void)len;
    send_more(place, pcb);
    return ERR_OK;
}

static err_t on_poll(void *place, struct tcp_pcb *pcb)
{
    send_more(place, pcb);
    return ERR_OK;
}

static err_t on_tcp_echo(void *place, struct tcp_pcb *pcb, struct pbuf *p, err_t error)
{
    struct tcp_echo *echo = place;
    (void)error;
    if (p == NULL) {
        echo->is_ended = 1;
        return ERR_OK;
    }
    if (p->tot_len > echo->len - echo->received || pbuf_memcmp(p, 0, data + echo->received, p->tot_len) != 0)
        echo->is_wrong = 1;
    else
        echo->received += p->tot_len;
    tcp_recved(pcb, p->tot_len);
    pbuf_free(p);
    return ERR_OK;
}

static void on_error(void *place, err_t error)
{
    struct tcp_echo *echo = place;
    (void)error;
    echo->is_ended = -1;
}

static void echo_tcp(const ip_addr_t *server, size_t len)
{
    struct tcp_echo echo = {.len = len};
    u32_t begin = sys_now();
    struct tcp_pcb *pcb = tcp_new_ip_type(IP_GET_TYPE(server));
    tcp_arg(pcb, &echo);
    tcp_recv(pcb, on_tcp_echo);
    tcp_sent(pcb, on_sent);
    tcp_poll(pcb, on_poll, 1);
    tcp_err(pcb, on_error);
    tcp_connect(pcb, server, ECHO_PORT, on_connected);
    wait_for(&echo.is_ended, PATIENCE);
    if (echo.is_ended != 1 || echo.is_wrong || echo.received != len)
        fail("TCP echo of %zu octets: %zu were right, the connection %s", len, echo.received,
             echo.is_ended == 0 ? "does not end" : echo.is_ended == 1 ? "was closed" : "was reset");
    else if (len >= 1000000)
        printf("%zu octets in %u ms; ", len, (unsigned)(sys_now() - begin));
    if (echo.is_ended < 0)
        return;
    tcp_arg(pcb, NULL);
    tcp_recv(pcb, NULL);
    tcp_sent(pcb, NULL);
    tcp_poll(pcb, NULL, 0);
    tcp_err(pcb, NULL);
    if (tcp_close(pcb) != ERR_OK)
        tcp_abort(pcb);
}

static void be_client(const ip_addr_t *server, size_t largest)
{
    static const size_t sizes[] = {0,    1,    2,    100,  535,   536,   537,   1439,    1440,   1441,
                                   1459, 1460, 1461, 2920, 20000, 65535, 65536, 1000000, LARGEST};
    size_t most = MTU - (IP_IS_V6_VAL(*server) ? 48 : 28), udp = 0, tcp = 0;
    for (size_t i = 0; i < sizeof data; i++)
        data[i] = (uint8_t)random();
    for (size_t len = 0; len <= most; len++, udp++) {
        echo_udp(server, len);
        ping(server, len);
    }
    for (size_t i = 0; i < sizeof sizes / sizeof *sizes; i++)
        if (sizes[i] <= largest) {
            echo_tcp(server, sizes[i]);
            tcp++;
        }
    printf("pings and UDP echoes %zu, TCP echoes %zu, %lu wrong; frames in %lu, out %lu, lost %lu\n", udp, tcp, wrong,
           frames_in, frames_out, lost);
}

/* ---- the server ---- */

static void on_datagram(void *place, struct udp_pcb *pcb, struct pbuf *p, const ip_addr_t *addr, u16_t port)
{
    (void)place;
    udp_sendto(pcb, p, addr, port);
    pbuf_free(p);
}

struct session {
    struct pbuf *waiting;
    int has_end, is_shut;
};

/* Also when the connection has ended on both sides. */
static void on_session_error(void *place, err_t error)
{
    struct session *session = place;
    (void)error;
    if (session->waiting != NULL)
        pbuf_free(session->waiting);
    free(session);
}

/* Sends what waits, as far as there is room; at the end, FIN. */
static void send_back(struct session *session, struct tcp_pcb *pcb)
{
    struct pbuf *first;
    while ((first = session->waiting) != NULL && first->len <= tcp_sndbuf(pcb)
           && tcp_write(pcb, first->payload, first->len, TCP_WRITE_FLAG_COPY) == ERR_OK) {
        u16_t len = first->len;
        session->waiting = first->next;
        if (first->next != NULL)
            pbuf_ref(first->next); /* the next line frees the chain up to it */
        pbuf_free(first);
        tcp_recved(pcb, len);
    }
    if (first == NULL && session->has_end && !session->is_shut)
        session->is_shut = tcp_shutdown(pcb, 0, 1) == ERR_OK;
    tcp_output(pcb);
}

static err_t on_session_data(void *place, struct tcp_pcb *pcb, struct pbuf *p, err_t error)
{
    struct session *session = place;
    (void)error;
    if (p == NULL)
        session->has_end = 1;
    else if (session->waiting == NULL)
        session->waiting = p;
    else
        pbuf_cat(session->waiting, p);
    send_back(session, pcb);
    return ERR_OK;
}

static err_t on_session_sent(void *place, struct tcp_pcb *pcb, u16_t len)
{
    (void)len;
    send_back(place, pcb);
    return ERR_OK;
}

static err_t on_session_poll(void *place, struct tcp_pcb *pcb)
{
    send_back(place, pcb);
    return ERR_OK;
}

static err_t on_accept(void *place, struct tcp_pcb *pcb, err_t error)
{
    struct session *session = calloc(1, sizeof *session);
    (void)place;
    if (error != ERR_OK || session == NULL)
        return ERR_MEM;
    tcp_arg(pcb, session);
    tcp_recv(pcb, on_session_data);
    tcp_sent(pcb, on_session_sent);
    tcp_poll(pcb, on_session_poll, 1);
    tcp_err(pcb, on_session_error);
    return ERR_OK;
}

static _Noreturn void be_server(void)
{
    struct udp_pcb *udp = udp_new_ip_type(IPADDR_TYPE_ANY);
    struct tcp_pcb *tcp = tcp_new_ip_type(IPADDR_TYPE_ANY);
    if (udp_bind(udp, IP_ANY_TYPE, ECHO_PORT) != ERR_OK || tcp_bind(tcp, IP_ANY_TYPE, ECHO_PORT) != ERR_OK)
        give_up("the echo port");
    udp_recv(udp, on_datagram, NULL);
    tcp_accept(tcp_listen(tcp), on_accept);
    printf("ready\n");
    fflush(stdout);
    for (;;)
        step();
}

/* ---- the start ---- */

static _Noreturn void explain(void)
{
    fprintf(stderr, "usage: other_stack -d DEVICE -m HARDWARE_ADDRESS -a ADDRESS/PREFIX [OPTION..] [SERVER]\n");
    exit(2);
}

static void open_socket(const char *device)
{
    int yes = 1, room = 1 << 24;
    struct sockaddr_ll place = {
        .sll_family = AF_PACKET, .sll_protocol = htons(ETH_P_ALL), .sll_ifindex = (int)if_nametoindex(device)};
    frames = socket(AF_PACKET, SOCK_RAW, 0);
    setsockopt(frames, SOL_SOCKET, SO_RCVBUFFORCE, &room, sizeof room);
    setsockopt(frames, SOL_PACKET, PACKET_IGNORE_OUTGOING, &yes, sizeof yes);
    if (frames < 0 || place.sll_ifindex == 0 || bind(frames, (struct sockaddr *)&place, sizeof place) < 0)
        give_up(device);
}

static void set_address(char *text, const char *gateway)
{
    char *slash = strchr(text, '/');
    int prefix = slash != NULL ? atoi(slash + 1) : 0;
    ip_addr_t addr, router = IPADDR4_INIT(0);
    if (slash != NULL)
        *slash = 0;
    if (!ipaddr_aton(text, &addr) || (gateway != NULL && !ipaddr_aton(gateway, &router)))
        explain();
    if (IP_IS_V6_VAL(addr)) {
        netif_ip6_addr_set(&netif, 0, ip_2_ip6(&addr));
        netif_ip6_addr_set_state(&netif, 0, IP6_ADDR_PREFERRED);
    } else {
        ip4_addr_t mask = {.addr = prefix == 0 ? 0 : htonl(UINT32_MAX << (32 - prefix))};
        netif_set_addr(&netif, ip_2_ip4(&addr), &mask, ip_2_ip4(&router));
    }
}

static void read_hardware(const char *text, uint8_t *octets)
{
    const struct ether_addr *addr = ether_aton(text);
    if (addr == NULL)
        explain();
    memcpy(octets, addr, ETH_HWADDR_LEN);
}

static void start(const char *device, const char *hardware, char *address, const char *gateway)
{
    srandom((unsigned)getpid());
    open_socket(device);
    lwip_init();
    netif_add(&netif, NULL, NULL, NULL, NULL, start_device, ethernet_input);
    read_hardware(hardware, netif.hwaddr);
    set_address(address, gateway);
    netif_set_default(&netif);
    netif_set_up(&netif);
}

int main(int argc, char **argv)
{
    const char *device = NULL, *gateway = NULL, *hardware = NULL;
    char *address = NULL;
    size_t largest = LARGEST;
    ip_addr_t server;
    int option;
    while ((option = getopt(argc, argv, "d:m:a:g:l:s:")) != -1) {
        switch (option) {
        case 'd': device = optarg; break;
        case 'm': hardware = optarg; break;
        case 'a': address = optarg; break;
        case 'g': gateway = optarg; break;
        case 'l': one_in = strtoul(optarg, NULL, 10); break;
        case 's': largest = strtoul(optarg, NULL, 10); break;
        default: explain();
        }
    }
    if (device == NULL || hardware == NULL || address == NULL || argc > optind + 1
        || (argc == optind + 1 && !ipaddr_aton(argv[optind], &server)))
        explain();
    start(device, hardware, address, gateway);
    if (optind == argc)
        be_server();
    be_client(&server, largest);
    return wrong != 0;
}
