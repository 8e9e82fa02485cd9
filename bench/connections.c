/* Segments per second of one TCP connection in this process, over a link in memory, with all checksums:
 *     connections ours|lwip oneway|echo COUNT
 * Both ends are of programs/sockets.h, or of lwIP as Debian builds it. COUNT is how many segments of 1460 bytes go one
 * way, or how many times 100 bytes go there and back. `perf stat -e instructions:u` and callgrind count the
 * instructions. Compile it with -DSOCKETS=1: lwIP has a list of one connection, too.
 *
 *     cc -O2 -Iinclude -DSOCKETS=1 bench/connections.c out/lib/libip_wire.a $(pkg-config --cflags --libs lwip) */
#define _GNU_SOURCE
#include "../tests/tcp/memory_link.h"
#include <sys/syscall.h>

enum { CLIENT, SERVER, PORT = 7, CLIENT_PORT = 10000, SEGMENT = 1460, ECHO = 100 };

static struct sockets client, server;
static uint8_t text[BUFFER];
static int is_echo;
static uint64_t left, awaited; /* bytes that the client still writes; that come to the server, or back */
static unsigned long frames;

static void on_link(int from, const uint8_t *bytes, size_t len)
{
    frames++;
    arrive_after(0, !from, MTU, bytes, len);
}

static void serve_client(struct socket *s)
{
    static uint8_t bytes[BUFFER];
    size_t n = read_bytes(s, bytes, sizeof bytes);
    awaited -= n;
    if (!is_echo || n > 0 || s->taken++ == 0)
        left -= write_bytes(s, text, is_echo && left > ECHO ? ECHO : left < sizeof text ? left : sizeof text);
}

static void serve_server(struct socket *s)
{
    static uint8_t bytes[BUFFER];
    size_t n = read_bytes(s, bytes, sizeof bytes);
    if (is_echo)
        write_bytes(s, bytes, n);
    else
        awaited -= n;
}

static err_t write_lwip(struct tcp_pcb *pcb)
{
    size_t most = is_echo ? ECHO : tcp_sndbuf(pcb), n = left < most ? left : most;
    if (n > 0 && tcp_write(pcb, text, (u16_t)n, TCP_WRITE_FLAG_COPY) == ERR_OK)
        left -= n;
    return tcp_output(pcb);
}

static err_t on_connected(void *place, struct tcp_pcb *pcb, err_t error)
{
    (void)place, (void)error;
    return write_lwip(pcb);
}

static err_t on_sent(void *place, struct tcp_pcb *pcb, u16_t len)
{
    (void)place, (void)len;
    return is_echo ? ERR_OK : write_lwip(pcb);
}

/* Text came to the client, or the server. */
static err_t on_text(void *is_server, struct tcp_pcb *pcb, struct pbuf *p, err_t error)
{
    (void)error;
    if (p == NULL)
        return ERR_OK;
    tcp_recved(pcb, p->tot_len);
    if (is_server != NULL && is_echo)
        for (struct pbuf *part = p; part != NULL; part = part->next)
            tcp_write(pcb, part->payload, part->len, TCP_WRITE_FLAG_COPY);
    else
        awaited -= p->tot_len;
    pbuf_free(p);
    return is_server != NULL ? tcp_output(pcb) : write_lwip(pcb);
}

static err_t on_accept(void *place, struct tcp_pcb *pcb, err_t error)
{
    (void)place;
    tcp_arg(pcb, pcb);
    tcp_recv(pcb, on_text);
    tcp_nagle_disable(pcb);
    return error;
}

static void start_ours(void)
{
    start_host(CLIENT, &client);
    start_host(SERVER, &server);
    server.port = PORT;
    client.serve = serve_client;
    server.serve = serve_server;
    connect_socket(CLIENT, SERVER, LK_IPV4, CLIENT_PORT, PORT);
}

static void start_lwip(void)
{
    struct tcp_pcb *listening = tcp_new_ip_type(IPADDR_TYPE_V4), *pcb = tcp_new_ip_type(IPADDR_TYPE_V4);
    ip_addr_t addr = IPADDR4_INIT_BYTES(10, 0, 0, SERVER + 1);
    start_host(CLIENT, NULL);
    start_host(SERVER, NULL);
    tcp_bind(listening, IP4_ADDR_ANY, PORT);
    tcp_bind_netif(listening, &hosts[SERVER].netif);
    tcp_accept(tcp_listen(listening), on_accept);
    tcp_recv(pcb, on_text);
    tcp_sent(pcb, on_sent);
    tcp_nagle_disable(pcb);
    tcp_bind_netif(pcb, &hosts[CLIENT].netif);
    tcp_connect(pcb, &addr, PORT, on_connected);
}

/* Of the processor. */
static double seconds(void)
{
    struct timespec now;
    syscall(SYS_clock_gettime, CLOCK_PROCESS_CPUTIME_ID, &now);
    return (double)now.tv_sec + (double)now.tv_nsec / 1e9;
}

int main(int argc, char **argv)
{
    if (argc != 4)
        return 2;
    is_echo = strcmp(argv[2], "echo") == 0;
    left = awaited = strtoull(argv[3], NULL, 10) * (is_echo ? ECHO : SEGMENT);
    lwip_init();
    if (strcmp(argv[1], "ours") == 0)
        start_ours();
    else
        start_lwip();
    double begin = seconds();
    while (awaited > 0) {
        deliver();
        virtual_now += awaited > 0 ? run_timers(DELAYS) : 0;
    }
    double time = seconds() - begin;
    printf("%s, %s: %lu frames, %.0f per second of the processor\n", argv[1], argv[2], frames, (double)frames / time);
    return 0;
}
