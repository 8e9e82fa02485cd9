/* A web server on a TAP device (Linux). It answers GET and HEAD of any path with one file, over IPv4 and IPv6, by RFC 9110
 * and RFC 9112. sockets.h has its TCP connections. lk_answer answers the rest: ARP, neighbour solicitations, ping, and
 * what comes to other ports.
 *     http DEVICE HARDWARE_ADDRESS IPV4_ADDRESS IPV6_ADDRESS FILE
 * Makes the device, unless it exists, and prints "ready". SIGINT and SIGTERM end it. It ends with status 1 if the device
 * is deleted. It reads the file at its start. A connection whose request is not complete after 10 seconds is reset.
 *
 * Not supported: other methods, several requests on a connection, packets in fragments, multicast listener reports, questions
 * for its addresses (addresses.h). */
#define _GNU_SOURCE
#include "error_limit.h"
#include "process.h"
#include "sockets.h"
#include <ctype.h>
#include <stdlib.h>
#include <strings.h>

static const char help[] =
    "usage: http DEVICE HARDWARE_ADDRESS IPV4_ADDRESS IPV6_ADDRESS FILE\n"
    "Is a web server on a TAP device, which answers GET and HEAD with a file.\n"
    "  DEVICE            the name of the TAP device; it is made unless it exists\n"
    "  HARDWARE_ADDRESS  the Ethernet address of the server, as 02-00-00-00-aa-07\n"
    "  IPV4_ADDRESS, IPV6_ADDRESS  its addresses, as 10.77.0.2 and fd77::2; 0.0.0.0 or :: if it has none\n"
    "  FILE              what it answers\n"
    "  --help            prints this\n";

enum { HTTP_PORT = 80, LONGEST_REQUEST = 8192, LONGEST_HEAD = 200 };
enum { REQUEST_TIME = 10000, BETWEEN_LOOKS = 1000 }; /* in milliseconds */

static struct lk_host own;
static struct sockets sockets; /* no initializer: it would put the buffers, 32 MiB of zeros, into the program's file */
static const char *file;
static size_t file_len;

/* A request, and the answer to it. */
static struct exchange {
    char request[LONGEST_REQUEST], head[LONGEST_HEAD];
    size_t head_len, body_len;
} exchanges[SOCKETS];

/* Copies the file: if another program makes it shorter, an access to a mapping of it ends this one. Returns 0 if that
 * fails, with a message. */
static int read_file(const char *name)
{
    struct stat status;
    int descriptor = open(name, O_RDONLY | O_CLOEXEC);
    int is_open = descriptor >= 0 && fstat(descriptor, &status) == 0;
    size_t size = is_open ? (size_t)status.st_size : 0;
    char *bytes = is_open ? malloc(size + 1) : NULL;
    ssize_t n = bytes != NULL ? 1 : -1;
    while (n > 0 && file_len < size) {
        n = read(descriptor, bytes + file_len, size - file_len);
        file_len += n > 0 ? (size_t)n : 0;
    }
    file = bytes;
    if (n < 0)
        fprintf(stderr, "http: %s: %s\n", name, strerror(errno));
    if (descriptor >= 0)
        close(descriptor);
    return n >= 0;
}

/* ---- requests ---- */

#define LETTERS "ABCDEFGHIJKLMNOPQRSTUVWXYZabcdefghijklmnopqrstuvwxyz"
static const char token[] = LETTERS "0123456789!#$%&'*+-.^_`|~";      /* RFC 9110, section 5.6.2 */
static const char authority[] = LETTERS "0123456789-._~!$&'()*+,;=%:[]"; /* RFC 3986, section 3.2 */
static const char bad_request[] = "400 Bad Request";

/* Cuts the first line off a text, and returns it without its end. */
static char *next_line(char **text)
{
    char *line = *text, *end = strstr(line, "\r\n");
    *end = 0;
    *text = end + 2;
    return line;
}

/* Whether a line has a control character other than a tab, as CR or LF by itself (RFC 9112, section 2.2). */
static int has_control(const char *line)
{
    while (*line == '\t' || !iscntrl((unsigned char)*line))
        line++;
    return *line != 0;
}

/* Returns the version, as "1.1", of a line with a method, a target and a version (RFC 9112, section 3), or null. */
static const char *version_of(const char *line)
{
    const char *target = line + strspn(line, token);
    size_t target_len = *target == ' ' ? strcspn(target + 1, " \t") : 0;
    int is_url = target_len > 0 && (target[1] == '/' || memmem(target + 1, target_len, "://", 3) != NULL);
    const char *version = target + 1 + target_len;
    if (target == line || !is_url || strncmp(version, " HTTP/", 6) != 0 || strlen(version) != 9)
        return NULL;
    int is_number = isdigit((unsigned char)version[6]) && version[7] == '.' && isdigit((unsigned char)version[8]);
    return is_number ? version + 6 : NULL;
}

/* Whether a line is a field (RFC 9112, section 5): a name, directly a colon, and a value. Counts the fields Host. */
static int is_field(const char *line, int *hosts)
{
    size_t name_len = strspn(line, token);
    if (name_len == 0 || line[name_len] != ':' || has_control(line))
        return 0;
    if (name_len != 4 || strncasecmp(line, "Host", 4) != 0)
        return 1;
    ++*hosts;
    const char *value = line + 5 + strspn(line + 5, " \t"), *end = value + strspn(value, authority);
    return end[strspn(end, " \t")] == 0;
}

/* Returns the status of the answer to a request, up to its empty line. A request of HTTP/1.1 has one field Host (RFC 9112,
 * section 3.2). */
static const char *status_of(char *text)
{
    const char *request = next_line(&text), *version = has_control(request) ? NULL : version_of(request), *line;
    int hosts = 0, is_known = strncmp(request, "GET ", 4) == 0 || strncmp(request, "HEAD ", 5) == 0;
    if (version == NULL)
        return bad_request;
    if (*version != '1')
        return "505 HTTP Version Not Supported";
    while (*(line = next_line(&text)) != 0)
        if (!is_field(line, &hosts))
            return bad_request;
    if (hosts > 1 || (hosts == 0 && version[2] != '0'))
        return bad_request;
    return is_known ? "200 OK" : "501 Not Implemented";
}

/* Writes the head of the answer. Each has a date (RFC 9110, section 6.6.1). That to HEAD has no body. */
static void make_answer(struct exchange *one, size_t request_len)
{
    static char text[LONGEST_REQUEST + 1];
    char date[40];
    time_t now = time(NULL);
    const char *end = memmem(one->request, request_len, "\r\n\r\n", 4), *status = "431 Request Header Fields Too Large";
    memcpy(text, one->request, request_len);
    text[request_len] = 0;
    if (end != NULL)
        status = strlen(text) < (size_t)(end - one->request) ? bad_request : status_of(text);
    size_t body_len = *status == '2' ? file_len : 0;
    strftime(date, sizeof date, "%a, %d %b %Y %H:%M:%S GMT", gmtime(&now));
    one->head_len = (size_t)snprintf(one->head, sizeof one->head,
                                     "HTTP/1.1 %s\r\nDate: %s\r\nContent-Length: %zu\r\nConnection: close\r\n\r\n", status,
                                     date, body_len);
    one->body_len = one->request[0] == 'H' ? 0 : body_len;
}

/* ---- connections ---- */

/* Reads on. Returns whether the whole request is there, up to its empty line, or as much as may be. Empty lines before it
 * do not count (RFC 9112, section 2.2). */
static int has_request(struct socket *s, char *request)
{
    while (s->taken < LONGEST_REQUEST && memmem(request, s->taken, "\r\n\r\n", 4) == NULL) {
        size_t len = read_bytes(s, request + s->taken, LONGEST_REQUEST - s->taken), empty = 0;
        s->taken += len;
        while (s->taken - empty >= 2 && memcmp(request + empty, "\r\n", 2) == 0)
            empty += 2;
        s->taken -= empty;
        memmove(request, request + empty, s->taken);
        if (len == 0)
            return 0;
    }
    return 1;
}

/* Writes as much of the answer as there is room for, and then closes. */
static void serve(struct socket *s)
{
    struct exchange *one = &exchanges[s - sockets.list];
    char rest[LONGEST_REQUEST];
    size_t len = 1;
    if (!has_request(s, one->request)) {
        if (lk_connection_at_eof(&s->tcp))
            lk_connection_close(&s->tcp);
        return;
    }
    while (read_bytes(s, rest, sizeof rest) > 0)
        ; /* only one request is answered */
    if (s->sent == 0)
        make_answer(one, s->taken);
    while (len > 0 && s->sent < one->head_len + one->body_len) {
        const char *part = s->sent < one->head_len ? one->head + s->sent : file + (s->sent - one->head_len);
        len = write_bytes(s, part, (s->sent < one->head_len ? one->head_len : one->head_len + one->body_len) - s->sent);
        s->sent += len;
    }
    if (s->sent == one->head_len + one->body_len)
        lk_connection_close(&s->tcp);
}

/* Resets connections whose request is not complete in time: else those who send none could take all places. */
static void reset_slow(void)
{
    uint64_t now = (uint64_t)milliseconds();
    struct lk_segment out;
    for (struct socket *s = sockets.list; s < sockets.list + SOCKETS; s++)
        if (!is_free(s) && s->sent == 0 && now - s->opened > REQUEST_TIME && lk_connection_abort(&s->tcp, &out) == 1)
            send_segment(&sockets, s, &out);
}

static void on_frame(const uint8_t *frame, size_t len)
{
    static struct error_limit limit;
    static uint8_t out[LONGEST_WHOLE];
    struct lk_frame in;
    struct lk_tcp_options options;
    lk_read_frame_options(frame, len, &in, &options);
    int is_valid = is_usable(&in) && is_for_us(&own, &in);
    if (is_valid && is_too_big(&in))
        on_too_big(&sockets, &in, frame);
    if (is_valid && in.transport == LK_TCP && on_tcp(&sockets, &in, &options, frame))
        return;
    ptrdiff_t answer_len = lk_answer(&own, frame, len, out, sizeof out);
    if (answer_len > 0 && may_send(&limit, milliseconds(), out, (size_t)answer_len))
        sockets.frames_out += write(sockets.device, out, (size_t)answer_len) == answer_len;
}

/* Returns 0 if the device has been deleted. */
static int read_frames(void)
{
    static uint8_t frame[LONGEST_FRAME];
    for (int count = 0; count < FRAMES_AT_ONCE; count++) {
        ssize_t len = read(sockets.device, frame, sizeof frame);
        if (len < 0)
            return is_there();
        on_frame(frame, (size_t)len);
    }
    return 1;
}

int main(int argc, char **argv)
{
    prepare();
    if (argc != 6 || asks_for_help(argc, argv))
        return print_help(help, asks_for_help(argc, argv));
    if (!lk_cpu_supported()) {
        fprintf(stderr, "http: the processor has no SSE4.2 or no POPCNT\n");
        return 1;
    }
    if (!read_host("http", argv + 2, &own))
        return 2;
    sockets.device = read_file(argv[5]) ? open_tap("http", argv[1]) : -1;
    if (sockets.device < 0)
        return 1;
    sockets.own = &own;
    sockets.port = HTTP_PORT;
    sockets.serve = serve;
    make_sockets(&sockets);
    sockets.mtu = mtu_of(sockets.device);
    int signals = open_signals((const int[]){0});
    if (sockets.mtu == 0 || signals < 0) {
        perror("http");
        return 1;
    }
    struct output output = open_output(STDOUT_FILENO), errors = open_output(STDERR_FILENO);
    struct pollfd fds[2] = {{.fd = signals, .events = POLLIN}, {.fd = sockets.device, .events = POLLIN}};
    print(&output, "ready\n");
    for (;;) {
        poll(fds, 2, sooner(run_sockets(&sockets), BETWEEN_LOOKS));
        reset_slow();
        if (fds[0].revents != 0)
            return 0;
        if ((fds[1].revents & (POLLERR | POLLHUP | POLLNVAL)) || !read_frames()) {
            print(&errors, "http: %s: the device was deleted\n", argv[1]);
            return 1;
        }
    }
}
