/* A path between two interfaces of programs/router.c, with a rate and a queue, delay, jitter, loss and repetition:
 *     path INTERFACE INTERFACE SEED RATE QUEUE DELAY JITTER LOSS REPETITION
 * RATE is in bytes per second. QUEUE, DELAY and JITTER are in microseconds, LOSS and REPETITION of a million frames. In each
 * direction a frame is lost, or waits until those before it have left at the rate. It is dropped if it would wait for longer
 * than QUEUE. Then it takes DELAY, and up to JITTER more or less: so later frames overtake it, as with netem of Linux. What
 * happens to the frame number n depends only on SEED. Prints "ready". SIGTERM ends it, and it prints counts. */
#define _GNU_SOURCE
#include "../programs/routing/router.h"

#include <poll.h>
#include <stdlib.h>
#include <sys/prctl.h>
#include <sys/queue.h>

enum { BILLION = 1000000000 };
enum { SEED = 3, RATE, QUEUE, DELAY, JITTER, LOSS, REPETITION, WORDS };

struct flight {
    TAILQ_ENTRY(flight) place;
    uint64_t due; /* in nanoseconds */
    size_t len;
    uint8_t frame[];
};

struct direction {
    struct interface *from, *to;
    TAILQ_HEAD(flights, flight) flights; /* the earliest first */
    uint64_t dice, free_at;              /* when the last frame has left the queue, in nanoseconds */
    unsigned long frames, bytes, lost, dropped;
};

static uint64_t setting[WORDS];

static uint64_t nanoseconds(void)
{
    struct timespec now;
    clock_gettime(CLOCK_MONOTONIC, &now);
    return (uint64_t)now.tv_sec * BILLION + (uint64_t)now.tv_nsec;
}

/* A random number below `bound` (splitmix64). */
static uint64_t below(uint64_t *dice, uint64_t bound)
{
    uint64_t z = *dice += 0x9e3779b97f4a7c15;
    z = (z ^ (z >> 30)) * 0xbf58476d1ce4e5b9;
    z = (z ^ (z >> 27)) * 0x94d049bb133111eb;
    return ((z ^ (z >> 31)) >> 32) * bound >> 32;
}

static void fly(struct direction *way, uint64_t due, const struct packet *packet)
{
    struct flight *flight = malloc(sizeof *flight + packet->len), *last = TAILQ_LAST(&way->flights, flights);
    if (flight == NULL)
        return;
    flight->due = due;
    flight->len = packet->len;
    memcpy(flight->frame, packet->frame, packet->len);
    while (last != NULL && last->due > due)
        last = TAILQ_PREV(last, flights, place);
    if (last != NULL)
        TAILQ_INSERT_AFTER(&way->flights, last, flight, place);
    else
        TAILQ_INSERT_HEAD(&way->flights, flight, place);
}

/* Each frame takes four random numbers. */
static void on_packet(struct direction *way, uint64_t now, const struct packet *packet)
{
    int is_lost = below(&way->dice, 1000000) < setting[LOSS], is_twice = below(&way->dice, 1000000) < setting[REPETITION];
    uint64_t begin = way->free_at > now ? way->free_at : now, wide = 2000 * setting[JITTER] + 1;
    uint64_t later[2] = {below(&way->dice, wide), below(&way->dice, wide)};
    way->frames++;
    way->bytes += packet->len;
    if (is_lost || begin - now > 1000 * setting[QUEUE]) {
        *(is_lost ? &way->lost : &way->dropped) += 1;
        return;
    }
    way->free_at = begin + packet->len * BILLION / setting[RATE];
    for (int i = 0; i <= is_twice; i++)
        fly(way, way->free_at + 1000 * (setting[DELAY] - setting[JITTER]) + later[i], packet);
}

static void take_all(struct direction *way)
{
    static struct packet packets[FRAMES_AT_ONCE];
    size_t taken = receive(way->from, packets);
    for (size_t i = 0; i < taken; i++)
        on_packet(way, nanoseconds(), &packets[i]);
}

/* Sends what is due. Returns how long the next frame of this direction takes, in nanoseconds; at most a second. */
static uint64_t send_due(struct direction *way)
{
    static const struct virtio_net_hdr none;
    for (struct flight *first; (first = TAILQ_FIRST(&way->flights)) != NULL; free(first)) {
        uint64_t now = nanoseconds();
        if (first->due > now)
            return first->due - now;
        TAILQ_REMOVE(&way->flights, first, place);
        send_now(way->to, &none, first->frame, first->len);
    }
    return BILLION - 1;
}

static void run(struct direction ways[2], int signals)
{
    struct pollfd files[3] = {{.fd = ways[0].from->device, .events = POLLIN}, {.fd = ways[1].from->device, .events = POLLIN},
                              {.fd = signals, .events = POLLIN}};
    while (files[2].revents == 0) {
        uint64_t one = send_due(&ways[0]), other = send_due(&ways[1]);
        struct timespec time = {.tv_nsec = (long)(one < other ? one : other)};
        ppoll(files, 3, &time, NULL);
        for (int i = 0; i < 2; i++)
            if (files[i].revents != 0)
                take_all(&ways[i]);
    }
}

int main(int argc, char **argv)
{
    static struct interface ends[2];
    struct router router = {.name = "path", .errors = open_output(STDERR_FILENO), .interfaces = ends};
    if (argc != WORDS)
        return 2;
    for (int i = SEED; i < WORDS; i++)
        setting[i] = strtoull(argv[i], NULL, 10);
    for (; router.interface_count < 2; router.interface_count++)
        if (!open_interface(&router, argv[1 + router.interface_count], &ends[router.interface_count]))
            return 1;
    struct direction ways[2] = {{.from = &ends[0], .to = &ends[1], .dice = setting[SEED] << 32},
                                {.from = &ends[1], .to = &ends[0], .dice = setting[SEED] << 32 | 1}};
    TAILQ_INIT(&ways[0].flights);
    TAILQ_INIT(&ways[1].flights);
    prctl(PR_SET_TIMERSLACK, 1, 0, 0, 0);
    int signals = open_signals((const int[]){0});
    printf("ready\n");
    fflush(stdout);
    run(ways, signals);
    for (int i = 0; i < 2; i++)
        printf("frames %lu, bytes %lu, lost %lu, dropped %lu, missed %lu\n", ways[i].frames, ways[i].bytes, ways[i].lost,
               ways[i].dropped, (count_missed(ways[i].from), ways[i].from->missed + ways[i].to->lost));
    return 0;
}
