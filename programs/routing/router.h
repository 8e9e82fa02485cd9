/* What router.c and nat.c share: interfaces, a neighbour cache, routes, and the way of a packet. */
#ifndef ROUTER_H
#define ROUTER_H

#include "../claims.h"
#include "../error_limit.h"
#include "../process.h"

#include <ip_wire.h>
#include <linux/virtio_net.h>
#include <net/if.h>

enum { LONGEST_FRAME = LK_ETHERNET_HEADER_LEN + LK_IPV6_HEADER_LEN + 65535, SHORTEST_FRAME = 60, FRAMES_AT_ONCE = 64 };

/* A frame from a device, with what its sender left to the device. A frame with an `offload.gso_type` becomes many
 * frames on its way. One with VIRTIO_NET_HDR_F_NEEDS_CSUM has no UDP or TCP checksum yet. */
struct packet {
    size_t len;    /* of the frame, in bytes */
    int is_tagged; /* the kernel has taken a VLAN tag out of it */
    struct virtio_net_hdr offload;
    uint8_t frame[LONGEST_FRAME];
};

struct interface {
    char name[IFNAMSIZ];
    int is_tap;          /* else it is a packet socket on an interface of the kernel */
    int device;          /* -1: the device is gone */
    unsigned index;      /* of the kernel's interface */
    size_t mtu;          /* in bytes */
    int is_up;           /* at the last look: a frame can be sent */
    int kernel_ipv4, kernel_ipv6; /* the kernel has its addresses of this version, and answers for them */
    int introduced;      /* steps of `introduce` that its addresses have had */
    struct listener listener;
    int64_t defended_at; /* when a conflict of addresses was reported last, in milliseconds; 0: never */
    int clamps;          /* the MTU limits the segments of TCP connections over it */
    int renumbers;       /* packets that may be fragmented get an identification of the router (RFC 6864, section 5.3.1) */
    struct lk_interface own;  /* its Ethernet address, and the addresses from which ICMP errors come */
    struct error_limit limit; /* for the errors that it sends */
    struct packet *queue[FRAMES_AT_ONCE]; /* in a buffer of the caller of `send_later` */
    size_t queued;
    unsigned long received, sent;
    unsigned long lost;   /* could not be sent: the device is down or gone, or its queue is full */
    unsigned long missed; /* came while the socket was full */
};

/* An address of the router, with the block of its link. */
struct address {
    struct lk_prefix block;
    uint16_t interface;
    uint8_t is_taken; /* another host had it when the router asked: it is not used */
};

/* A neighbour that is never asked for its Ethernet address. */
struct fixed_neighbour {
    struct lk_addr addr;
    uint16_t interface;
    uint8_t hardware[6];
    unsigned long line; /* of the file */
};

/* What the file says of an interface. */
struct setting {
    int clamps;
    int has_hardware;
    uint8_t hardware[6];
};

/* What the file says. */
struct config {
    struct address *addresses;
    size_t address_count;
    struct lk_route *routes; /* those of the addresses, then those of the file */
    struct lk_route_node *nodes;
    size_t route_count;
    uint64_t *cells; /* the table of the routes */
    size_t cell_count;
    struct fixed_neighbour *neighbours; /* by compare_fixed */
    size_t neighbour_count;
    struct setting *settings; /* of each interface */
};

/* Numbers of routes that lead to no interface: the router's own addresses, and directed broadcasts. Those of interfaces
 * are less than MOST_INTERFACES. */
enum { TO_ROUTER = 65535, TO_BROADCAST = 65534, MOST_INTERFACES = 65534 };

/* Why a packet is dropped, after the reasons of `lk_rejection`. */
enum drop {
    OTHER_LINK = LK_REJECTION_COUNT,     /* another Ethernet address */
    TAGGED,                              /* a VLAN tag */
    GROUP,                               /* for a group or a broadcast, or its Ethernet address is one */
    LINK_LOCAL,                          /* from or for a link-local address */
    RESERVED,                            /* for an address of `is_reserved` */
    FOR_ROUTER,                          /* for an address of the router, which does not answer */
    NO_WAY,                              /* no route */
    TOO_LONG,                            /* longer than the MTU of the next link, and must not be fragmented */
    NO_NEIGHBOUR,                        /* the next hop does not reply to ARP or neighbour solicitations */
    TAKEN,                               /* the address outside is another host's */
    ABOVE_LIMIT,                         /* it needs a mapping, and its sender has as many as it may have */
    BAD_FRAGMENT,                        /* a fragment that lk_reassemble rejects */
    DROPS
};

/* The tables of packets that are put together from their fragments. */
enum table { FOR_OWN, FROM_INSIDE, FROM_OUTSIDE, TABLES, NO_TABLE = TABLES };

struct router {
    const char *name; /* of the program */
    const char *path; /* of the file */
    struct output out, errors;
    struct interface *interfaces;
    size_t interface_count;
    struct config config;
    struct neighbours *neighbours;
    int64_t now;       /* in milliseconds */
    int takes_any_way; /* a packet may come from elsewhere than the route back to its source leads */
    int kernel_answers; /* for the addresses of packet sockets */
    unsigned long frames, forwarded, answered, arp, ndisc, mld;
    unsigned long for_kernel; /* packets that are left to the kernel */
    unsigned long fragments; /* taken to be put together */
    unsigned long wholes;    /* packets that were put together */
    unsigned long withheld; /* ICMP errors above the limit */
    unsigned long untold;   /* packets that are dropped, but may get no ICMP error */
    unsigned long drops[DROPS];
    /* Steps of a NAT, for packets over IPv4; null: none. Each returns why the packet is dropped, or LK_NOT_REJECTED. `in`
     * is the packet as it was read. */
    int (*before_route)(struct router *router, uint16_t from, const struct lk_frame *in, struct packet *packet,
                        struct lk_addr *dst);
    int (*before_send)(struct router *router, uint16_t from, uint16_t to, struct packet *packet);
    int (*before_error)(struct router *router, uint16_t to, struct packet *error);
    /* The table for the fragments of a packet whose route leads to the interface `to`. */
    enum table (*table_of)(uint16_t from, uint16_t to, const struct lk_addr *dst);
    /* Takes a file that is right otherwise. Returns what is wrong with it, or null. */
    const char *(*on_config)(const struct router *router, const struct config *config);
};

/* ---- device.c ---- */

/* Reads "tap:NAME" or "packet:NAME", and opens it. Returns 0 if that fails, with a message. */
int open_interface(struct router *router, const char *word, struct interface *interface);
/* Reads at most FRAMES_AT_ONCE frames, and returns their number. */
size_t receive(struct interface *interface, struct packet *packets);
/* Queues a packet, which must stay until `flush_all`. If the queue is full, it is sent first. */
void send_later(struct interface *interface, struct packet *packet);
/* Sends the packets of all queues. */
void flush_all(struct router *router);
void send_now(struct interface *interface, const struct virtio_net_hdr *offload, const uint8_t *frame, size_t len);
/* Fills a frame up to the shortest length of Ethernet, and returns its length. There must be room for it. */
size_t pad(uint8_t *frame, size_t len);
/* Looks whether the device is gone, has come back or is up, and reads its MTU again. */
void check_interface(struct router *router, struct interface *interface);
/* Adds to `missed` what the kernel has counted since the last call. */
void count_missed(struct interface *interface);
/* Computes the UDP or TCP checksum that the sender left to the device. */
void complete_checksum(struct packet *packet);
/* Leaves the checksum of a frame that becomes many frames to the device again. */
void uncomplete_checksum(struct packet *packet);
/* Lowers the maximum segment size of a SYN to what fits into the MTU of an interface, if the interface clamps. */
void clamp(const struct interface *interface, struct packet *packet);

/* ---- neighbour.c ---- */

struct neighbours *make_neighbours(void);
/* The order of fixed neighbours: by their interface and address. For qsort and bsearch. */
int compare_fixed(const void *a, const void *b);
/* Returns the Ethernet address of a neighbour, or null if it is not known. */
const uint8_t *hardware_of(struct router *router, uint16_t interface, const struct lk_addr *addr);
/* Keeps a copy of a packet for `dst` until the neighbour has replied. */
void wait_for_neighbour(struct router *router, uint16_t to, const struct lk_addr *addr, uint16_t from,
                        const struct packet *packet, const struct lk_addr *dst);
/* Sends an ARP request or a neighbour solicitation for `target`: to this Ethernet address, or null: to all hosts. */
void send_request(struct router *router, uint16_t to, const struct lk_addr *src, const struct lk_addr *target,
                  const uint8_t *hardware);
void on_arp(struct router *router, uint16_t from, const struct lk_frame *in, struct packet *packet);
/* Gives packets whose neighbours have replied to `send_on` again, and sends them. `packets` is room for FRAMES_AT_ONCE,
 * of which no queue has one. */
void send_released(struct router *router, struct packet *packets);
/* Takes a neighbour solicitation or advertisement. Returns 0 if the packet is none. */
int on_ndisc(struct router *router, uint16_t from, const struct lk_frame *in, struct packet *packet);
/* Repeats requests, and drops packets whose neighbour does not reply. To be called once a second. */
void ask_again(struct router *router);

/* ---- config.c ---- */

/* Reads the file with addresses, routes and neighbours, at the start or again. Returns 0 if that fails, with a message.
 * Then the router keeps what it has. */
int read_config(struct router *router, int is_again);
/* Chooses the addresses from which ICMP errors come, among those that are used. */
void choose_sources(struct router *router);

/* ---- forward.c ---- */

/* Forwards the packet of a frame that came in, or takes it. Changes the packet. */
void on_frame(struct router *router, uint16_t from, struct packet *packet);
/* The rest of the way of a packet, from the choice of a route on. */
void send_on(struct router *router, uint16_t from, struct packet *packet, const struct lk_addr *dst);
/* Counts a packet that is dropped: `why` is an `lk_rejection` or a `drop`. */
void drop(struct router *router, int why);
int is_over_ipv4(const struct packet *packet);
int is_link_local(const struct lk_addr *addr);
/* 0.0.0.0/8, 127.0.0.0/8, 240.0.0.0/4, ::, ::1: to these no router forwards (RFC 1812, section 5.3.7; RFC 4291, section
 * 2.5). */
int is_reserved(const struct lk_addr *addr);
void print_counts(struct router *router);

/* ---- fragments.c ---- */

/* Returns 0 if there is no memory. */
int make_tables(void);
/* Takes a fragment. Returns 1 if its packet is complete: then it is in `packet`. `in` is the fragment as it was read. */
int make_whole(struct router *router, uint16_t from, enum table place, const struct lk_frame *in, struct packet *packet);
/* Drops fragments whose time is over, and tells their senders. To be called once a second. */
void expire_fragments(struct router *router);
/* Gives a packet over IPv4 an identification of the router. */
void renumber(struct packet *packet);
/* Sends a packet over IPv4 in fragments, and returns their number. `is_own`: they get an identification of the router. */
size_t send_fragments(struct interface *interface, const uint8_t *frame, size_t len, int is_own);

/* ---- answer.c ---- */

/* Sends a frame of the router itself, but an ICMP error only within the limit. A packet that is too long leaves in
 * fragments. There must be room for padding. */
void send_own(struct router *router, uint16_t to, uint8_t *frame, size_t len);
/* Answers a packet for this address of the router. Returns 0 if it gets no answer. */
int answer(struct router *router, uint16_t from, const struct lk_addr *own, struct packet *packet);
/* Tells the sender of a packet why it is dropped, if an ICMP error may be sent about it. The packet is as it came in.
 * `mtu` is that of the next link, for LK_PACKET_TOO_BIG. */
void send_error(struct router *router, uint16_t from, enum lk_problem problem, struct packet *packet, size_t mtu);

/* ---- own.c ---- */

/* Asks on each link whether another host has an address of the router, and a second later announces the addresses: at
 * the start, when a device has come up, and when the file was read again. Reports their groups then, and when a report is
 * due. To be called once a second. */
void introduce(struct router *router);
/* Takes a query of multicast listener discovery. Returns 0 if the packet is none for a group of the router. */
int on_query(struct router *router, uint16_t from, const struct packet *packet);
/* A packet of ARP or neighbour discovery may say that another host has an address of the router. If the router has just asked
 * for it, the address is not used until the link comes up again or the file is read again (RFC 5227, section 2.1.1; RFC
 * 4862, section 5.4.5). Else the conflict is reported and the address announced, once in 10 seconds (RFC 5227, section
 * 2.4 c). */
void find_conflict(struct router *router, uint16_t from, const struct lk_frame *in, const struct packet *packet);
/* Whether the router has this address, and uses it. */
int is_used(const struct router *router, const struct lk_addr *own);
/* Whether this address of the router is one that the kernel answers for. */
int is_of_kernel(const struct router *router, const struct lk_addr *own);
/* Reports the addresses that the kernel should have and has not. */
void compare_with_kernel(struct router *router);

/* ---- serve.c ---- */

/* Opens the interfaces, and reads the file. Returns 0 if that fails, with a message. */
int start(struct router *router, const char *path, char **words, size_t count);
/* Forwards until SIGTERM or SIGINT. Returns the status of the program. */
int serve(struct router *router);

/* ---- limit.c ---- */

/* Makes a limit of `most` live mappings for each inside address, in a table of `count`. Null: out of memory. */
struct limit *make_limit(size_t most, size_t count);
/* Counts the mapping at `place` if lk_translate_out has opened it. Returns 0, and frees it, if its inside address has
 * too many. One that has ended may count until the packets of its address have looked at all of them. */
int is_within_limit(struct limit *limit, struct lk_mapping *mappings, size_t place, uint64_t now);
/* Whether an inside endpoint, that of `endpoint`, has a live mapping that was counted. `protocol` is 0 for UDP, 1 for TCP and
 * 2 for ICMP. */
int has_mapping(struct limit *limit, const struct lk_mapping *mappings, size_t protocol, const struct lk_mapping *endpoint,
                uint64_t now);

#endif
