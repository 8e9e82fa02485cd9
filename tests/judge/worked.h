/* Worked calls: their results come neither from the library nor from its model, but from RFCs, from captures and from
 * other programs. Each is made through calls.c, so that the model must have the same result. */
#ifndef WORKED_H
#define WORKED_H

#include <string.h>
#include "judge.h"

enum { ROOM = 256, OLD = 0xa5, CHANGES = 14 };

struct octets {
    uint8_t at[ROOM];
    size_t len;
};

#define FRAME(name, hex) extern struct octets name;
#include "worked_frames.inc"
#undef FRAME

/* A byte that gets another value. Byte 0 with the value 0 is no change: it ends a list. */
struct change {
    size_t at;
    uint8_t octet;
};

struct octets octets(const char *hex);
struct octets changed(struct octets octets, size_t at, uint8_t octet);

/* The first `len` bytes, with these changes. */
struct octets cut(const struct octets *octets, size_t len, const struct change changes[CHANGES]);

struct lk_addr addr(const char *text);
struct lk_endpoint endpoint(const char *text);

/* Ends the program if a fact does not hold. `row` is the number of the row in its table. */
void check(const char *file, int line, size_t row, int holds);
#define CHECK(fact) check(__FILE__, __LINE__, 0, fact)
#define CHECK_ROW(row, fact) check(__FILE__, __LINE__, row, fact)

/* What a call writes, which has OLD everywhere before. */
extern uint8_t out[ROOM];
uint8_t *clear(void);

/* Whether `out` has these bytes, and OLD after them. */
int holds(const struct octets *octets, ptrdiff_t written);

/* A call writes these bytes into `out`, which has `cap` bytes: with just enough, and with much room. With one less
 * it fails. */
#define WRITES(wanted, call)                          \
    do {                                              \
        const struct octets written = wanted;         \
        size_t cap = written.len - 1;                 \
        FAILS(LK_NO_ROOM, call);                      \
        cap = written.len;                            \
        clear();                                      \
        CHECK(holds(&written, call));                 \
        cap = ROOM;                                   \
        clear();                                      \
        CHECK(holds(&written, call));                 \
    } while (0)

/* A call returns this number, and writes nothing. */
#define FAILS(failure, call) (clear(), CHECK((call) == (failure)), CHECK(holds(&nothing, 0)))
extern const struct octets nothing;

/* ---- worked_NAME.c ---- */

void worked_read(void);
void worked_extended(void);
void worked_captured(void);
void worked_ports(void);
void worked_link(void);
void worked_options(void);
void worked_write(void);
void worked_failures(void);
void worked_values(void);
void worked_route(void);
void worked_nat(void);
void worked_mappings(void);
void worked_rows(void);
void worked_reach(void);
void worked_icmp(void);
void worked_mld(void);
void worked_edit(void);
void worked_fragment(void);
void worked_reassembly(void);
void worked_hosts(const char *folder);
void worked_problems(void);
void worked_summary(void);

#endif
