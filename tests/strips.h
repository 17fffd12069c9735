/* What the tests of strips share: memory between walls, samples of either word, and a driver of a sensor that knows what the places
   that it keeps must hold after each call. */
#ifndef TEST_STRIPS_H
#define TEST_STRIPS_H

#include "brinepulley.h"
#include "check.h"

/* The largest frames of a driver, the most rows of a strip, and how much longer than needed its room and its costs may be. */
enum { MOST_WIDTH = 33, MOST_HEIGHT = 141, MOST_ROWS = 64, MOST_SPARE = 5 };
enum {
    MOST_SAMPLES = MOST_WIDTH * MOST_HEIGHT,
    MOST_ROOM = 16 * MOST_WIDTH + MOST_SPARE,
    MOST_COSTS = (MOST_WIDTH / 8) * (MOST_HEIGHT / 8) + MOST_SPARE
};

/* The carry's numbers, by their index. */
enum { CARRY_WIDTH, CARRY_HEIGHT, CARRY_DEPTH, CARRY_ROWS, CARRY_DIFFERENCE, CARRY_TOTAL };

/* A place in memory of its own. It ends where a page begins that nobody may touch, or begins where such a page ends; on its other side
   are guard bytes. */
struct walled {
    uint8_t *pages; /* NULL at first */
    uint8_t *at;
    size_t bytes, kept_bytes;
    const uint8_t *watched; /* the place with its guard bytes */
    uint8_t *kept;
};

/* Makes the place, with bytes that differ from their neighbours. It ends at a wall or else begins at one. */
void *walled_make(struct walled *place, size_t bytes, bool ends);

/* Remembers place and guard bytes as they are now; whether they are as they were then. */
void walled_keep(struct walled *place);
bool walled_same(const struct walled *place);

/* The place holds just these bytes now, and the guard bytes are as they were. */
bool walled_holds(const struct walled *place, const void *bytes);

/* Draws a number below the limit. */
size_t pick(size_t limit);

/* Draws a number up to `most`, in half of all cases 0. */
size_t some(size_t most);

/* Samples of 8 bits are bytes, and deeper ones have 16 bits. */
size_t word_bytes(uint32_t depth);
unsigned sample_at(uint32_t depth, const void *samples, size_t place);
void sample_put(uint32_t depth, void *samples, size_t place, unsigned value);

/* A strip, or a whole frame. */
struct strip {
    const void *samples;
    size_t length, width, height, stride, origin;
};

#define LENT(s) (s).samples, (s).length, (s).width, (s).height, (s).stride, (s).origin

/* The measures of whole planes and the taking of strips, by the word of the depth. */
int64_t whole_difference(uint32_t depth, struct strip a, struct strip b);
int64_t whole_total(uint32_t depth, struct strip a, struct strip b);
int64_t whole_costs(uint32_t depth, struct strip samples, uint32_t *costs, size_t count);
int64_t add_strips(uint32_t depth, uint64_t *carry, size_t carry_len, struct strip a, struct strip b, void *room, size_t room_len,
                   uint32_t *costs, size_t costs_len);

/* The driver: the three places that it lends to each call, and what they must hold. */
struct driver {
    uint32_t depth;
    size_t width, height, room_len, costs_len;
    struct walled carry, room, costs;
    uint64_t want_carry[BRINE_CARRY];
    uint16_t want_room[MOST_ROOM]; /* of bytes the first half */
    uint32_t want_costs[MOST_COSTS];
};

/* Fills carry, room and costs with rubbish and starts two frames. Room and costs may be longer than needed, by a draw. */
void driver_start(struct driver *driver, uint32_t depth, size_t width, size_t height);

/* Lends two strips, and compares the answer and all three places: whether they hold what they must. That comes from the measures of whole
   planes, on eight held rows. */
bool driver_add(struct driver *driver, struct strip a, struct strip b);

/* Lends two strips that get this refusal: all three places must hold what they held. */
bool driver_refuses(struct driver *driver, struct strip a, struct strip b, int64_t number);

/* Puts a value over a sample of the room, as a caller should not. */
void driver_spoil(struct driver *driver, size_t place, unsigned value);

/* Ends, and compares with these; the number of blocks is the sides'. */
void driver_end(struct driver *driver, int64_t difference, int64_t total);

/* A carry by hand is lent to the end, which answers this. The two places hold the carry's totals then, or what they held before. */
void end_with(int64_t answer, const uint64_t numbers[BRINE_CARRY], size_t length);

#endif
