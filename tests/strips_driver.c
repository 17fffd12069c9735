/* The parts of strips.h. */
#define _DEFAULT_SOURCE /* MAP_ANONYMOUS */
#include "strips.h"

#include <stdlib.h>
#include <string.h>
#include <sys/mman.h>
#include <unistd.h>

enum { WALLED_ROOM = 1 << 14 };

static size_t page_bytes(void)
{
    return (size_t)sysconf(_SC_PAGESIZE);
}

/* Whole pages. */
static size_t room_bytes(void)
{
    return (WALLED_ROOM + page_bytes() - 1) / page_bytes() * page_bytes();
}

static void make_pages(struct walled *place)
{
    const size_t page = page_bytes(), room = room_bytes();
    uint8_t *all = mmap(NULL, room + 2 * page, PROT_NONE, MAP_PRIVATE | MAP_ANONYMOUS, -1, 0);
    place->kept = malloc(room);
    if (all == MAP_FAILED || place->kept == NULL || mprotect(all + page, room, PROT_READ | PROT_WRITE) != 0)
        abort();
    place->pages = all + page;
}

void *walled_make(struct walled *place, size_t bytes, bool ends)
{
    if (place->pages == NULL)
        make_pages(place);
    if (bytes + GUARD > room_bytes())
        abort();
    place->bytes = bytes;
    place->at = ends ? place->pages + room_bytes() - bytes : place->pages;
    place->watched = ends ? place->at - GUARD : place->at;
    place->kept_bytes = bytes + GUARD;
    for (size_t i = 0; i < place->kept_bytes; i++)
        place->pages[(size_t)(place->watched - place->pages) + i] = (uint8_t)(151 * i + 43);
    walled_keep(place);
    return place->at;
}

void walled_keep(struct walled *place)
{
    memcpy(place->kept, place->watched, place->kept_bytes);
}

bool walled_same(const struct walled *place)
{
    return memcmp(place->kept, place->watched, place->kept_bytes) == 0;
}

bool walled_holds(const struct walled *place, const void *bytes)
{
    const size_t before = (size_t)(place->at - place->watched), behind = before + place->bytes;
    return memcmp(place->kept, place->watched, before) == 0 && memcmp(place->at, bytes, place->bytes) == 0
        && memcmp(place->kept + behind, place->watched + behind, place->kept_bytes - behind) == 0;
}

size_t pick(size_t limit)
{
    static uint32_t drawn = 1;
    drawn = 1664525 * drawn + 1013904223;
    return (size_t)((uint64_t)drawn * limit >> 32);
}

size_t some(size_t most)
{
    return pick(2) == 0 ? 0 : pick(most + 1);
}

size_t word_bytes(uint32_t depth)
{
    return depth == 8 ? sizeof(uint8_t) : sizeof(uint16_t);
}

unsigned sample_at(uint32_t depth, const void *samples, size_t place)
{
    return depth == 8 ? ((const uint8_t *)samples)[place] : ((const uint16_t *)samples)[place];
}

void sample_put(uint32_t depth, void *samples, size_t place, unsigned value)
{
    if (depth == 8)
        ((uint8_t *)samples)[place] = (uint8_t)value;
    else
        ((uint16_t *)samples)[place] = (uint16_t)value;
}

int64_t whole_difference(uint32_t depth, struct strip a, struct strip b)
{
    return depth == 8 ? brine_plane_difference(depth, LENT(a), LENT(b)) : brine_plane_difference16(depth, LENT(a), LENT(b));
}

int64_t whole_total(uint32_t depth, struct strip a, struct strip b)
{
    return depth == 8 ? brine_importance_total(depth, LENT(a), LENT(b)) : brine_importance_total16(depth, LENT(a), LENT(b));
}

int64_t whole_costs(uint32_t depth, struct strip samples, uint32_t *costs, size_t count)
{
    static uint16_t work[MOST_SAMPLES];
    void *lent = work;
    const size_t w = samples.width, h = samples.height;
    return depth == 8 ? brine_intra_costs(depth, LENT(samples), lent, w * h, w, h, w, 0, costs, count)
                      : brine_intra_costs16(depth, LENT(samples), lent, w * h, w, h, w, 0, costs, count);
}

int64_t add_strips(uint32_t depth, uint64_t *carry, size_t carry_len, struct strip a, struct strip b, void *room, size_t room_len,
                   uint32_t *costs, size_t costs_len)
{
    return depth == 8 ? brine_strips_add(carry, carry_len, LENT(a), LENT(b), room, room_len, costs, costs_len)
                      : brine_strips_add16(carry, carry_len, LENT(a), LENT(b), room, room_len, costs, costs_len);
}

/* Any bytes, so that a room of 16 bits has samples that are too large. */
static void *make_rubbish(struct walled *place, size_t bytes)
{
    uint8_t *at = walled_make(place, bytes, pick(2) == 0);
    for (size_t i = 0; i < bytes; i++)
        at[i] = (uint8_t)(pick(3) == 0 ? 255 : pick(256));
    walled_keep(place);
    return at;
}

void driver_start(struct driver *d, uint32_t depth, size_t width, size_t height)
{
    const uint64_t want[BRINE_CARRY] = {width, height, depth, 0, 0, 0};
    d->depth = depth;
    d->width = width;
    d->height = height;
    d->room_len = 16 * width + some(MOST_SPARE);
    d->costs_len = (width / 8) * (height / 8) + some(MOST_SPARE);
    uint64_t *carry = make_rubbish(&d->carry, BRINE_CARRY * sizeof(uint64_t));
    make_rubbish(&d->room, d->room_len * word_bytes(depth));
    make_rubbish(&d->costs, d->costs_len * sizeof(uint32_t));
    memcpy(d->want_room, d->room.at, d->room.bytes);
    memcpy(d->want_costs, d->costs.at, d->costs.bytes);
    memcpy(d->want_carry, want, sizeof want);
    EXPECT_NUMBER(brine_strips_start(depth, width, height, carry, BRINE_CARRY), 0);
    EXPECT(walled_holds(&d->carry, want));
}

/* Eight rows are held, which is one row of blocks. A sample among them that is too large has the measures refuse: then they count
   nothing. */
static void want_blocks(struct driver *d, size_t row)
{
    const size_t w = d->width, half = 8 * w * word_bytes(d->depth);
    const struct strip first = {d->want_room, 8 * w, w, 8, w, 0};
    const struct strip second = {(const uint8_t *)d->want_room + half, 8 * w, w, 8, w, 0};
    const int64_t total = whole_total(d->depth, first, second);
    d->want_carry[CARRY_TOTAL] += total < 0 ? 0 : (uint64_t)total;
    whole_costs(d->depth, second, d->want_costs + row * (w / 8), w / 8);
}

static void want_row(struct driver *d, struct strip a, struct strip b, size_t i)
{
    const uint64_t y = d->want_carry[CARRY_ROWS]++;
    for (size_t x = 0; x < d->width; x++) {
        const unsigned p = sample_at(d->depth, a.samples, a.origin + i * a.stride + x);
        const unsigned q = sample_at(d->depth, b.samples, b.origin + i * b.stride + x);
        sample_put(d->depth, d->want_room, (y % 8) * d->width + x, p);
        sample_put(d->depth, d->want_room, (8 + y % 8) * d->width + x, q);
        d->want_carry[CARRY_DIFFERENCE] += p > q ? p - q : q - p;
    }
    if (y % 8 == 7)
        want_blocks(d, y / 8);
}

/* Lends the strips, and compares. */
static bool answers(struct driver *d, struct strip a, struct strip b, int64_t want)
{
    const int64_t answer = add_strips(d->depth, (uint64_t *)(void *)d->carry.at, BRINE_CARRY, a, b, d->room.at, d->room_len,
                                      (uint32_t *)(void *)d->costs.at, d->costs_len);
    return EXPECT_NUMBER(answer, want) && EXPECT(walled_holds(&d->carry, d->want_carry))
        && EXPECT(walled_holds(&d->room, d->want_room)) && EXPECT(walled_holds(&d->costs, d->want_costs));
}

bool driver_add(struct driver *d, struct strip a, struct strip b)
{
    for (size_t i = 0; i < a.height; i++)
        want_row(d, a, b, i);
    return answers(d, a, b, (int64_t)d->want_carry[CARRY_ROWS]);
}

bool driver_refuses(struct driver *d, struct strip a, struct strip b, int64_t number)
{
    return answers(d, a, b, -number);
}

void driver_spoil(struct driver *d, size_t place, unsigned value)
{
    sample_put(d->depth, d->room.at, place, value);
    sample_put(d->depth, d->want_room, place, value);
}

/* The carry is only read. */
static void end_lent(struct walled *carry, size_t length, int64_t answer, uint64_t difference, uint64_t total)
{
    static struct walled places[2];
    uint64_t *one = walled_make(&places[0], sizeof *one, true), *other = walled_make(&places[1], sizeof *other, false);
    walled_keep(carry);
    EXPECT_NUMBER(brine_strips_end((const uint64_t *)(void *)carry->at, length, one, other), answer);
    EXPECT(walled_same(carry));
    EXPECT(answer < 0 ? walled_same(&places[0]) : walled_holds(&places[0], &difference));
    EXPECT(answer < 0 ? walled_same(&places[1]) : walled_holds(&places[1], &total));
}

void driver_end(struct driver *d, int64_t difference, int64_t total)
{
    const size_t blocks = (d->width / 8) * (d->height / 8);
    end_lent(&d->carry, BRINE_CARRY, (int64_t)blocks, (uint64_t)difference, (uint64_t)total);
}

void end_with(int64_t answer, const uint64_t numbers[BRINE_CARRY], size_t length)
{
    static struct walled carry;
    memcpy(walled_make(&carry, BRINE_CARRY * sizeof(uint64_t), true), numbers, BRINE_CARRY * sizeof(uint64_t));
    end_lent(&carry, length, answer, numbers[CARRY_DIFFERENCE], numbers[CARRY_TOTAL]);
}
