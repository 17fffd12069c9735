#include "plane.h"

#include "brinepulley.h"

#include <stdlib.h>

size_t sample_bytes(uint32_t depth)
{
    return depth == 8 ? sizeof(uint8_t) : sizeof(uint16_t);
}

static bool has_bytes(const struct plane *plane)
{
    return sample_bytes(plane->depth) == 1;
}

bool plane_make(struct plane *plane, size_t width, size_t height, uint32_t depth)
{
    *plane = (struct plane){.width = width, .height = height, .depth = depth, .count = width * height};
    plane->samples = malloc(plane->count * sample_bytes(depth));
    return plane->samples != NULL;
}

void plane_free(struct plane *plane)
{
    free(plane->samples);
    *plane = (struct plane){0};
}

struct plane plane_rows(const struct plane *plane, size_t row, size_t rows)
{
    struct plane part = *plane;
    part.height = rows;
    part.count = rows * part.width;
    part.samples = (char *)plane->samples + row * part.width * sample_bytes(part.depth);
    return part;
}

size_t plane_read(struct plane *plane, FILE *file, enum byte_order order)
{
    const size_t got = fread(plane->samples, sample_bytes(plane->depth), plane->count, file);
    if (has_bytes(plane))
        return got;
    /* The bytes of a sample lie where the sample is to be. */
    const uint8_t *bytes = plane->samples;
    uint16_t *words = plane->samples;
    const size_t low = order == LOW_FIRST ? 0 : 1, high = 1 - low;
    for (size_t i = 0; i < got; i++)
        words[i] = (uint16_t)(bytes[2 * i + low] | bytes[2 * i + high] << 8);
    return got;
}

/* A byte is never too large for 8 bits. */
bool plane_fault(const struct plane *plane, size_t row, char out[FAULT_ROOM])
{
    const uint16_t *words = plane->samples;
    const size_t count = has_bytes(plane) ? 0 : plane->count;
    size_t i = 0;
    while (i < count && words[i] >> plane->depth == 0)
        i++;
    if (i < count)
        snprintf(out, FAULT_ROOM, "its sample (%zu, %zu) is %u, and the largest of %u bits is %u", i % plane->width,
                 row + i / plane->width, (unsigned)words[i], (unsigned)plane->depth, (1u << plane->depth) - 1);
    return i < count;
}

void plane_block_fault(const struct plane *plane, char out[FAULT_ROOM])
{
    snprintf(out, FAULT_ROOM, "%zu × %zu samples have no whole block of 8 × 8, and standard mode measures by blocks", plane->width,
             plane->height);
}

/* A void pointer fits both words. */
#define LENT(p) (p)->samples, (p)->count, (p)->width, (p)->height, (p)->width, 0

int64_t plane_reduce(const struct plane *plane, size_t factor, struct plane *reduced)
{
    return has_bytes(plane) ? brine_reduce(plane->depth, factor, LENT(plane), LENT(reduced))
                            : brine_reduce16(plane->depth, factor, LENT(plane), LENT(reduced));
}

int64_t plane_difference(const struct plane *first, const struct plane *second)
{
    return has_bytes(first) ? brine_plane_difference(first->depth, LENT(first), LENT(second))
                            : brine_plane_difference16(first->depth, LENT(first), LENT(second));
}

int64_t plane_importance_total(const struct plane *first, const struct plane *second)
{
    return has_bytes(first) ? brine_importance_total(first->depth, LENT(first), LENT(second))
                            : brine_importance_total16(first->depth, LENT(first), LENT(second));
}

int64_t plane_delta(const struct plane *first, const struct plane *second, double *delta)
{
    return has_bytes(first) ? brine_delta(first->depth, LENT(first), LENT(second), delta)
                            : brine_delta16(first->depth, LENT(first), LENT(second), delta);
}

int64_t plane_importance(const struct plane *first, const struct plane *second, double *importance)
{
    return has_bytes(first) ? brine_importance(first->depth, LENT(first), LENT(second), importance)
                            : brine_importance16(first->depth, LENT(first), LENT(second), importance);
}

int64_t plane_intra_costs(const struct plane *plane, struct plane *work, uint32_t *costs, size_t count)
{
    return has_bytes(plane) ? brine_intra_costs(plane->depth, LENT(plane), LENT(work), costs, count)
                            : brine_intra_costs16(plane->depth, LENT(plane), LENT(work), costs, count);
}

/* The rows lie in the frame behind those before them. */
int64_t plane_add_strip(uint64_t *carry, const struct plane *first, size_t row, const struct plane *strip, struct plane *room,
                        uint32_t *costs, size_t count)
{
    const size_t width = first->width, height = strip->height;
    return has_bytes(first) ? brine_strips_add(carry, BRINE_CARRY, first->samples, first->count, width, height, width, row * width,
                                               LENT(strip), room->samples, room->count, costs, count)
                            : brine_strips_add16(carry, BRINE_CARRY, first->samples, first->count, width, height, width, row * width,
                                                 LENT(strip), room->samples, room->count, costs, count);
}
