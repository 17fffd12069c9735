#include "card.h"

#include <string.h>

enum { BLOCKS = (CARD_WIDTH / 8) * (CARD_HEIGHT / 8), CELL = 4, FLASH = 60 };

/* A whole frame as the library's functions want it. */
#define PLANE(samples) (samples), CARD_SAMPLES, CARD_WIDTH, CARD_HEIGHT, CARD_WIDTH, 0

/* What a scene looks like: how bright it is, what it shows, and by how many samples that moves from frame to frame. */
struct scene {
    uint32_t level, pattern, speed;
};

/* Cells of many shades, of which `moved` columns have gone by. */
static void draw_frame(uint8_t *frame, const struct scene *scene, uint32_t moved, uint32_t light)
{
    for (uint32_t i = 0; i < CARD_SAMPLES; i++) {
        const uint32_t x = (i % CARD_WIDTH + moved) / CELL, y = i / CARD_WIDTH / CELL;
        const uint32_t shade = ((x * 193 + y * 71 + scene->pattern) * 2654435761u) >> 26;
        frame[i] = (uint8_t)(scene->level + light + shade);
    }
}

void card_draw(struct card *card, uint64_t first, size_t frames)
{
    struct scene scene = {0};
    uint32_t left = 0;
    card->from = first;
    card->end = first + frames;
    card->missing = 0;
    for (uint32_t i = 0; i < frames; i++) {
        if (left == 0) {
            scene = (struct scene){.level = draw(110), .pattern = draw(1 << 20), .speed = draw(4)};
            left = 1 + draw(16);
        }
        left--;
        draw_frame(card->frames[(first + i) % CARD_FRAMES], &scene, scene.speed * i, draw(8) + (one_in(12) ? FLASH : 0));
    }
}

void card_clear(struct card *card, uint64_t first)
{
    draw_rubbish(card->frames, sizeof card->frames / sizeof(uint64_t));
    card->from = card->end = first;
    card->missing = 0;
}

void card_take(struct card *card, const struct card *film, uint64_t end)
{
    for (; card->end < end; card->end++)
        memcpy(card->frames[card->end % CARD_FRAMES], film->frames[card->end % CARD_FRAMES], CARD_SAMPLES);
}

size_t card_wipe(struct card *card, uint64_t release)
{
    size_t wiped = 0;
    for (; card->from < release; card->from++, wiped++)
        draw_rubbish(card->frames[card->from % CARD_FRAMES], CARD_SAMPLES / sizeof(uint64_t));
    return wiped;
}

/* Every look at a frame goes through here. */
static const uint8_t *frame_of(struct card *card, uint64_t number)
{
    card->missing += number < card->from || number >= card->end;
    return card->frames[number % CARD_FRAMES];
}

static void measure(uint32_t mode, const uint8_t *left, const uint8_t *right, struct film *measures, size_t place)
{
    uint8_t work[CARD_SAMPLES];
    uint32_t costs[BLOCKS];
    if (mode == FAST) {
        EXPECT_NUMBER(brine_delta(8, PLANE(left), PLANE(right), &measures->inter[place]), 0);
        return;
    }
    measures->inter[place] = (double)brine_plane_difference(8, PLANE(left), PLANE(right)) / BLOCKS;
    EXPECT_NUMBER(brine_importance(8, PLANE(left), PLANE(right), &measures->importance[place]), 0);
    EXPECT_NUMBER(brine_intra_costs(8, PLANE(right), PLANE(work), costs, BLOCKS), BLOCKS);
    EXPECT_NUMBER(brine_threshold(costs, BLOCKS, BLOCKS, &measures->threshold[place]), 0);
}

void card_measure(struct card *card, uint32_t mode, struct film *measures, uint64_t first, uint64_t end)
{
    measures->first = first;
    for (uint64_t pair = first; pair < end && EXPECT(pair - first < FILM_PAIRS); pair++)
        measure(mode, frame_of(card, pair - 1), frame_of(card, pair), measures, (size_t)(pair - first));
}
