#include "draw.h"

/* Sides that the scale rule halves, so that the reduction is at work too. */
enum { DRAWN_WIDTH = 432, DRAWN_HEIGHT = 270 };

/* A number from 0 to 255 that looks drawn by lot but is the same in every run. */
static int grain(uint64_t x, uint64_t y, uint64_t frame)
{
    uint64_t n = x * 0x9E3779B97F4A7C15u + y * 0xC2B2AE3D27D4EB4Fu + frame * 0x165667B19E3779F9u;
    n ^= n >> 29;
    n *= 0xBF58476D1CE4E5B9u;
    n ^= n >> 32;
    return (int)(n & 255);
}

/* A smooth wave of period 256 from -64 to 64: two parabolas. */
static int wave(int phase)
{
    const int p = phase & 127;
    const int arch = p * (128 - p) / 64;
    return phase & 128 ? -arch : arch;
}

static int clamped(int value)
{
    return value < 0 ? 0 : value > 255 ? 255 : value;
}

/* Dusk: bright along the horizon, dark above. `up` counts rows from the horizon, out of `rows`. */
static int dusk_sky(int up, int rows, uint64_t frame)
{
    return 165 - 95 * up / rows - (int)frame;
}

/* A swell: long crests that come nearer to each other towards the horizon. `down` counts rows from the horizon. */
static int swell(int x, int down, int rows, uint64_t frame, int height)
{
    const int row = 40000 / (down + 40);
    return height * wave(row + x / 3 + (int)(frame * 37)) / 64 * (down + rows / 4) / rows;
}

static bool on_bolt(int x, int y, int horizon)
{
    const int middle = 290 + wave(y * 4) / 2 + wave(y * 17) / 12;
    return y < horizon && x >= middle && x < middle + 12;
}

static int sample_dusk(int x, int y, int horizon, int height, uint64_t frame)
{
    const int line = frame >= LINE_FRAME ? 7 * (int)(frame - LINE_FRAME + 1) : 0;
    const int flash = frame == FLASH_FRAME ? 75 : 0;
    if (flash > 0 && on_bolt(x, y, horizon))
        return 255;
    if (y >= horizon)
        return 66 + flash / 2 + swell(x, y - horizon, height - horizon, frame, 44);
    if (horizon - y <= line)
        return 24 + flash;
    return dusk_sky(horizon - y, horizon, frame) + flash;
}

static int sample_squall(int x, int y, int horizon, int height, uint64_t frame)
{
    const int rain = grain((uint64_t)(x + y / 4) / 2, (uint64_t)y / 24, frame) > 225 ? 22 : 0;
    const int curtain = (64 + wave(3 * x + 2 * y + (int)frame * 9)) * y / (4 * horizon);
    const int foam = grain((uint64_t)x / 9, (uint64_t)y / 3, frame) > 238 ? 60 : 0;
    if (y >= horizon)
        return 34 + foam + swell(x, y - horizon, height - horizon, frame, 40);
    return 26 + curtain + rain;
}

void draw_frame(uint8_t *luma, size_t width, size_t height, uint64_t frame)
{
    const int horizon = (int)height * 9 / 20;
    for (int y = 0; y < (int)height; y++)
        for (int x = 0; x < (int)width; x++) {
            const int value = frame >= SQUALL_FRAME ? sample_squall(x, y, horizon, (int)height, frame)
                                                    : sample_dusk(x, y, horizon, (int)height, frame);
            *luma++ = (uint8_t)clamped(value);
        }
}

static enum fetched next_drawn(struct film *film, struct plane *luma)
{
    if (film->frames == FILM_FRAMES)
        return END;
    draw_frame(luma->samples, film->width, film->height, film->frames);
    film->frames++;
    return FRAME;
}

void film_open_drawn(struct film *film)
{
    *film = (struct film){
        .name = "the drawn film", .width = DRAWN_WIDTH, .height = DRAWN_HEIGHT, .depth = 8, .next = next_drawn};
}
