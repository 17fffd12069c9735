/* The fuzz run: films, pictures, costs, logs and command lines, whole and damaged, through the command itself. FUZZ_TARGET names one
   of the targets below; fuzz.sh compiles this with the command and runs each for a while. No input may make the command crash, hang,
   leak memory, end with a status of its own, fail without a word, write bytes that are no text, or spoil a file. */
#include "fuzz_draw.h"

#include "brinepulley.h"

#include <inttypes.h>
#include <stdio.h>
#include <stdlib.h>
#include <string.h>

int LLVMFuzzerInitialize(int *count, char ***words);
int LLVMFuzzerTestOneInput(const uint8_t *at, size_t count);

/* Eight bytes draw the options. Behind them stands a Y4M film. */
static void fuzz_film(struct bytes input)
{
    static const char *const modes[] = {"fast", "standard", "none"};
    static const uint64_t firsts[] = {0, 0, 0, 3, 100, 4294967280, 4294967295, UINT64_MAX};
    struct line line = {0};
    const unsigned mode = draw(&input) % 3, lookahead = draw(&input), min = draw(&input), max = draw(&input);
    const unsigned switches = draw(&input), log = draw(&input), pairs = draw(&input), first = draw(&input);

    room_put("film.y4m", input);
    remove("scores.log");
    line_add(&line, "decide");
    add_file(&line, "film.y4m", switches >= 128);
    line_add(&line, "--mode");
    line_add(&line, "%s", modes[mode]);
    add_pair(&line, "--lookahead", 1 + lookahead % 20);
    if (min > 0)
        add_pair(&line, "--min", min);
    if (max > 0)
        add_pair(&line, "--max", max);
    if (firsts[first % 8] > 0)
        add_pair(&line, "--first", firsts[first % 8]);
    if (first / 8 > 0 && room_helps("--strips"))
        add_pair(&line, "--strips", first / 8);
    if (mode == 1)
        add_costs(&line, pairs, 1 + max);
    add_switches(&line, switches);
    if (log >= 128)
        add_log(&line, log, pairs);
    room_run_log(&line, "scores.log");
    if (!room_has("film.y4m", input))
        room_found("the film was written to");
}

/* Films and pictures that nothing is wrong with, of any sides and each depth: they are decided on and measured. But Standard mode refuses
   those without a whole block. */
static void fuzz_sides(struct bytes input)
{
    static const char *const colours[][4] = {{"mono", "420jpeg", "422", "444"},
                                             {"mono10", "420p10", "422p10", "444p10"},
                                             {"mono12", "420p12", "422p12", "444p12"}};
    struct line line = {0};
    const unsigned how = draw(&input), low = draw(&input), high = draw(&input), ends = draw(&input);
    const size_t width = 1 + (low + 256 * (ends & 15)) % 500, height = 1 + (high + 256 * (ends >> 4)) % 500;
    const size_t halves[] = {0, (width + 1) / 2 * ((height + 1) / 2), (width + 1) / 2 * height, width * height};
    const unsigned deeper = how / 8 % 3;
    const bool has_block = width >= 8 && height >= 8, standard = how >= 192, fast = how / 4 % 2 == 1;
    struct form form = {.depth = 8 + 2 * deeper};
    char header[64];

    snprintf(header, sizeof header, "YUV4MPEG2 W%zu H%zu C%s\n", width, height, colours[deeper][how % 4]);
    put_drawn("film.y4m", header, "FRAME\n", 3, width * height + 2 * halves[how % 4], form, input);
    line_add(&line, "decide");
    line_add(&line, "film.y4m");
    if (standard) {
        line_add(&line, "--mode");
        line_add(&line, "standard");
        add_costs(&line, 2, 7);
    }
    const int decided = room_run(&line);
    snprintf(header, sizeof header, "P5 %zu %zu %u\n", width, height, (1u << form.depth) - 1);
    form.high_first = true;
    put_drawn("a.pgm", header, "", 1, width * height, form, input);
    draw(&input);
    put_drawn("b.pgm", header, "", 1, width * height, form, input);
    add_measure(&line, fast);
    if (decided != (standard && !has_block) || room_run(&line) != (!fast && !has_block))
        room_found("a film and two pictures of %zu × %zu, %u bits, are not answered as they must be", width, height, form.depth);
}

/* A byte makes the film a frame longer or shorter than the lines behind it ask for: those are a file of inter costs. */
static void fuzz_costs(struct bytes input)
{
    struct line line = {0};
    const unsigned frames = draw(&input) % 4, lookahead = draw(&input);
    size_t lines = 0;
    for (size_t i = 0; i < input.count; i++)
        lines += input.at[i] == '\n';
    const struct bytes film = room_film(8, frames + (lines < 300 ? lines : 300));

    room_put("film.y4m", film);
    room_put("costs.txt", input);
    release(film);
    line_add(&line, "decide");
    add_file(&line, "film.y4m", lookahead >= 128);
    line_add(&line, "--mode");
    line_add(&line, "standard");
    line_add(&line, "--inter");
    line_add(&line, "costs.txt");
    add_pair(&line, "--lookahead", 1 + lookahead % 8);
    room_run(&line);
    if (!room_has("costs.txt", input))
        room_found("the costs were written to");
}

/* Two bytes say how long the first picture is. The second one is the rest. */
static void fuzz_pictures(struct bytes input)
{
    struct line line = {0};
    const unsigned low = draw(&input), high = draw(&input), fast = draw(&input) % 2;

    room_put("a.pgm", part(&input, low + 256 * high));
    room_put("b.pgm", input);
    add_measure(&line, fast == 1);
    room_run(&line);
}

/* A byte draws how a log is read. Behind it stands the log: it is listed, and a film's scores are appended to it. */
static void fuzz_log(struct bytes input)
{
    struct line line = {0};
    uint64_t torn = 0, last = 0;
    const unsigned how = draw(&input);
    const int64_t records = brine_log_scan(input.at, input.count, &torn);
    const struct bytes film = room_film(1, 4 + how % 8);

    room_put("scores.log", input);
    room_put("film.y4m", film);
    release(film);
    line_add(&line, "log");
    add_file(&line, "scores.log", how >= 128);
    add_switches(&line, how / 8 % 2);
    const int status = room_run_log(&line, "scores.log");
    if ((status == 0) != (records >= 0) || !room_has("scores.log", input))
        room_found("a log of %" PRId64 " records is listed with status %d, or changed", records, status);
    for (int k = 3; records > 0 && k >= 0; k--)
        last = 256 * last + input.at[(records - 1) * BRINE_RECORD_BYTES + 2 + k];
    line_add(&line, "decide");
    line_add(&line, "film.y4m");
    line_add(&line, "--log");
    line_add(&line, "scores.log");
    add_pair(&line, "--first", how / 16 % 4 > 0 ? last : how % 8);
    add_pair(&line, "--lookahead", 1 + how % 8);
    room_run_log(&line, "scores.log");
}

/* The words of a command line, each behind the end of a line. Names with a folder are not tried: nothing outside the room is named. */
static void fuzz_words(struct bytes input)
{
    static const char *const names[] = {"film.y4m", "costs.txt", "a.pgm", "b.pgm"};
    static const char costs[] = "1.5\n2.5e0\n3.000000000\n40.00000000\n5.000000000\n6\n7\n8\n9\n10\n11\n";
    static const char picture[] = "P5 8 8 255\n0123456789012345678901234567890123456789012345678901234567890123";
    const struct bytes film = room_film(8, 12), log = room_log(0, 3);
    const struct bytes files[] = {film, {(const uint8_t *)costs, strlen(costs)}, {(const uint8_t *)picture, strlen(picture)},
                                  {(const uint8_t *)picture, strlen(picture)}};
    struct line line = {0};

    room_clear();
    for (size_t i = 0; i < 4; i++)
        room_put(names[i], files[i]);
    room_put("scores.log", log);
    if (freopen("film.y4m", "rb", stdin) == NULL)
        room_found("no standard input");
    while (input.count > 0) {
        const uint8_t *end = memchr(input.at, '\n', input.count);
        const struct bytes word = part(&input, end == NULL ? input.count : (size_t)(end - input.at));
        line_add(&line, "%.*s", (int)word.count, (const char *)word.at);
        draw(&input);
    }
    room_run_log(&line, "scores.log");
    for (size_t i = 0; i < 4; i++)
        if (!room_has(names[i], files[i]))
            room_found("%s was written to", names[i]);
    release(film);
    release(log);
}

static const struct {
    const char *name;
    void (*run)(struct bytes input);
} targets[] = {{"film", fuzz_film},         {"sides", fuzz_sides}, {"costs", fuzz_costs},
             {"pictures", fuzz_pictures}, {"log", fuzz_log},     {"words", fuzz_words}};

static void (*target)(struct bytes input);

int LLVMFuzzerInitialize(int *count, char ***words)
{
    const char *name = getenv("FUZZ_TARGET");
    (void)count;
    (void)words;
    for (size_t i = 0; name != NULL && i < sizeof targets / sizeof targets[0]; i++)
        if (strcmp(name, targets[i].name) == 0)
            target = targets[i].run;
    room_enter();
    if (target == NULL)
        room_found("FUZZ_TARGET names no target");
    return 0;
}

int LLVMFuzzerTestOneInput(const uint8_t *at, size_t count)
{
    /* A name with a folder could be a file of the machine's own. */
    if (target != fuzz_words || memchr(at, '/', count) == NULL)
        target((struct bytes){at, count});
    return 0;
}
