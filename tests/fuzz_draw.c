#include "fuzz_draw.h"

#include "brinepulley.h"

#include <inttypes.h>
#include <stdio.h>
#include <stdlib.h>
#include <string.h>

void release(struct bytes bytes)
{
    free((void *)bytes.at);
}

unsigned draw(struct bytes *input)
{
    if (input->count == 0)
        return 0;
    input->count--;
    return *input->at++;
}

struct bytes part(struct bytes *input, size_t count)
{
    const struct bytes first = {input->at, count < input->count ? count : input->count};
    input->at += first.count;
    input->count -= first.count;
    return first;
}

void add_pair(struct line *line, const char *name, uint64_t value)
{
    line_add(line, "%s", name);
    line_add(line, "%" PRIu64, value);
}

void add_switches(struct line *line, unsigned bits)
{
    static const char *const names[] = {"--csv", "--purge", "--times", "--cuts", "--bars", "--dump"};
    for (size_t i = 0; i < sizeof names / sizeof names[0]; i++)
        if ((bits >> i & 1) != 0 && room_helps(names[i]))
            line_add(line, "%s", names[i]);
}

void add_file(struct line *line, const char *name, bool standard_input)
{
    line_add(line, "%s", standard_input ? "-" : name);
    if (standard_input && freopen(name, "rb", stdin) == NULL)
        room_found("no standard input");
}

void add_measure(struct line *line, bool fast)
{
    line_add(line, "measure");
    line_add(line, "a.pgm");
    line_add(line, "b.pgm");
    if (fast && room_helps("B.pgm [--mode")) {
        line_add(line, "--mode");
        line_add(line, "fast");
    }
}

void add_costs(struct line *line, unsigned pairs, unsigned step)
{
    char text[256 * 8] = "";
    size_t used = 0;
    for (unsigned i = 0; i < pairs; i++)
        used += (size_t)snprintf(text + used, sizeof text - used, "%u.5\n", i * step % 997);
    room_put("costs.txt", (struct bytes){(const uint8_t *)text, used});
    line_add(line, "--inter");
    line_add(line, "costs.txt");
}

void add_log(struct line *line, unsigned bits, unsigned torn)
{
    struct bytes log = room_log(0, bits % 4);
    if (log.count > 0)
        log.count -= torn % BRINE_RECORD_BYTES;
    if (bits % 8 >= 4)
        room_put("scores.log", log);
    release(log);
    line_add(line, "--log");
    line_add(line, "scores.log");
}

/* Takes from each sample of two bytes the bits that it may not have. */
static void bound(uint8_t *at, size_t count, struct form form)
{
    for (size_t i = form.high_first ? 0 : 1; form.depth > 8 && i < count; i += 2)
        at[i] &= (uint8_t)((1u << (form.depth - 8)) - 1);
}

void put_drawn(const char *name, const char *header, const char *line, size_t frames, size_t samples, struct form form,
               struct bytes input)
{
    const size_t count = samples * (form.depth > 8 ? 2 : 1);
    const size_t head = strlen(header), between = strlen(line), frame = between + count;
    uint8_t *const at = calloc(head + frames * frame, 1);
    memcpy(at, header, head);
    for (size_t i = 0; i < frames; i++) {
        uint8_t *to = at + head + i * frame;
        memcpy(to, line, between);
        to += between;
        draw(&input);
        size_t done = input.count < count ? input.count : count;
        memcpy(to, input.at, done);
        for (size_t more = 0; done > 0 && done < count; done += more) {
            more = done < count - done ? done : count - done;
            memcpy(to + done, to, more);
        }
        bound(to, count, form);
    }
    room_put(name, (struct bytes){at, head + frames * frame});
    free(at);
}
