/* What the fuzz run's targets draw from their input: words of a command line, and the files that they name. */
#ifndef FUZZ_DRAW_H
#define FUZZ_DRAW_H

#include "fuzz_room.h"

void release(struct bytes bytes);

/* The first byte of the input, which is then shorter; 0 where there is none. */
unsigned draw(struct bytes *input);

/* The input's first `count` bytes, as many as there are. */
struct bytes part(struct bytes *input, size_t count);

/* How samples stand in a file: their bits, where these are more than 8 two bytes each, and whether the high one is the first. */
struct form {
    unsigned depth;
    bool high_first;
};

/* A film or a picture: its header, and frames that are the input's bytes over and over, each a byte further on. Samples that have two
   bytes are below 2 to the depth. */
void put_drawn(const char *name, const char *header, const char *line, size_t frames, size_t samples, struct form form,
               struct bytes input);

/* An option and its value. */
void add_pair(struct line *line, const char *name, uint64_t value);

/* Options without a value that --help has, one for each bit. */
void add_switches(struct line *line, unsigned bits);

/* A file by its name or, where that is drawn, as the standard input. */
void add_file(struct line *line, const char *name, bool standard_input);

/* The subcommand for the two pictures. */
void add_measure(struct line *line, bool fast);

/* Inter costs of so many pairs. */
void add_costs(struct line *line, unsigned pairs, unsigned step);

/* A log to append to: a few records, perhaps torn, or no file yet. */
void add_log(struct line *line, unsigned bits, unsigned torn);

#endif
