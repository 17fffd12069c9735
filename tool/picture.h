/* The reader of binary PGM files, and what pictures and films are refused for. */
#ifndef PICTURE_H
#define PICTURE_H

#include "plane.h"
#include "say.h"

/* The largest side that the library takes. */
enum { LARGEST_SIDE = 8192 };

/* Reads a binary PGM of 8, 10 or 12 bits. Where the library will refuse a side no sample is read, and the count is 0. On a fault it
   has said why, and the picture needs no plane_free. */
enum status picture_read_pgm(struct plane *picture, const char *path);

/* Whether the library will refuse a side of it. */
bool picture_has_bad_side(const struct plane *picture);

/* Reduces the picture by the factor; `name` is for what is said on a fault, and then the picture is as it was. */
enum status picture_shrink(struct plane *picture, const char *name, size_t factor);

/* Says which side or depth the library refused, of a picture or of a film's frames. */
enum status picture_refused(const char *name, size_t width, size_t height, uint32_t depth, int64_t answer);

#endif
