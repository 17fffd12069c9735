/* Writes test films, pictures and logs to the standard output:
     film y4m WIDTH HEIGHT COLOUR LUMA...   a Y4M film, one frame for each LUMA; COLOUR - leaves its word out
     film header WORDS LINE LUMA...         the same with these words behind YUV4MPEG2, which name sides and colour, and this line before
                                            each frame; luma has a grain, and chroma is another in each byte, frame and header
     film swell WIDTH HEIGHT DEPTH FACTOR LUMA...
                                            a Y4M film without chroma whose luma is rough. Its frames are drawn WIDTH × HEIGHT with DEPTH
                                            bits, from a luma of 8 bits, and each square of FACTOR × FACTOR samples becomes its mean,
                                            rounded to the nearest, a half up
     film pgm WIDTH HEIGHT LARGEST LUMA     a binary PGM picture, with two bytes a sample where LARGEST is above 255
     film log NUMBER...                     a log, one record for each NUMBER, with a score of zeros and no cut
   LUMA is a number, or two as 16/17 for columns by turns. A COLOUR with bits, as 420p10 and mono12, has two bytes a sample, in chroma too. */
#include <stdbool.h>
#include <stdint.h>
#include <stdio.h>
#include <stdlib.h>
#include <string.h>

/* How a sample stands in a file. */
enum word { ONE_BYTE, LOW_FIRST, HIGH_FIRST };

static void put_sample(int value, enum word word)
{
    if (word == HIGH_FIRST)
        putchar(value >> 8);
    putchar(value & 255);
    if (word == LOW_FIRST)
        putchar(value >> 8);
}

/* With a grain a reader that takes another sample for the right one is found out: neighbours differ, by 7 at most. */
static void put_luma(const char *luma, size_t width, size_t height, enum word word, size_t grain)
{
    const char *slash = strchr(luma, '/');
    const int even = atoi(luma), odd = slash == NULL ? even : atoi(slash + 1);
    for (size_t y = 0; y < height; y++)
        for (size_t x = 0; x < width; x++)
            put_sample((x % 2 == 0 ? even : odd) + (grain == 0 ? 0 : (int)((5 * x + 3 * y + grain) % 8)), word);
}

/* Rings about the corner, closer and closer, and fine grain: the means of squares of every size differ from each other. */
static size_t rough(size_t luma, size_t depth, size_t x, size_t y, size_t frame)
{
    const size_t rings = (x * x + 3 * y * y + 40 * frame * x) >> 9, grain = (7 * x + 11 * y * y + 5 * frame) % 13;
    const size_t steps = (size_t)1 << (depth - 8); /* what a step of 8 bits is cut into */
    return (luma + rings % 90 + grain) * steps + (3 * x + y * y + frame) % steps;
}

/* The library has no part in this reduction. */
static void put_swell(size_t width, size_t height, size_t depth, size_t factor, int frames, char **luma)
{
    const size_t number = factor * factor;
    printf("YUV4MPEG2 W%zu H%zu F1:600 Cmono%s\n", width / factor, height / factor, depth == 8 ? "" : depth == 10 ? "10" : "12");
    for (int i = 0; i < frames; i++) {
        const size_t base = strtoul(luma[i], NULL, 10);
        printf("FRAME\n");
        for (size_t y = 0; y + factor <= height; y += factor)
            for (size_t x = 0; x + factor <= width; x += factor) {
                size_t sum = 0;
                for (size_t k = 0; k < number; k++)
                    sum += rough(base, depth, x + k % factor, y + k / factor, (size_t)i);
                put_sample((int)((2 * sum + number) / (2 * number)), depth == 8 ? ONE_BYTE : LOW_FIRST);
            }
    }
}

/* Bits stand behind mono, and behind a p elsewhere. */
static bool is_deep(const char *colour)
{
    const bool named = strncmp(colour, "mono", 4) == 0 || (strncmp(colour, "4", 1) == 0 && strchr(colour, 'p') == colour + 3);
    return named && colour[4] >= '0' && colour[4] <= '9';
}

static size_t chroma_bytes(const char *colour, size_t width, size_t height)
{
    const size_t each = is_deep(colour) ? 2 : 1;
    if (strncmp(colour, "444", 3) == 0)
        return 2 * width * height * each;
    if (strncmp(colour, "422", 3) == 0)
        return 2 * ((width + 1) / 2) * height * each;
    if (strncmp(colour, "mono", 4) == 0)
        return 0;
    return 2 * ((width + 1) / 2) * ((height + 1) / 2) * each;
}

static void put_film(size_t width, size_t height, const char *colour, int frames, char **luma)
{
    printf("YUV4MPEG2 W%zu H%zu F1:600 Ip A1:1", width, height);
    if (strcmp(colour, "-") != 0)
        printf(" C%s", colour);
    printf(" XNOTE=test\n");
    for (int i = 0; i < frames; i++) {
        printf(i % 3 == 2 ? "FRAME Ip\n" : "FRAME\n");
        put_luma(luma[i], width, height, is_deep(colour) ? LOW_FIRST : ONE_BYTE, 0);
        for (size_t k = 0; k < chroma_bytes(colour, width, height); k++)
            putchar((int)(i * 7 + 77) & 255);
    }
}

/* What stands behind the letter in the word that begins with it; nothing where there is no such word. */
static const char *behind(const char *words, char letter)
{
    for (const char *at = words; *at != '\0'; at++)
        if (*at == letter && (at == words || at[-1] == ' '))
            return at + 1;
    return "";
}

static void put_encoded(const char *words, const char *line, int frames, char **luma)
{
    const size_t width = strtoul(behind(words, 'W'), NULL, 10), height = strtoul(behind(words, 'H'), NULL, 10);
    const char *colour = behind(words, 'C');
    const size_t chroma = chroma_bytes(colour, width, height);
    uint32_t drawn = 1;

    for (const char *at = words; *at != '\0'; at++)
        drawn = 31 * drawn + (unsigned char)*at;
    printf("YUV4MPEG2 %s\n", words);
    for (int i = 0; i < frames; i++) {
        printf("%s\n", line);
        put_luma(luma[i], width, height, is_deep(colour) ? LOW_FIRST : ONE_BYTE, 1 + 3 * (size_t)i);
        for (size_t k = 0; k < chroma; k++) {
            drawn = 1664525 * drawn + 1013904223;
            putchar((int)(drawn >> 24));
        }
    }
}

static void put_log(int records, char **numbers)
{
    for (int i = 0; i < records; i++) {
        const unsigned long number = strtoul(numbers[i], NULL, 10);
        printf("SC");
        for (int k = 0; k < 4; k++)
            putchar((int)(number >> 8 * k & 255));
        for (int k = 0; k < 5 * 8 + 1; k++)
            putchar(0);
    }
}

int main(int count, char **words)
{
    if (count >= 2 && strcmp(words[1], "log") == 0) {
        put_log(count - 2, words + 2);
        return ferror(stdout) ? 2 : 0;
    }
    if (count >= 4 && strcmp(words[1], "header") == 0) {
        put_encoded(words[2], words[3], count - 4, words + 4);
        return ferror(stdout) ? 2 : 0;
    }
    if (count < 5)
        return 2;
    const size_t width = strtoul(words[2], NULL, 10), height = strtoul(words[3], NULL, 10);
    if (strcmp(words[1], "y4m") == 0) {
        put_film(width, height, words[4], count - 5, words + 5);
    } else if (count >= 6 && strcmp(words[1], "swell") == 0) {
        put_swell(width, height, strtoul(words[4], NULL, 10), strtoul(words[5], NULL, 10), count - 6, words + 6);
    } else if (count == 6) {
        printf("P5\n# a test picture\n%zu %zu\n%s\n", width, height, words[4]);
        put_luma(words[5], width, height, strtoul(words[4], NULL, 10) > 255 ? HIGH_FIRST : ONE_BYTE, 0);
    }
    return ferror(stdout) ? 2 : 0;
}
