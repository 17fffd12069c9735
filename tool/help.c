/* What --help writes. */
#include "commands.h"
#include "page.h"

static const char decide[] =
    "brinepulley: where a scene of a film begins\n"
    "\n"
    "  brinepulley decide FILM.y4m [--mode fast|standard|none] [--lookahead N]\n"
    "                     [--min N] [--max N] [--inter FILE] [--log FILE]\n"
    "                     [--first N] [--strips ROWS] [--cuts | --bars | --dump]\n"
    "                     [--times] [--purge] [--csv]\n"
    "      Decides on each frame of a Y4M film of 8, 10 or 12 bits; '-' reads the\n"
    "      standard input. A line per frame, as soon as it is decided: number, cut\n"
    "      or not, the score's five numbers, the pair that the score is of, and the\n"
    "      release number: frames numbered below it may be purged. Pair N is the\n"
    "      frames N - 1 and N. 'large' is a change that reaches the threshold and is\n"
    "      no cut by the rules: look for yourself.\n"
    "        --mode       fast (the default): differences of reduced frames;\n"
    "                     standard: inter costs from FILE, importance, intra costs,\n"
    "                     of frames of 8 x 8 samples or more;\n"
    "                     none: a cut every --max frames\n"
    "        --lookahead  frames to look ahead, at least 1 (default 5); below 5\n"
    "                     the answers are worse\n"
    "        --min        no cut at a distance below N (default 0)\n"
    "        --max        a cut at the latest N frames after the last one, or --min\n"
    "                     where that is more; with a lookahead of 5 or more none\n"
    "                     in a film's last four frames (default 4294967295)\n"
    "        --inter      the inter costs of standard mode, one number per line,\n"
    "                     that of the film's first two frames first\n"
    "        --log        appends each score to a log, on the card before the next\n"
    "                     frame is decided on; the file is made if it is missing\n"
    "        --first      the number of the film's first frame (default 0)\n"
    "        --strips     reads and measures frames in strips of ROWS rows, 1 to 64,\n"
    "                     and keeps one frame alone: the same answer in less memory\n"
    "        --cuts       the scenes alone: first and last frame, how many, and when\n"
    "        --bars       each frame's inter cost as a bar beside its threshold\n"
    "        --dump       below each line the scores that are kept, the newest first,\n"
    "                     with their pairs; '>' marks the one that was decided on\n"
    "        --times      one more column: when the frame is shown\n"
    "        --purge      one more column: the film's frame that may go after this\n"
    "                     call and could not before\n"
    "        --csv        for machines: commas, numbers that read back the same\n"
    "\n";

static const char others[] =
    "  brinepulley log FILE [--csv]\n"
    "      The records of a log; '-' reads the standard input. The length of a torn\n"
    "      rest, which a power cut leaves, goes to the standard error.\n"
    "\n"
    "  brinepulley measure A.pgm B.pgm [--mode fast]\n"
    "      Difference, delta and importance of two whole binary PGM pictures of 8,\n"
    "      10 or 12 bits, and the threshold of the second. With --mode fast\n"
    "      difference and delta of the pictures reduced, as decide has them.\n"
    "\n"
    "  brinepulley demo\n"
    "      Draws a small film of the sea and says what it shows and what was decided.\n"
    "\n"
    "  brinepulley --help, --version\n"
    "\n"
    "A film that breaks off keeps the lines that were decided before. Exit status: 0\n"
    "done; 1 refused, with the refusal's number (docs/RULES.md says more); 2 a wrong\n"
    "command line, or a file that cannot be read or written.\n";

enum status command_help(void)
{
    struct page page = {0};
    page_add(&page, "%s%s", decide, others);
    const enum status status = page_write(&page);
    page_free(&page);
    return status;
}
