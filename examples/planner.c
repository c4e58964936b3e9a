/*
 * planner FILE: draws the solids of a fixture file and prints how many vertices and triangles they have.
 * A refusal is told in words. The exit status is 0, or 1 where nothing was drawn.
 */
#include "sizturga.h"

#include <stdio.h>
#include <stdlib.h>

/* A byte more than a file may have, so that the call can tell of a longer file that it is too long. */
#define MOST_READ (SIZTURGA_FIXTURE_MOST_BYTES + 1)

static const char *in_words(uint32_t refusal)
{
    switch (refusal) {
    case SIZTURGA_NOT_FINITE:
        return "a number is an infinity or a NaN";
    case SIZTURGA_ANGLE_TOO_LARGE:
        return "an angle is above 1,000 radians";
    case SIZTURGA_TOO_MANY_SEGMENTS:
        return "more than 1,024 segments or rings";
    case SIZTURGA_BAD_LIST:
        return "more than 512 corners, 256 points of a wire, 256 boxes or 16 operations";
    case SIZTURGA_POINT_NOT_FINITE:
        return "a point of a solid is too far away for a float";
    case SIZTURGA_NO_ROOM:
        return "a solid has more than 1,024 vertices or 2,048 triangles";
    case SIZTURGA_BROKEN_FIELD:
        return "the file is too long, or a field has a wrong length";
    case SIZTURGA_UNKNOWN_FIELD:
        return "a tag, a kind of operation, a system or a degrees mark is unknown";
    case SIZTURGA_NO_SOLID:
        return "the file has no solid";
    default:
        return "a refusal that this program does not know";
    }
}

/* Reads a file, at most MOST_READ bytes of it. Returns 0, or -1 where it cannot be read. */
static int read_file(const char *name, uint8_t *bytes, size_t *length)
{
    FILE *from = fopen(name, "rb");
    int failed;

    if (from == NULL)
        return -1;
    *length = fread(bytes, 1, MOST_READ, from);
    failed = ferror(from);
    return fclose(from) != 0 || failed ? -1 : 0;
}

/* The number of four bytes, low byte first. */
static unsigned long count_at(const uint8_t *bytes)
{
    return bytes[0] | (unsigned long)bytes[1] << 8 | (unsigned long)bytes[2] << 16 | (unsigned long)bytes[3] << 24;
}

/* Draws a file and prints the counts, or the refusal. Returns the exit status. */
static int draw(const char *name, const uint8_t *file, size_t length)
{
    size_t room = SIZTURGA_OUTPUT_MOST(length);
    uint8_t *output = (uint8_t *)malloc(room);
    uint32_t refusal;

    if (output == NULL) {
        fprintf(stderr, "%s: no memory for %lu bytes of output\n", name, (unsigned long)room);
        return EXIT_FAILURE;
    }
    refusal = sizturga_fixture(file, length, output, room);
    if (refusal != SIZTURGA_ACCEPTED)
        fprintf(stderr, "%s: refused, %u: %s\n", name, (unsigned)refusal, in_words(refusal));
    else
        printf("%s: %lu vertices, %lu triangles\n", name, count_at(output), count_at(output + 4));
    free(output);
    return refusal == SIZTURGA_ACCEPTED ? EXIT_SUCCESS : EXIT_FAILURE;
}

int main(int argc, char **argv)
{
    static uint8_t file[MOST_READ];
    size_t length;
    int status;

    if (argc != 2) {
        fprintf(stderr, "usage: planner FILE\n");
        return EXIT_FAILURE;
    }
    if (read_file(argv[1], file, &length) != 0) {
        fprintf(stderr, "%s: cannot be read\n", argv[1]);
        return EXIT_FAILURE;
    }
    status = draw(argv[1], file, length);
    if (fflush(stdout) != 0) {
        fprintf(stderr, "%s: the counts cannot be written\n", argv[1]);
        return EXIT_FAILURE;
    }
    return status;
}
