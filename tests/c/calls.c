/* Checks of the planner's call from C: the bytes of a mesh, an output of any length, areas of no bytes, the bounds of the header. */
#include "sizturga.h"

#include <stdio.h>
#include <stdlib.h>
#include <string.h>

/* Bytes beyond the output that is lent; they must stay as they are. */
#define BEYOND 16

/* The box (0,0,0) to (1,2,3) as a file. */
static const uint8_t box_file[51] = {
    0x10, 48, 0,
    0, 0, 0, 0, 0, 0, 0, 0, 0, 0, 0, 0, 0, 0, 0, 0, 0, 0, 0, 0, 0, 0, 0, 0,
    0, 0, 0, 0, 0, 0, 0xF0, 0x3F, 0, 0, 0, 0, 0, 0, 0, 0x40, 0, 0, 0, 0, 0, 0, 8, 0x40
};

static const double box_vertices[8][3] = {
    {0, 0, 0}, {0, 0, 3}, {0, 2, 3}, {0, 2, 0}, {1, 0, 0}, {1, 2, 0}, {1, 2, 3}, {1, 0, 3}
};

static int failures = 0;

static void check(int holds, const char *what)
{
    if (!holds) {
        fprintf(stderr, "calls: %s\n", what);
        failures++;
    }
}

static uint32_t number_at(const uint8_t *bytes)
{
    return bytes[0] | (uint32_t)bytes[1] << 8 | (uint32_t)bytes[2] << 16 | (uint32_t)bytes[3] << 24;
}

static double float_at(const uint8_t *bytes)
{
    uint64_t bits = number_at(bytes) | (uint64_t)number_at(bytes + 4) << 32;
    double number;

    memcpy(&number, &bits, sizeof number);
    return number;
}

static int all_are(const uint8_t *bytes, size_t length, uint8_t value)
{
    size_t i;

    for (i = 0; i < length; i++)
        if (bytes[i] != value)
            return 0;
    return 1;
}

/* The call with an output of a length, in an area that has BEYOND more bytes, all filled before. Stays within the output. */
static uint32_t call(const uint8_t *file, size_t length, uint8_t *output, size_t output_length)
{
    uint32_t refusal;

    memset(output, 0xA5, output_length + BEYOND);
    refusal = sizturga_fixture(file, length, output, output_length);
    check(all_are(output + output_length, BEYOND, 0xA5), "a byte beyond the output was written");
    return refusal;
}

static void check_box(const uint8_t *output, size_t length)
{
    static const uint32_t first[6] = {0, 1, 2, 0, 2, 3};
    size_t needed = SIZTURGA_OUTPUT_BYTES(8, 12);
    size_t i;

    check(number_at(output) == 8 && number_at(output + 4) == 12, "the box has other counts than 8 and 12");
    for (i = 0; i < 24; i++)
        check(float_at(output + 8 + 8 * i) == box_vertices[i / 3][i % 3], "a vertex of the box is another");
    for (i = 0; i < 6; i++)
        check(number_at(output + 200 + 4 * i) == first[i], "the first triangles of the box are others");
    for (i = 0; i < 36; i++)
        check(number_at(output + 200 + 4 * i) < 8, "a triangle of the box names a vertex that is not there");
    check(all_are(output + needed, length - needed, 0), "behind the box the output is not zero");
}

/* Every length of the output up to some beyond the mesh. */
static void check_lengths(uint8_t *output)
{
    size_t needed = SIZTURGA_OUTPUT_BYTES(8, 12);
    size_t length;

    for (length = 0; length <= needed + 200; length++) {
        uint32_t refusal = call(box_file, sizeof box_file, output, length);

        if (length < needed) {
            check(refusal == SIZTURGA_NO_ROOM, "a short output is not refused by 7");
            check(all_are(output, length, 0), "a refused output is not zero");
        } else {
            check(refusal == SIZTURGA_ACCEPTED, "an output with room is refused");
            check_box(output, length);
        }
    }
}

/* Every beginning of the file: none has a whole field. */
static void check_cuts(uint8_t *output)
{
    size_t length;

    for (length = 0; length < sizeof box_file; length++) {
        uint32_t refusal = call(box_file, length, output, 100);

        check(refusal == (length == 0 ? SIZTURGA_NO_SOLID : SIZTURGA_BROKEN_FIELD), "a cut file has another refusal");
        check(all_are(output, 100, 0), "a refused output is not zero");
    }
}

/* A file of 65,535 unknown bytes is refused by 10, and by 9 where it has a byte more. */
static void check_longest(uint8_t *output)
{
    uint8_t *file = (uint8_t *)calloc(1, SIZTURGA_FIXTURE_MOST_BYTES + 1);

    if (file == NULL) {
        check(0, "no memory");
        return;
    }
    check(call(file, SIZTURGA_FIXTURE_MOST_BYTES, output, 0) == SIZTURGA_UNKNOWN_FIELD, "the longest file is not read");
    check(call(file, SIZTURGA_FIXTURE_MOST_BYTES + 1, output, 0) == SIZTURGA_BROKEN_FIELD, "a file that is too long is not refused by 9");
    free(file);
}

int main(void)
{
    static uint8_t output[1000];

    check(SIZTURGA_OUTPUT_BYTES(8, 12) == 344, "SIZTURGA_OUTPUT_BYTES of the box");
    check(SIZTURGA_OUTPUT_MOST(0) == 8 && SIZTURGA_OUTPUT_MOST(34) == 8, "SIZTURGA_OUTPUT_MOST where nothing is drawn");
    check(SIZTURGA_OUTPUT_MOST(35) == 49160 && SIZTURGA_OUTPUT_MOST(69) == 49160, "SIZTURGA_OUTPUT_MOST of one solid");
    check(SIZTURGA_OUTPUT_MOST(SIZTURGA_FIXTURE_MOST_BYTES) == 92012552, "SIZTURGA_OUTPUT_MOST of the longest file");
    check_lengths(output);
    check_cuts(output);
    check_longest(output);
    return failures == 0 ? EXIT_SUCCESS : EXIT_FAILURE;
}
