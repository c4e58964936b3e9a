/*
 * Sizturga: the planner's call. A file of solids (clamps, stock, tool holders) becomes one triangle mesh.
 *
 * C99 and C++17. Link target/staticlib/libsizturga.a, which `tests/staticlib sizturga` writes for x86-64.
 */
#ifndef SIZTURGA_H
#define SIZTURGA_H

#include <stddef.h>
#include <stdint.h>

#ifdef __cplusplus
extern "C" {
#endif

/*
 * What the call answers. The numbers are those of the whole library; this call never answers 6 or 8. Where several are due, the file's length is
 * judged first (9), then its fields in order, in each 10 before 9; then 11; then the solids in order, each by 3, 4, 1, 2, 5, 7, 5; last 7 for the output.
 */
enum sizturga_refusal {
    /* The output has the mesh. */
    SIZTURGA_ACCEPTED = 0,
    /* A number of a solid or of one of its operations is an infinity or a NaN. */
    SIZTURGA_NOT_FINITE = 1,
    /* The absolute value of an angle is above 1,000 radians. */
    SIZTURGA_ANGLE_TOO_LARGE = 2,
    /* A solid is to be drawn with more than 1,024 segments or rings. */
    SIZTURGA_TOO_MANY_SEGMENTS = 3,
    /* A solid has more than 512 corners, 256 points of a wire, 256 boxes or 16 operations. */
    SIZTURGA_BAD_LIST = 4,
    /* A coordinate of a point of a solid, before or after its operations, is not finite. */
    SIZTURGA_POINT_NOT_FINITE = 5,
    /* Never answered by this call: a work area is too short. */
    SIZTURGA_SHORT_WORK = 6,
    /* A solid has more than 1,024 vertices or 2,048 triangles; or the mesh does not fit into the output. */
    SIZTURGA_NO_ROOM = 7,
    /* Never answered by this call: a mesh handed in is broken. */
    SIZTURGA_BAD_MESH = 8,
    /* The file is too long, a field runs past its end, or the length of a field is wrong for its tag. */
    SIZTURGA_BROKEN_FIELD = 9,
    /* A tag, a kind of operation, a system or a degrees mark is unknown. */
    SIZTURGA_UNKNOWN_FIELD = 10,
    /* The file has no solid. */
    SIZTURGA_NO_SOLID = 11
};

/* The most bytes of a file; a longer one gives SIZTURGA_BROKEN_FIELD. */
#define SIZTURGA_FIXTURE_MOST_BYTES 65535

/* The most vertices and triangles of one solid; more give SIZTURGA_NO_ROOM. */
#define SIZTURGA_SOLID_MOST_VERTICES 1024
#define SIZTURGA_SOLID_MOST_TRIANGLES 2048

/* The bytes of the output that a mesh of so many vertices and triangles takes. */
#define SIZTURGA_OUTPUT_BYTES(vertices, triangles) ((size_t)8 + (size_t)24 * (size_t)(vertices) + (size_t)12 * (size_t)(triangles))

/*
 * An output of so many bytes has room for the mesh of every file of at most file_length bytes: with it SIZTURGA_NO_ROOM is due to a solid alone.
 *
 * Why: only solids have vertices, and the shortest field of a solid that can have one is a sphere's, of 35 bytes (tag 1, length 2, centre 24, radius 8).
 * Those of the others have at least: spherical shell 43; box, and multi-box of one box, 51; cylinder, and wire of two points, 59; polygon of three
 * corners 60; cylindrical shell 67; extruded outline of three corners 68; rotated one 77. Shorter fields of solids have a list without a box,
 * with one point or with fewer than three corners, and draw nothing. So at most file_length / 35 solids draw, each within the two limits above.
 * The longest file needs 92 MB by this; 1,872 spheres of 73 segments and 15 rings come within a thousandth of that.
 */
#define SIZTURGA_OUTPUT_MOST(file_length) \
    ((size_t)8 + (size_t)(file_length) / 35 * (SIZTURGA_OUTPUT_BYTES(SIZTURGA_SOLID_MOST_VERTICES, SIZTURGA_SOLID_MOST_TRIANGLES) - 8))

/* The call takes no more bytes of stack than these: measured by tests/stack/run, and not proved. */
#define SIZTURGA_STACK_BYTES 262144

/*
 * What: draws the solids of a file and appends their meshes in order. Returns 0 or the number of the refusal.
 * Lent: the two areas, for the time of the call. The file is read only. They must not overlap. Each pointer must be valid for its length and not
 *   null; with a length of 0 it may be any pointer that is not null, as that of an object of one byte.
 * Refused: the whole output is zero.
 * Left: two counts of 4 bytes, vertices and triangles; the vertices, three floats of 8 bytes (IEEE 754 binary64) each; the triangles, three vertex
 *   numbers from 0 of 4 bytes each; zeros to the end of the output. Low bytes come first.
 *
 * The call allocates nothing and has no global state, so that threads can make it at once, each with an output of its own. Its time grows with the
 * resolution that the file asks for, and not with its length alone.
 */
uint32_t sizturga_fixture(const uint8_t *file, size_t file_length, uint8_t *output, size_t output_length);

#ifdef __cplusplus
}
#endif

#endif
