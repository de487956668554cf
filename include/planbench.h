/* PlanBench for programs in C.
 *
 * Build the library with `tools/build_c_library`, then link your program with target/staticlib/liblistings.a:
 *
 *     gcc -Iinclude examples/print_job.c target/staticlib/liblistings.a -o print_job
 *
 * The library allocates nothing, keeps nothing between calls and reads and writes only the two buffers that it is handed.
 */
#ifndef PLANBENCH_H
#define PLANBENCH_H

#include <stddef.h>
#include <stdint.h>

#ifdef __cplusplus
extern "C" {
#endif

/* The least length of the output buffer. No text is longer. */
#define PLANBENCH_OUTPUT 1536

/* The most units and bays of a job that is listed. An input of any length may be handed over; what is no job is told in the text. */
#define PLANBENCH_UNITS 24
#define PLANBENCH_BAYS 64

/* The numbers of the refusals that the text of a job can name, as `refused NUMBER LAYER PLACE`. */
enum planbench_refusal {
    PLANBENCH_SIZES = 1,      /* a plan of units outside 1 to 24 or bays outside 1 to 64 */
    PLANBENCH_UNEQUAL = 6,    /* a plan of other sizes than the joint tables */
    PLANBENCH_JOINTS = 10,    /* a joint table that breaks a rule of joints */
    PLANBENCH_ENDED = 11,     /* the bytes end before the part being read does */
    PLANBENCH_UNKNOWN = 12,   /* an unknown strictness byte, edition or form byte */
    PLANBENCH_TOO_MANY = 13,  /* a table of more than 64 rows or columns */
    PLANBENCH_MAP_BIT = 14,   /* a map bit at or past the row count */
    PLANBENCH_ZERO_ROW = 15,  /* a stored row that is zero */
    PLANBENCH_ROW_BIT = 16,   /* a stored row with a bit at or past the column count */
    PLANBENCH_LEFT = 17,      /* bytes are left after the plan */
    PLANBENCH_NO_ROOM = 18    /* the output buffer is under PLANBENCH_OUTPUT bytes: the call declines */
};

/* What the call answers: declined is 0 and written the length of the text; or declined is PLANBENCH_NO_ROOM, written is 0 and the
 * output is as it was. */
struct planbench_answer {
    uint32_t declined;
    size_t written;
};

/* Reads the job in input[0 .. input_len) and writes its text to the front of output; bytes of output beyond the text stay as they
 * were. A job that cannot be read is not declined: its text is the one line `refused NUMBER LAYER PLACE`.
 *
 * A slice of bytes passes as a pointer and a length. The pointer must be valid for that many bytes and must not be null, even for
 * a length of 0; input and output must not overlap. */
struct planbench_answer planbench_job(const uint8_t *input, size_t input_len, uint8_t *output, size_t output_len);

#ifdef __cplusplus
}
#endif

#endif
