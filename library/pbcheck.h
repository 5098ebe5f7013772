/* pbcheck.h: the proof checker of Fernbirdbunk as a library, libpbcheck.a or libpbcheck.so.
 *
 * What a call says is proved (in the repository: crates/c_library, docs/theorem.md), for all bytes that are handed in. What is not, since
 * no proof reaches what a C program does, is what the caller owes:
 *  - each pointer leads to as many bytes as the length behind it says, and is not null, not even where the length is 0;
 *  - as long as a call runs nobody writes where it reads, and nobody reads or writes where it writes (report, values, text);
 *  - malloc, realloc and free are those of one allocator, and no call comes from a signal handler.
 * A call keeps nothing when it returns, so calls may run side by side, each over a report and buffers of its own.
 */
#ifndef PBCHECK_H
#define PBCHECK_H

#include <stdbool.h>
#include <stddef.h>
#include <stdint.h>

#ifdef __cplusplus
extern "C" {
#endif

/* The status of a verdict; the command pbcheck ends with the same numbers. */
enum pbcheck_status {
    PBCHECK_ACCEPTED = 0,    /* the conclusion is true of the problem */
    PBCHECK_REFUSED = 1,     /* line, code and name say why */
    PBCHECK_BAD_PROBLEM = 2, /* the problem cannot be read; line, code and name say why */
    PBCHECK_NO_MEMORY = 4    /* nothing is said */
};

enum pbcheck_conclusion { PBCHECK_NONE = 1, PBCHECK_SAT = 2, PBCHECK_UNSAT = 3, PBCHECK_BOUNDS = 4 };

enum pbcheck_bound_kind { PBCHECK_NUMBER = 1, PBCHECK_MINUS_INFINITY = 2, PBCHECK_INFINITY = 3 };

/* A bound of PBCHECK_BOUNDS. A number has the size high * 2^64 + low, and is below 0 where it is negative. */
struct pbcheck_bound {
    uint8_t kind; /* 0 where the conclusion has no bounds */
    bool negative;
    uint64_t high;
    uint64_t low;
};

struct pbcheck_report {
    uint8_t status;
    uint8_t conclusion; /* of what is accepted, else 0 */
    uint8_t code;       /* of what is refused, or of a bad problem, else 0 */
    bool has_best;      /* whether a solution was logged */
    uint64_t line;      /* of what is refused, or of a bad problem, else 0 */
    struct pbcheck_bound lower, upper;
    uint64_t variables; /* how many values the best solution has, else 0 */
    char name[32];      /* the name of the fault, with zeros behind it */
};

/* Judges a proof (VeriPB 2.0) of a problem (OPB), and puts the verdict into the report. Into values goes the best solution, a byte for each
 * variable of the problem in the order in which they stand there first, 1 where it is true and 0 where it is false; into text goes what the
 * command prints, with LF behind each line and no zero behind the last. Each goes there as far as there is room. The answer is the whole
 * length of that text; 0 where there was no memory for it. */
size_t pbcheck_check(const uint8_t *problem, size_t problem_length, const uint8_t *proof, size_t proof_length,
                     struct pbcheck_report *report, uint8_t *values, size_t values_room, uint8_t *text, size_t text_room);

/* The same for a proof that comes in pieces. They are kept until the end, and are judged there. These four are written in C, and are not
 * proved: they put the pieces behind one another, and call pbcheck_check. */
struct pbcheck_pieces;

/* Begins a proof; null where there is no memory. */
struct pbcheck_pieces *pbcheck_begin(void);

/* Takes the next piece, and answers whether there was memory for it. Where there was none, the status will be PBCHECK_NO_MEMORY. */
bool pbcheck_piece(struct pbcheck_pieces *pieces, const uint8_t *piece, size_t length);

/* Judges all pieces together, as pbcheck_check does, and gives back their memory. */
size_t pbcheck_end(struct pbcheck_pieces *pieces, const uint8_t *problem, size_t problem_length, struct pbcheck_report *report,
                   uint8_t *values, size_t values_room, uint8_t *text, size_t text_room);

/* Gives back the memory of a proof that is not to be judged. */
void pbcheck_forget(struct pbcheck_pieces *pieces);

#ifdef __cplusplus
}
#endif

#endif
