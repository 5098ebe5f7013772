/* A proof that comes in pieces, for callers of libpbcheck: the pieces are put behind one another, and judged at the end. */
#include "pbcheck.h"

#include <stdlib.h>
#include <string.h>

struct pbcheck_pieces {
    uint8_t *bytes; /* never null, since no pointer that is handed to the checker may be */
    size_t length, room;
    bool refused; /* whether there was no memory for a piece */
};

struct pbcheck_pieces *pbcheck_begin(void) {
    struct pbcheck_pieces *pieces = malloc(sizeof *pieces);
    if (!pieces)
        return NULL;
    *pieces = (struct pbcheck_pieces){.bytes = malloc(4096), .room = 4096};
    if (!pieces->bytes) {
        free(pieces);
        return NULL;
    }
    return pieces;
}

/* Room for so many bytes more, by doubling. */
static bool make_room(struct pbcheck_pieces *pieces, size_t length) {
    if (length > SIZE_MAX / 2 - pieces->length)
        return false;
    size_t room = pieces->room;
    while (room - pieces->length < length)
        room *= 2;
    uint8_t *bytes = room == pieces->room ? pieces->bytes : realloc(pieces->bytes, room);
    if (!bytes)
        return false;
    pieces->bytes = bytes;
    pieces->room = room;
    return true;
}

bool pbcheck_piece(struct pbcheck_pieces *pieces, const uint8_t *piece, size_t length) {
    if (pieces->refused || !make_room(pieces, length)) {
        pieces->refused = true;
        return false;
    }
    memcpy(pieces->bytes + pieces->length, piece, length);
    pieces->length += length;
    return true;
}

size_t pbcheck_end(struct pbcheck_pieces *pieces, const uint8_t *problem, size_t problem_length, struct pbcheck_report *report,
                   uint8_t *values, size_t values_room, uint8_t *text, size_t text_room) {
    size_t printed = 0;
    if (pieces->refused)
        *report = (struct pbcheck_report){.status = PBCHECK_NO_MEMORY};
    else
        printed = pbcheck_check(problem, problem_length, pieces->bytes, pieces->length, report, values, values_room, text, text_room);
    pbcheck_forget(pieces);
    return printed;
}

void pbcheck_forget(struct pbcheck_pieces *pieces) {
    free(pieces->bytes);
    free(pieces);
}
