/* Calls the checker from C, once over two buffers and once with the proof in pieces: `check PROBLEM PROOF`. */
#include "pbcheck.h"

#include <inttypes.h>
#include <stdio.h>
#include <stdlib.h>

struct bytes {
    uint8_t *at;
    size_t length;
};

static struct bytes whole(const char *name) {
    FILE *file = fopen(name, "rb");
    if (!file || fseek(file, 0, SEEK_END)) {
        perror(name);
        exit(3);
    }
    long length = ftell(file);
    rewind(file);
    struct bytes read = {malloc(length + 1), length}; /* never null, also for an empty file */
    if (!read.at || fread(read.at, 1, length, file) != read.length) {
        perror(name);
        exit(3);
    }
    fclose(file);
    return read;
}

static void tell(const char *which, const struct pbcheck_bound *bound) {
    if (bound->kind != PBCHECK_NUMBER)
        printf(", %s %s", which, bound->kind == PBCHECK_INFINITY ? "INF" : "-INF");
    else if (bound->high == 0)
        printf(", %s %s%" PRIu64, which, bound->negative ? "-" : "", bound->low);
    else
        printf(", %s %s%" PRIu64 " * 2^64 + %" PRIu64, which, bound->negative ? "-" : "", bound->high, bound->low);
}

static void print(const struct pbcheck_report *report, const uint8_t *values) {
    printf("status %d", report->status);
    if (report->line)
        printf(", line %" PRIu64 ", code %d, %s", report->line, report->code, report->name);
    if (report->conclusion)
        printf(", conclusion %d", report->conclusion);
    if (report->conclusion == PBCHECK_BOUNDS) {
        tell("lower", &report->lower);
        tell("upper", &report->upper);
    }
    if (report->has_best) {
        printf(", best ");
        for (uint64_t at = 0; at < report->variables && at < 64; at++)
            putchar('0' + values[at]);
    }
    putchar('\n');
}

int main(int count, char **words) {
    if (count != 3) {
        fprintf(stderr, "usage: check PROBLEM PROOF\n");
        return 64;
    }
    struct bytes problem = whole(words[1]), proof = whole(words[2]);
    struct pbcheck_report report, again;
    uint8_t values[64], text[4096];

    size_t printed = pbcheck_check(problem.at, problem.length, proof.at, proof.length, &report, values, sizeof values, text, sizeof text);
    print(&report, values);
    fwrite(text, 1, printed < sizeof text ? printed : sizeof text, stdout);
    if (printed > sizeof text)
        fprintf(stderr, "the text has %zu bytes, of which %zu are printed\n", printed, sizeof text);

    struct pbcheck_pieces *pieces = pbcheck_begin();
    for (size_t at = 0; pieces && at < proof.length; at += 7)
        if (!pbcheck_piece(pieces, proof.at + at, proof.length - at < 7 ? proof.length - at : 7)) {
            pbcheck_forget(pieces);
            pieces = NULL;
        }
    if (!pieces) {
        fprintf(stderr, "no memory for the pieces of the proof\n");
        return PBCHECK_NO_MEMORY;
    }
    if (pbcheck_end(pieces, problem.at, problem.length, &again, values, sizeof values, text, sizeof text) != printed ||
        again.status != report.status) {
        fprintf(stderr, "in pieces the verdict is another one\n");
        return 1;
    }
    free(problem.at);
    free(proof.at);
    return report.status;
}
