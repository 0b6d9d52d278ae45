/*
 * Builds a table from lines `word<TAB>edition<TAB>value` of standard input, in the order in which a table holds them: words
 * rising by bytes, of one word the larger edition first. A line without a value, `word<TAB>edition`, is a deletion. Writes the
 * table to standard output.
 *
 * Exit status: 0 written; 1 a line is malformed or refused, with its number and the refusal's on standard error; 2 no memory,
 * or reading or writing failed.
 */
#include <stdio.h>
#include <stdlib.h>
#include <string.h>

#include "salevoni.h"

enum { ROOM = 1 << 20, LINE = SALEVONI_WORD_MAX + SALEVONI_VALUE_MAX + 64 };

static salevoni_runs runs_of(size_t room) {
    salevoni_runs r;
    r.out_len = r.index_len = r.filters_len = room;
    r.restarts_len = r.index_restarts_len = r.offsets_len = r.hashes_len = room / 4;
    r.out = malloc(room);
    r.index = malloc(room);
    r.filters = malloc(room);
    r.restarts = malloc(room);
    r.index_restarts = malloc(room);
    r.offsets = malloc(room);
    r.hashes = malloc(room);
    return r;
}

/* An edition in decimal digits, or no edition. */
static int edition_of(const char *s, uint64_t *edition) {
    uint64_t n = 0;
    if (*s == 0) return 0;
    for (; *s; s++) {
        if (*s < '0' || '9' < *s || SALEVONI_EDITION_MAX / 10 < n) return 0;
        n = n * 10 + (uint64_t)(*s - '0');
    }
    *edition = n;
    return 1;
}

/* Adds the entry of a line: 0, a refusal's number, or 3 for a line that is none. */
static uint32_t add_line(salevoni_state *state, const salevoni_runs *runs, char *line) {
    char *word = line, *edition = strchr(line, '\t'), *value;
    uint64_t number;
    salevoni_built built;
    if (edition == NULL) return SALEVONI_BAD_INPUT;
    *edition++ = 0;
    value = strchr(edition, '\t');
    if (value != NULL) *value++ = 0;
    if (!edition_of(edition, &number)) return SALEVONI_BAD_INPUT;
    built = salevoni_add(*state, SALEVONI_RUNS(*runs), (const uint8_t *)word, strlen(word), number, value != NULL,
                         (const uint8_t *)(value != NULL ? value : ""), value != NULL ? strlen(value) : 0);
    *state = built.state;
    return built.answer;
}

int main(void) {
    static char line[LINE];
    salevoni_runs runs = runs_of(ROOM);
    salevoni_built built;
    unsigned long count = 0;
    if (!runs.out || !runs.index || !runs.filters || !runs.restarts || !runs.index_restarts || !runs.offsets || !runs.hashes) {
        fprintf(stderr, "build: no memory\n");
        return 2;
    }
    /* blocks of 4,096 bytes, a restart every 16 entries, 10 bits of filter per key */
    built = salevoni_start(4096, 16, 1, 10, SALEVONI_RUNS(runs));
    if (built.answer != SALEVONI_OK) {
        fprintf(stderr, "build: start refused: %u\n", (unsigned)built.answer);
        return 1;
    }
    while (fgets(line, sizeof line, stdin) != NULL) {
        uint32_t answer;
        count++;
        line[strcspn(line, "\n")] = 0;
        answer = add_line(&built.state, &runs, line);
        if (answer != SALEVONI_OK) {
            fprintf(stderr, "build: line %lu refused: %u\n", count, (unsigned)answer);
            return 1;
        }
    }
    if (ferror(stdin)) {
        perror("build: standard input");
        return 2;
    }
    built = salevoni_finish(built.state, SALEVONI_RUNS(runs));
    if (built.answer != SALEVONI_OK) {
        fprintf(stderr, "build: finish refused: %u\n", (unsigned)built.answer);
        return 1;
    }
    if (fwrite(runs.out, 1, built.size, stdout) != built.size || fflush(stdout) != 0) {
        perror("build: standard output");
        return 2;
    }
    return 0;
}
