/*
 * lookup TABLE                        checks a table file and prints its entries, in order
 * lookup TABLE WORD[@EDITION] ..      checks it and looks each word up, as of an edition, without one the newest
 *
 * Each entry is a line `word@edition = value` or `word@edition deleted`; a word that is not there is `word absent`. Bytes that
 * do not print, and \, @ in a word, are written as \xHH.
 *
 * Exit status: 0 every word was found with a value, or all entries are printed; 1 some word is absent, deleted or refused; 2 the
 * file cannot be read or the table is refused, with the reason on standard error.
 */
#include <stdio.h>
#include <stdlib.h>
#include <string.h>

#include "salevoni.h"

static void put_bytes(const uint8_t *bytes, size_t n, int word) {
    size_t i;
    for (i = 0; i < n; i++) {
        uint8_t b = bytes[i];
        if (b < 32 || 126 < b || b == '\\' || (word && b == '@'))
            printf("\\x%02x", b);
        else
            putchar(b);
    }
}

/* The edition that a key's last 8 bytes hold, and its kind. */
static uint64_t tag_of(const uint8_t *key, size_t n) {
    uint64_t tag = 0;
    size_t i;
    for (i = 0; i < 8; i++) tag |= (uint64_t)key[n - 8 + i] << (8 * i);
    return tag;
}

static void put_entry(const uint8_t *table, const uint8_t *key, salevoni_entry e) {
    uint64_t tag = tag_of(key, e.key_len);
    put_bytes(key, e.key_len - 8, 1);
    printf("@%llu", (unsigned long long)(tag >> 8));
    if ((tag & 255) == 0) {
        printf(" deleted\n");
        return;
    }
    printf(e.value_len == 0 ? " =" : " = ");
    put_bytes(table + e.value_at, e.value_len, 0);
    putchar('\n');
}

/* The whole table: from the least word, of the largest edition, on. */
static int walk(const uint8_t *table, size_t size) {
    static uint8_t key[SALEVONI_KEY_MAX];
    const uint8_t least[1] = {0};
    salevoni_entry e = salevoni_seek(table, size, least, 1, SALEVONI_EDITION_MAX, key, sizeof key);
    while (e.answer == SALEVONI_OK) {
        put_entry(table, key, e);
        e = salevoni_step(table, size, e.index, e.entry, key, sizeof key);
    }
    return e.answer == SALEVONI_NONE ? 0 : 1;
}

/* One word: whether it has a value. */
static int look(const uint8_t *table, size_t size, const char *asked) {
    static uint8_t key[SALEVONI_KEY_MAX];
    const char *at = strrchr(asked, '@');
    size_t n = at != NULL ? (size_t)(at - asked) : strlen(asked);
    uint64_t edition = at != NULL ? strtoull(at + 1, NULL, 10) : SALEVONI_EDITION_MAX;
    salevoni_entry e = salevoni_lookup(table, size, (const uint8_t *)asked, n, edition, key, sizeof key);
    switch (e.answer) {
    case SALEVONI_OK:
    case SALEVONI_DELETED:
        put_entry(table, key, e);
        return e.answer == SALEVONI_OK;
    case SALEVONI_NONE:
        put_bytes((const uint8_t *)asked, n, 1);
        printf(" absent\n");
        return 0;
    default:
        put_bytes((const uint8_t *)asked, n, 1);
        printf(" refused: %u\n", (unsigned)e.answer);
        return 0;
    }
}

int main(int argc, char **argv) {
    static uint8_t table[SALEVONI_TABLE_MAX + 1];
    size_t size;
    uint32_t answer;
    int i, missed = 0;
    FILE *f;
    if (argc < 2) {
        fprintf(stderr, "lookup TABLE [WORD[@EDITION] ..]\n");
        return 2;
    }
    f = fopen(argv[1], "rb");
    if (f == NULL) {
        perror(argv[1]);
        return 2;
    }
    size = fread(table, 1, sizeof table, f);
    if (ferror(f)) {
        perror(argv[1]);
        return 2;
    }
    fclose(f);
    answer = salevoni_check(table, size);
    if (answer != SALEVONI_OK) {
        fprintf(stderr, "%s: refused: %u\n", argv[1], (unsigned)answer);
        return 2;
    }
    if (argc == 2) return walk(table, size);
    for (i = 2; i < argc; i++)
        if (!look(table, size, argv[i])) missed = 1;
    return missed;
}
