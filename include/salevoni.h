/*
 * Salevoni tables: LevelDB tables written, checked and read. Every function here answers and returns for any bytes, any
 * numbers and any sequence of calls, as long as each pointer points to as many elements as its length says (a length of 0 may
 * come with any pointer that is not null) and memory that is written to is lent once. Nothing is allocated and nothing is kept
 * between calls.
 *
 * A refusal gives its number and leaves all lent memory as it was.
 *
 * Reads and building are in libexports.a; the pieces of a table, filters and blocks in libpieces.a.
 */
#ifndef SALEVONI_H
#define SALEVONI_H

#include <stddef.h>
#include <stdint.h>

#ifdef __cplusplus
extern "C" {
#endif

/* What a call answers: 0, a refusal's number, or that there is no entry or that it is a deletion. */
enum {
    SALEVONI_OK = 0,
    SALEVONI_BAD_OPTIONS = 1,   /* start: an option is outside its limits */
    SALEVONI_NO_ROOM = 2,       /* a lent run or buffer is too short, or is not the one of the state */
    SALEVONI_BAD_INPUT = 3,     /* word, value, edition or kind outside the limits */
    SALEVONI_NOT_ABOVE = 4,     /* add: key not above the last accepted one */
    SALEVONI_FULL = 5,          /* add: the table with this entry would not fit the output */
    SALEVONI_FINISHED = 6,      /* add or finish after finish */
    SALEVONI_NO_TABLE = 7,      /* shorter than 48 bytes, over 16,777,216, or no magic at the end */
    SALEVONI_BAD_HANDLE = 8,    /* a handle does not decode, or its block does not lie before the footer */
    SALEVONI_BAD_CHECKSUM = 9,  /* stored checksum differs, or block type is not 0 */
    SALEVONI_BAD_BLOCK = 10,    /* block malformed */
    SALEVONI_OUT_OF_ORDER = 11, /* keys or index keys out of order */
    SALEVONI_BAD_FILTER = 12,   /* filter block malformed, or it denies an entry */
    SALEVONI_NO_PLACE = 14,     /* step: no entry starts at the place given */
    SALEVONI_NONE = 100,        /* no such entry; lookup: absent */
    SALEVONI_DELETED = 101      /* lookup: the entry is a deletion */
};

/* Keys in a table: a word of 1 to 1,024 bytes and 8 bytes, least first, of edition * 256 + kind (1 a value, 0 a deletion). */
enum {
    SALEVONI_WORD_MAX = 1024,
    SALEVONI_KEY_MAX = 1032,
    SALEVONI_VALUE_MAX = 32768,
    SALEVONI_TABLE_MAX = 16777216
};

/* The largest edition: editions are below 2^56. */
#define SALEVONI_EDITION_MAX ((uint64_t)0x00ffffffffffffff)

/* ---- reads ---- */

/* What a read answers, and its entry: its place (index, entry), the length of its key, and where in the table its value lies.
   With SALEVONI_OK and SALEVONI_DELETED there is an entry; with any other answer all other fields are 0. */
typedef struct salevoni_entry {
    uint32_t answer;
    size_t index;
    size_t entry;
    size_t key_len;
    size_t value_at;
    size_t value_len;
} salevoni_entry;

/* The full check of a table: 0 or the refusal's number, 7 to 12; the first failure decides. On a table that passes, every read
   below is exact. On any other a read answers 7, 8, 10, 14, none, or an entry whose value lies inside the table. */
uint32_t salevoni_check(const uint8_t *table, size_t table_len);

/* The least entry that is not below a word and an edition, or SALEVONI_NONE. The key goes to the front of key, of at least
   SALEVONI_KEY_MAX bytes; without an entry key is as it was. Refuses with 3, 2, then as the table is. */
salevoni_entry salevoni_seek(const uint8_t *table, size_t table_len, const uint8_t *word, size_t word_len, uint64_t edition,
                             uint8_t *key, size_t key_size);

/* The newest entry of a word that is no newer than an edition: SALEVONI_OK or SALEVONI_DELETED with it, or SALEVONI_NONE if
   the word is absent. Buffers and refusals as for salevoni_seek. */
salevoni_entry salevoni_lookup(const uint8_t *table, size_t table_len, const uint8_t *word, size_t word_len, uint64_t edition,
                               uint8_t *key, size_t key_size);

/* The entry after the one at a place (index and entry of an answer before), or SALEVONI_NONE after the last; 14 if no entry
   starts there. Buffers as for salevoni_seek. */
salevoni_entry salevoni_step(const uint8_t *table, size_t table_len, size_t index, size_t entry, uint8_t *key,
                             size_t key_size);

/* ---- building ---- */

/* A block being built: the interval of restarts, the entry bytes, the restarts, the entries since the last restart, and the
   last key, which is the first len bytes of last. */
typedef struct salevoni_block {
    size_t interval;
    size_t bytes;
    size_t restarts;
    size_t since;
    size_t len;
    uint8_t last[SALEVONI_KEY_MAX];
} salevoni_block;

/* The lengths of the seven runs, in elements. */
typedef struct salevoni_lengths {
    size_t out;
    size_t index;
    size_t filters;
    size_t restarts;
    size_t index_restarts;
    size_t offsets;
    size_t hashes;
} salevoni_lengths;

/* A table being built. It goes into each call by value and comes back; filter is 0 for none, else a Bloom filter of so many
   bits per key; finished is 0 until finish. */
typedef struct salevoni_state {
    size_t block_size;
    size_t interval;
    uint32_t filter;
    uint32_t bits;
    salevoni_lengths lengths;
    size_t written;
    salevoni_block pending;
    salevoni_block indexed;
    size_t filtered;
    size_t made;
    size_t waiting;
    uint32_t finished;
} salevoni_state;

/* What a call of the builder answers: 0 or the refusal's number; after finish the table's size, else 0; and the state to go on
   with, after a refusal the one that went in. */
typedef struct salevoni_built {
    uint32_t answer;
    size_t size;
    salevoni_state state;
} salevoni_built;

/* The seven runs of a table being built, lent to each call: the output, of at least 97 bytes (123 with a filter); index and
   filters, each as long as the output or, if that is less, SALEVONI_TABLE_MAX bytes; and restarts, index_restarts, offsets and
   hashes, each of a quarter as many numbers. The table is the first size bytes of the output after finish. */
typedef struct salevoni_runs {
    uint8_t *out;
    size_t out_len;
    uint8_t *index;
    size_t index_len;
    uint8_t *filters;
    size_t filters_len;
    uint32_t *restarts;
    size_t restarts_len;
    uint32_t *index_restarts;
    size_t index_restarts_len;
    uint32_t *offsets;
    size_t offsets_len;
    uint32_t *hashes;
    size_t hashes_len;
} salevoni_runs;

/* The seven runs as the arguments of a call: salevoni_add(state, SALEVONI_RUNS(runs), word, ..) */
#define SALEVONI_RUNS(r)                                                                                                     \
    (r).out, (r).out_len, (r).index, (r).index_len, (r).filters, (r).filters_len, (r).restarts, (r).restarts_len,            \
        (r).index_restarts, (r).index_restarts_len, (r).offsets, (r).offsets_len, (r).hashes, (r).hashes_len

/* Starts a table: block_size 8 to 65,536, interval 1 to 1,024, filter 0 for none, else bits 1 to 64 per key. Refuses with 1,
   then 2 if a run is too short. Nothing is written. After a refusal the state is of no use. */
salevoni_built salevoni_start(size_t block_size, size_t interval, uint32_t filter, uint32_t bits, uint8_t *out, size_t out_len,
                              uint8_t *index, size_t index_len, uint8_t *filters, size_t filters_len, uint32_t *restarts,
                              size_t restarts_len, uint32_t *index_restarts, size_t index_restarts_len, uint32_t *offsets,
                              size_t offsets_len, uint32_t *hashes, size_t hashes_len);

/* Adds an entry, above all entries before: a word of 1 to 1,024 bytes, an edition below 2^56, kind 1 (a value) or 0 (a
   deletion), and a value of up to 32,768 bytes. Of one word the larger edition comes first. Refuses with 6, 2, 3, 4, 5. */
salevoni_built salevoni_add(salevoni_state state, uint8_t *out, size_t out_len, uint8_t *index, size_t index_len,
                            uint8_t *filters, size_t filters_len, uint32_t *restarts, size_t restarts_len,
                            uint32_t *index_restarts, size_t index_restarts_len, uint32_t *offsets, size_t offsets_len,
                            uint32_t *hashes, size_t hashes_len, const uint8_t *word, size_t word_len, uint64_t edition,
                            uint8_t kind, const uint8_t *value, size_t value_len);

/* Writes all that is left of the table: after it the table is the first size bytes of out, and no call adds to it. Refuses with
   6, 2. */
salevoni_built salevoni_finish(salevoni_state state, uint8_t *out, size_t out_len, uint8_t *index, size_t index_len,
                               uint8_t *filters, size_t filters_len, uint32_t *restarts, size_t restarts_len,
                               uint32_t *index_restarts, size_t index_restarts_len, uint32_t *offsets, size_t offsets_len,
                               uint32_t *hashes, size_t hashes_len);

/* ---- pieces of a table ---- */

/* 0 and the size of what was written at the front of a run, or 2 and 0 where there is no room for it, and the run as it was. */
typedef struct salevoni_size {
    uint32_t answer;
    size_t size;
} salevoni_size;

/* CRC-32C continued over some bytes; it starts from 0. Nothing is written. */
uint32_t salevoni_crc(uint32_t crc, const uint8_t *bytes, size_t bytes_len);

/* A checksum masked as a table stores it. */
uint32_t salevoni_mask(uint32_t crc);

/* Writes the internal key of a word, an edition and a kind: word_len + 8 bytes. */
salevoni_size salevoni_internal_key(uint8_t *out, size_t out_len, const uint8_t *word, size_t word_len, uint64_t edition,
                                    uint8_t kind);

/* Writes the separator of two words: a itself, or a short word above a and below b. At most a_len + 1 bytes. */
salevoni_size salevoni_separator(uint8_t *out, size_t out_len, const uint8_t *a, size_t a_len, const uint8_t *b, size_t b_len);

/* Writes the separator of two internal keys, an index key between them: at most a_len bytes. */
salevoni_size salevoni_internal_separator(uint8_t *out, size_t out_len, const uint8_t *a, size_t a_len, const uint8_t *b,
                                          size_t b_len);

/* Writes a short word that is not below a: at most a_len + 1 bytes. */
salevoni_size salevoni_short_succ(uint8_t *out, size_t out_len, const uint8_t *a, size_t a_len);

/* 0 and where the metaindex and the index of a table stand, or the refusal's number, 7 or 8, and zeros. */
typedef struct salevoni_footer_read {
    uint32_t answer;
    size_t meta_offset;
    size_t meta_size;
    size_t index_offset;
    size_t index_size;
} salevoni_footer_read;

/* Decodes the footer of a table. Nothing is written. */
salevoni_footer_read salevoni_footer(const uint8_t *table, size_t table_len);

/* ---- filters ---- */

/* The hash of a word. */
uint32_t salevoni_hash(const uint8_t *bytes, size_t bytes_len);

/* How many probes a filter of so many bits per key takes: 1 to 30. */
uint32_t salevoni_probes(uint32_t bits);

/* Writes the Bloom filter of some hashes: nothing for no hashes, else bits * hashes_len bits, 8 bytes at least, and 1 byte. */
salevoni_size salevoni_filter(uint32_t bits, const uint32_t *hashes, size_t hashes_len, uint8_t *out, size_t out_len);

/* Whether a filter lets a hash through: 1 or 0. */
uint32_t salevoni_filter_may(const uint8_t *filter, size_t filter_len, uint32_t hash);

/* 0 and how many bytes the filters have now and how many there are, or 2 and zeros without room. */
typedef struct salevoni_filters {
    uint32_t answer;
    size_t bytes;
    size_t made;
} salevoni_filters;

/* Makes filters until there are count: the first of all hashes, the others empty. After each data block count is the next
   block's offset / 2048, and at the end, if hashes wait, made + 1. The filters made before have bytes bytes at the front of
   filters, and their made starts are at the front of offsets; the new ones go behind them. Nothing is written where there are
   count already. */
salevoni_filters salevoni_filter_block_add(uint32_t bits, const uint32_t *hashes, size_t hashes_len, size_t count,
                                           uint8_t *filters, size_t filters_len, size_t bytes, uint32_t *offsets,
                                           size_t offsets_len, size_t made);

/* Writes the filter block of the filters' bytes and their starts: filters_len + 4 * offsets_len + 5 bytes. */
salevoni_size salevoni_filter_block_finish(const uint8_t *filters, size_t filters_len, const uint32_t *offsets,
                                           size_t offsets_len, uint8_t *out, size_t out_len);

/* Whether a filter block lets the data block at an offset hold a word of that hash: 1 or 0. */
uint32_t salevoni_filter_block_may(const uint8_t *block, size_t block_len, size_t offset, uint32_t hash);

/* Whether some bytes are a well-formed filter block: 0 or 12. */
uint32_t salevoni_filter_block_check(const uint8_t *block, size_t block_len);

/* ---- blocks ---- */

/* 0 and the block with an entry more, or 2 and the block as it was where the entry does not fit. */
typedef struct salevoni_block_added {
    uint32_t answer;
    salevoni_block block;
} salevoni_block_added;

/* What reading a block answers: 0 and an entry, 100 for none, 14 where no entry starts at the place, 10 for a malformed block
   or a key that has no room. Where the entry starts, the length of its key, and where in the block its value lies; else zeros. */
typedef struct salevoni_row {
    uint32_t answer;
    size_t start;
    size_t key_len;
    size_t value_at;
    size_t value_len;
} salevoni_row;

/* The kinds of block. */
enum { SALEVONI_DATA = 0, SALEVONI_INDEX = 1, SALEVONI_METAINDEX = 2 };

/* A block of no entries, with a restart every interval entries. */
salevoni_block salevoni_block_start(size_t interval);

/* Adds an entry with a key of up to 1,032 bytes to the block at the front of out; a restart goes into restarts. Order of keys is
   not asked for. Refuses with 2. */
salevoni_block_added salevoni_block_add(salevoni_block block, uint8_t *out, size_t out_len, uint32_t *restarts,
                                        size_t restarts_len, const uint8_t *key, size_t key_len, const uint8_t *value,
                                        size_t value_len);

/* Writes the restarts and their count behind the entries: the block is then the first size bytes of out. Refuses with 2. */
salevoni_size salevoni_block_finish(salevoni_block block, uint8_t *out, size_t out_len, const uint32_t *restarts,
                                    size_t restarts_len);

/* Whether some bytes are a well-formed block of a kind, any number above 1 a metaindex: 0 or 10. The order of keys is not
   looked at. */
uint32_t salevoni_block_check(const uint8_t *block, size_t block_len, uint32_t kind);

/* The first entry of a block. The key goes to the front of key; without an entry key is as it was. */
salevoni_row salevoni_block_first(const uint8_t *block, size_t block_len, uint8_t *key, size_t key_size);

/* The entry that starts at a place of a block; key as above. */
salevoni_row salevoni_block_at(const uint8_t *block, size_t block_len, size_t start, uint8_t *key, size_t key_size);

/* The entry after the one that starts at a place; key as above. */
salevoni_row salevoni_block_after(const uint8_t *block, size_t block_len, size_t start, uint8_t *key, size_t key_size);

/* The first entry of a block of internal keys that is not below a word and an edition; key as above. */
salevoni_row salevoni_block_seek(const uint8_t *block, size_t block_len, const uint8_t *word, size_t word_len,
                                 uint64_t edition, uint8_t *key, size_t key_size);

#ifdef __cplusplus
}
#endif

#endif
