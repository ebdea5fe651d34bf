/*
 * The move archive, for programs in C. Link liblundwazo.a, which asks for memcpy, memmove and memset and nothing else: it takes no
 * memory, opens no file and keeps nothing between calls. What the calls and answers mean is in docs/RULES.md, the refusals in
 * docs/REFUSALS.md, the bytes of the pages in docs/FORMATS.md.
 *
 * What the caller owes, and nothing checks: each pointer points to as many values as its length says and is not null, also where the
 * length is 0 (any address will do then); what the library may write to does not overlap anything else that the same call is
 * handed. What a call is handed to read and write is used by no other thread meanwhile.
 */
#ifndef LUNDWAZO_H
#define LUNDWAZO_H

#include <stddef.h>
#include <stdint.h>

#ifdef __cplusplus
extern "C" {
#endif

/* The limits of a journal. They are not kept in its pages: the same ones have to be given each time. */
struct lundwazo_limits {
    uint64_t slots; /* how many sections may be kept */
    uint64_t rows;  /* how many rows a section may have */
    uint64_t bytes; /* what the rows of a section may cost: 4 for each, and its value */
    uint64_t width; /* how many bytes each key has: 11 of a box number, 32 of a digest */
};

/* The parts of a refusal. What it does not name is 0. */
struct lundwazo_parts {
    uint64_t number;
    uint64_t layer;
    uint64_t section;
    uint64_t position;
    uint64_t amount;
};

/* Where a record lies: its move number, and its position in the section of that number. */
struct lundwazo_place {
    uint64_t number;
    uint64_t position;
};

/* How a call of this library went; `fault` is all 0 unless the status is LUNDWAZO_NOT_MOUNTED. */
struct lundwazo_outcome {
    uint64_t status;
    struct lundwazo_parts fault;
};

enum {
    LUNDWAZO_DONE = 0,
    LUNDWAZO_NOT_MOUNTED = 1, /* the pages are refused; the fault says why, 4 also where `saved` is of another length */
    LUNDWAZO_NO_SUCH_KEYS = 2,
    LUNDWAZO_NO_SUCH_TRANSLATOR = 3
};

/* Kinds of key. */
enum {
    LUNDWAZO_BOX_NUMBERS = 1,
    LUNDWAZO_DIGESTS = 2
};

/* Translators: FNV-1a 32 of the whole key, or its first bytes. */
enum {
    LUNDWAZO_FNV = 0,
    LUNDWAZO_LEADING_1 = 1,
    LUNDWAZO_LEADING_2 = 2,
    LUNDWAZO_LEADING_4 = 4,
    LUNDWAZO_LEADING_8 = 8
};

/* Calls of the archive, each with the fields of the turn that it goes by. */
enum {
    LUNDWAZO_LOAD = 1,         /* number: how many move numbers to a section */
    LUNDWAZO_PUT = 2,          /* number, key, bytes: stored unless the number is there already */
    LUNDWAZO_PUT_MULTI = 3,    /* number, key, bytes: stored beside what is there */
    LUNDWAZO_PRUNE = 4,        /* number: the minimum */
    LUNDWAZO_GET_NUMBER = 5,   /* number; the value goes to the front of bytes */
    LUNDWAZO_GET_KEY = 6,      /* key; the same */
    LUNDWAZO_GET_PLACE = 7,    /* number, position; the same */
    LUNDWAZO_HAS_NUMBER = 8,   /* number */
    LUNDWAZO_HAS_KEY = 9,      /* key */
    LUNDWAZO_HAS_BOTH = 10,    /* number, key: of one record */
    LUNDWAZO_LIST_NUMBER = 11, /* number; places are filled from the front */
    LUNDWAZO_LIST_KEY = 12,    /* key; the same */
    LUNDWAZO_COUNTS = 13
};

/* What came of a turn, and what its parts then are. A part that is not named is 0. */
enum {
    LUNDWAZO_NOT_MADE = 0,
    LUNDWAZO_REFUSED = 1,          /* the parts of the refusal */
    LUNDWAZO_LOADED = 2,           /* amount: records */
    LUNDWAZO_BELOW_FLOOR = 3,
    LUNDWAZO_ALREADY_THERE = 4,
    LUNDWAZO_STORED = 5,           /* section, position */
    LUNDWAZO_UNCHANGED = 6,        /* the floor was there already, or above */
    LUNDWAZO_STRUCK = 7,           /* number: move numbers that went; amount: records that went */
    LUNDWAZO_ABSENT = 8,
    LUNDWAZO_FOUND = 9,            /* number, position; amount: bytes of the value */
    LUNDWAZO_NO = 10,
    LUNDWAZO_YES = 11,
    LUNDWAZO_LISTED_BY_NUMBER = 12, /* amount: places filled */
    LUNDWAZO_LISTED_BY_KEY = 13,   /* amount: places filled; number: records that share the translated key */
    LUNDWAZO_COUNTED = 14,         /* number: move numbers; amount: records; there is no floor yet */
    LUNDWAZO_COUNTED_FROM = 15,    /* the same, and section: the floor */
    LUNDWAZO_NO_SUCH_CALL = 16
};

struct lundwazo_answer {
    uint64_t kind;
    struct lundwazo_parts parts;
};

/* One call, with its buffers and, after the run, its answer. */
struct lundwazo_turn {
    uint64_t call;
    uint64_t number;
    uint64_t position;
    const uint8_t *key;
    size_t key_length;
    uint8_t *bytes; /* the value that a put stores, or the buffer that a get fills */
    size_t bytes_length;
    struct lundwazo_place *places;
    size_t places_length;
    struct lundwazo_answer answer;
};

/* Two slices that pages lie in, or are saved into. */
struct lundwazo_pages {
    uint8_t *entries;
    size_t entries_length;
    uint8_t *values;
    size_t values_length;
};

/* How many bytes the two slices of pages have with these limits; 0 where no journal may have them. Slices of zeros are a journal
 * that keeps nothing. */
size_t lundwazo_entries_size(const struct lundwazo_limits *limits);
size_t lundwazo_values_size(const struct lundwazo_limits *limits);

/* Whether pages can be mounted, and if not, the first thing wrong with them. Nothing is written. */
struct lundwazo_outcome lundwazo_check(const uint8_t *entries, size_t entries_length, const uint8_t *values, size_t values_length,
                                       const struct lundwazo_limits *limits);

/*
 * Mounts pages, makes an archive over them and takes it through the turns, each answered where it lies. The archive has to be loaded
 * by the first turn that asks for anything. There is no floor when a run begins: pages do not keep it.
 *
 * What the pages hold in the end goes into `saved`, two slices as long as theirs: these can be written to a disk, and are the pages of
 * the next run. What then lies in the slices of `pages` themselves is not told. Where the outcome is not LUNDWAZO_DONE nothing at all
 * is changed.
 */
struct lundwazo_outcome lundwazo_run(struct lundwazo_pages *pages, struct lundwazo_pages *saved,
                                     const struct lundwazo_limits *limits, uint64_t keys, uint64_t translator,
                                     struct lundwazo_turn *turns, size_t turns_length);

#ifdef __cplusplus
}
#endif

#endif
