/*
 * Perillabeam for C and C++: cheapest paths through a graph, searched a few tickets at a time in words that the board lends.
 *
 * Copy this file and link libboard.a (x86-64), which needs nothing but memcpy and memset. A graph's text is opened as a cache in
 * lent words (perillabeam_open); searches grow its trees (initialize, step, retrace; solve and plan do many steps at once). Any
 * number of searches may share a cache, their calls in any order; each has a record of its own. Nothing is allocated; the stack,
 * measured, is 43 KB at the most, for retrace and plan 105 KB where a path has 1,023 moves.
 *
 * What C must keep: every pointer is not null (also where its length is 0), aligned, and valid for its length, and no two arguments
 * overlap (but two that are only read may). Beyond this no call asks for anything: words, texts, lists and records may hold whatever
 * they hold. That every call then ends, without fault, with the answer described here, is proved.
 *
 * Every call but perillabeam_is_sound answers 0 or the number of a refusal. A refused call leaves words, record and path as they
 * were, and writes an answer, a line or a count as each call says.
 */
#ifndef PERILLABEAM_H
#define PERILLABEAM_H

#include <stdbool.h>
#include <stddef.h>
#include <stdint.h>

#ifdef __cplusplus
extern "C" {
#endif

/* Limits. A list is one of starts or of goals. */
#define PERILLABEAM_MAX_VERTICES 1024
#define PERILLABEAM_MAX_EDGES 2048
#define PERILLABEAM_MAX_COST 999999
#define PERILLABEAM_MAX_SLOTS 64
#define PERILLABEAM_MAX_LIST 64

/* The words of a cache for so many vertices, edges and tree slots; a constant where these are. At most 731,654. */
#define PERILLABEAM_WORDS(vertices, edges, slots)                                          \
    ((size_t)6 + (size_t)2 * (size_t)(vertices) + (size_t)4 * (size_t)(edges) +            \
     (size_t)(slots) * ((size_t)8 + (size_t)5 * (size_t)(edges) + (size_t)(vertices)))

/* The words of a path: first vertex, then edge and vertex for each move. No path has more than 1,023 moves. */
#define PERILLABEAM_PATH_WORDS(moves) ((size_t)1 + (size_t)2 * (size_t)(moves))
#define PERILLABEAM_MAX_PATH_WORDS PERILLABEAM_PATH_WORDS(PERILLABEAM_MAX_VERTICES - 1)

/*
 * The words of a search record: 0 the finished mark; 1 the number of entries; 2 the number of goals; 3 to 5 the best (0 0 0, or
 * 1, entry, node); 6 to 69 the goals; then 64 entries of 5 words (tree slot; 0 0, or 1 and the remembered closed count; 0 0, or 1
 * and the solution's node). perillabeam_initialize and perillabeam_plan write one. A slice that holds one may be longer; the
 * words past these stay.
 */
#define PERILLABEAM_RECORD_WORDS 390

/* A search of so many trees, in a graph of so many edges, answers incomplete at most so often. */
#define PERILLABEAM_MAX_WAITS(trees, edges) ((size_t)1 + (size_t)(trees) * ((size_t)1 + (size_t)(edges)))

/* The direction of a cache. Backward, trees grow from the goals; initial costs are not looked at. */
enum perillabeam_direction {
    PERILLABEAM_FORWARD = 0,
    PERILLABEAM_BACKWARD = 1
};

enum perillabeam_refusal {
    PERILLABEAM_DONE = 0,           /* not refused */
    PERILLABEAM_MALFORMED = 1,      /* a line of the text has another form, or no LF */
    PERILLABEAM_OUT_OF_ORDER = 2,   /* a vertex's number is not the next, or a vertex stands below an edge */
    PERILLABEAM_NO_SUCH_VERTEX = 3, /* an end of an edge is no vertex above it; a start or a goal is no vertex */
    PERILLABEAM_OVER_LIMIT = 4,     /* a limit is passed; the direction is not 0 or 1; slots are not 1 to 64 */
    PERILLABEAM_SHORT_CACHE = 5,    /* fewer words than PERILLABEAM_WORDS */
    PERILLABEAM_TREES_FULL = 6,     /* more new trees than unused slots */
    PERILLABEAM_UNSOUND = 7,        /* the words are no sound cache */
    PERILLABEAM_INVALID_SEARCH = 8, /* the record is none of this cache, or its slice is too short */
    PERILLABEAM_NOT_SOLVED = 9,     /* the search has not finished as solved */
    PERILLABEAM_SHORT_PATH = 10     /* fewer words than PERILLABEAM_PATH_WORDS */
};

enum perillabeam_status {
    PERILLABEAM_REFUSED = 0,
    PERILLABEAM_INCOMPLETE = 1, /* the search waits for its next step */
    PERILLABEAM_SOLVED = 2,
    PERILLABEAM_IMPOSSIBLE = 3 /* there is no path */
};

/* What a search answers. In a refusal all six are 0. */
struct perillabeam_answer {
    size_t status;     /* of enum perillabeam_status */
    size_t total_cost; /* 0 unless solved */
    size_t moves;      /* 0 unless solved */
    size_t waits;      /* how many steps of this call answered incomplete */
    size_t tickets;    /* how many tickets this call took */
    size_t has_path;   /* 1 if perillabeam_plan wrote the path, else 0 */
};

/*
 * How many words a cache needs, as PERILLABEAM_WORDS says.
 * Refused by 4: a count over its limit, or slots that are not 1 to 64. Then *needed is 0.
 */
uint32_t perillabeam_words_needed(size_t vertices, size_t edges, size_t slots, size_t *needed);

/*
 * Opens a cache in the words, of a graph's text: a line `M,number,initial cost` for each vertex (`-`: none), then a line
 * `L,from,to,cost` for each edge, each ended by LF. Words past those needed stay.
 * Refused by 4 for the direction, then for the slots; then line by line, each by 1, 2, 4, 3; then by 5.
 * *line is the line at fault, from 1, or 0 where none is.
 */
uint32_t perillabeam_open(uint32_t *words, size_t words_len, const uint8_t *text, size_t text_len, uint32_t direction,
                          size_t slots, size_t *line);

/* Whether the words are those of a sound cache: such as an opening and later calls leave. Every call below asks it first. */
bool perillabeam_is_sound(const uint32_t *words, size_t words_len);

/*
 * Opens a search from the starts to the goals, and writes its record. Forward, a start without an initial cost is passed over.
 * Refused by 7; 8 (record_len under 390); 4 (a list of more than 64); 3; 6.
 */
uint32_t perillabeam_initialize(uint32_t *words, size_t words_len, const uint32_t *starts, size_t starts_len,
                                const uint32_t *goals, size_t goals_len, uint32_t *record, size_t record_len);

/*
 * One step of a search: at most ten tickets for each of its entries. Its record is brought up to date. A search that has
 * answered solved or impossible repeats its answer, and takes no ticket.
 * Refused by 7; 8. A record that its opening and its own steps left is never refused by 8.
 */
uint32_t perillabeam_step(uint32_t *words, size_t words_len, uint32_t *record, size_t record_len,
                          struct perillabeam_answer *answer);

/*
 * Many steps with one check of the words: until one answers solved or impossible, or so many have answered incomplete. With 0
 * steps nothing is done, and the answer says how the search stands.
 * Refused by 7; 8.
 */
uint32_t perillabeam_solve(uint32_t *words, size_t words_len, uint32_t *record, size_t record_len, uint32_t steps,
                           struct perillabeam_answer *answer);

/*
 * A whole search by one call: initialize, steps to the end, and the path where there is room for it. Never answers incomplete.
 * Too short a path is not refused: answer->has_path is 0, the path is as it was, and perillabeam_retrace shows it by the record.
 * Refused by 7; 8 (record_len under 390); 4; 3; 6.
 */
uint32_t perillabeam_plan(uint32_t *words, size_t words_len, const uint32_t *starts, size_t starts_len,
                          const uint32_t *goals, size_t goals_len, uint32_t *path, size_t path_len, uint32_t *record,
                          size_t record_len, struct perillabeam_answer *answer);

/*
 * Writes the path of a solved search, in the graph's own direction: PERILLABEAM_PATH_WORDS(*moves) words; the others stay.
 * Refused by 7; 8; 9; 10. Then *moves is 0.
 */
uint32_t perillabeam_retrace(const uint32_t *words, size_t words_len, const uint32_t *record, size_t record_len,
                             uint32_t *path, size_t path_len, size_t *moves);

/* What a refusal says. */
static inline const char *perillabeam_refusal_text(uint32_t refusal)
{
    switch (refusal) {
    case PERILLABEAM_DONE:
        return "not refused";
    case PERILLABEAM_MALFORMED:
        return "a line has another form, or no line feed";
    case PERILLABEAM_OUT_OF_ORDER:
        return "a vertex is not the next one, or stands below an edge";
    case PERILLABEAM_NO_SUCH_VERTEX:
        return "no such vertex";
    case PERILLABEAM_OVER_LIMIT:
        return "over a limit";
    case PERILLABEAM_SHORT_CACHE:
        return "too few words for the cache";
    case PERILLABEAM_TREES_FULL:
        return "more new trees than unused slots";
    case PERILLABEAM_UNSOUND:
        return "the words are no sound cache";
    case PERILLABEAM_INVALID_SEARCH:
        return "the record is none of this cache";
    case PERILLABEAM_NOT_SOLVED:
        return "the search has not finished as solved";
    case PERILLABEAM_SHORT_PATH:
        return "too few words for the path";
    default:
        return "no refusal has this number";
    }
}

#ifdef __cplusplus
}
#endif

#endif
