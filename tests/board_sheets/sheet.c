/*
 * The order sheet of chart.txt and orders.txt of the current folder, as program `runs` prints it, with every call made through the
 * archive: an order's search is made in one of four ways, by the order's number. All that is lent stands in heap blocks of just its
 * size, so that a tool that watches the heap sees any word past them. Exit status 1 if the calls do not agree with each other.
 */
#include "perillabeam.h"

#include <stdio.h>
#include <stdlib.h>
#include <string.h>

#define MAX_BYTES 65536
#define WORDS 16000
#define SLOTS 16
#define RECORD PERILLABEAM_RECORD_WORDS
#define PATH PERILLABEAM_MAX_PATH_WORDS
#define LONGEST (PERILLABEAM_MAX_LIST + 1)
#define MARK 0xA5A5A5A5u

struct bytes {
    uint8_t *at;
    size_t len;
};

/* The first 65 numbers of a list; more are over the limit as well. */
struct list {
    size_t len;
    uint32_t *numbers;
};

struct run {
    uint32_t refusal;
    struct perillabeam_answer answer;
};

static uint32_t *caches[2];
static uint32_t *kept;
static uint32_t *record;
static uint32_t *path;

static void check(bool holds, const char *what)
{
    if (!holds) {
        fprintf(stderr, "sheet: %s\n", what);
        exit(1);
    }
}

static void *block(size_t size)
{
    void *at = malloc(size == 0 ? 1 : size);
    check(at != NULL, "no memory");
    return at;
}

static uint32_t *block_of_words(size_t count)
{
    return block(count * sizeof(uint32_t));
}

static void mark(uint32_t *words, size_t count)
{
    for (size_t i = 0; i < count; i++) {
        words[i] = MARK;
    }
}

static bool are_marked(const uint32_t *words, size_t count)
{
    for (size_t i = 0; i < count; i++) {
        if (words[i] != MARK) {
            return false;
        }
    }
    return true;
}

/* A file's first bytes, one more than it may have. */
static bool read_file(const char *name, struct bytes *file)
{
    static uint8_t space[MAX_BYTES + 1];
    FILE *stream = fopen(name, "rb");
    if (stream == NULL) {
        perror(name);
        return false;
    }
    file->len = fread(space, 1, sizeof(space), stream);
    bool failed = ferror(stream) != 0;
    if (failed) {
        perror(name);
    }
    fclose(stream);
    file->at = block(file->len);
    memcpy(file->at, space, file->len);
    return !failed;
}

/* A number has 1 to 10 digits and no zero in front. One past 32 bits is read as the largest, which is no vertex either. */
static bool read_number(const uint8_t *at, size_t len, uint32_t *number)
{
    uint64_t sum = 0;
    if (len == 0 || len > 10 || (len > 1 && at[0] == '0')) {
        return false;
    }
    for (size_t i = 0; i < len; i++) {
        if (at[i] < '0' || at[i] > '9') {
            return false;
        }
        sum = 10 * sum + (uint64_t)(at[i] - '0');
    }
    *number = sum > UINT32_MAX ? UINT32_MAX : (uint32_t)sum;
    return true;
}

static size_t find(const uint8_t *at, size_t len, uint8_t byte)
{
    const uint8_t *found = len == 0 ? NULL : memchr(at, byte, len);
    return found == NULL ? len : (size_t)(found - at);
}

/* Numbers parted by single spaces, or nothing. */
static bool read_list(const uint8_t *at, size_t len, struct list *list)
{
    uint32_t numbers[LONGEST];
    size_t place = 0;
    list->len = 0;
    while (len != 0 && place <= len) {
        uint32_t number;
        size_t digits = find(at + place, len - place, ' ');
        if (!read_number(at + place, digits, &number)) {
            return false;
        }
        if (list->len < LONGEST) {
            numbers[list->len++] = number;
        }
        place += digits + 1;
    }
    list->numbers = block_of_words(list->len);
    memcpy(list->numbers, numbers, list->len * sizeof(uint32_t));
    return true;
}

/* `F` or `B`, starts, goals. */
static bool read_order(const uint8_t *at, size_t len, size_t *direction, struct list *starts, struct list *goals)
{
    if (len < 3 || (at[0] != 'F' && at[0] != 'B') || at[1] != ',') {
        return false;
    }
    size_t first = find(at + 2, len - 2, ',');
    if (2 + first == len || !read_list(at + 2, first, starts)) {
        return false;
    }
    if (!read_list(at + 3 + first, len - 3 - first, goals)) {
        free(starts->numbers);
        return false;
    }
    *direction = at[0] == 'F' ? PERILLABEAM_FORWARD : PERILLABEAM_BACKWARD;
    return true;
}

/* The answer so far, with that of one call more. */
static void add(struct run *run, const struct perillabeam_answer *answer)
{
    size_t waits = run->answer.waits + answer->waits;
    size_t tickets = run->answer.tickets + answer->tickets;
    run->answer = *answer;
    run->answer.waits = waits;
    run->answer.tickets = tickets;
}

/* The path of a search that has finished: refused by 9 if it is not solved, by 10 if a word is missing. */
static void show(const uint32_t *words, const struct run *run)
{
    size_t moves = 1;
    size_t shown = PERILLABEAM_PATH_WORDS(run->answer.moves);
    bool solved = run->answer.status == PERILLABEAM_SOLVED;
    mark(path, PATH);
    uint32_t refusal = perillabeam_retrace(words, WORDS, record, RECORD, path, shown - 1, &moves);
    check(refusal == (solved ? PERILLABEAM_SHORT_PATH : PERILLABEAM_NOT_SOLVED), "retrace with a word missing");
    check(moves == 0 && are_marked(path, PATH), "a refused retrace wrote something");
    refusal = perillabeam_retrace(words, WORDS, record, RECORD, path, PATH, &moves);
    check(refusal == (solved ? PERILLABEAM_DONE : PERILLABEAM_NOT_SOLVED), "retrace");
    check(moves == run->answer.moves, "retrace answers other moves");
    check(are_marked(path + (solved ? shown : 0), PATH - (solved ? shown : 0)), "retrace wrote past the path");
}

static uint32_t begin(uint32_t *words, const struct list *starts, const struct list *goals)
{
    mark(record, RECORD);
    return perillabeam_initialize(words, WORDS, starts->numbers, starts->len, goals->numbers, goals->len, record, RECORD);
}

/* One step after the other. */
static struct run by_steps(uint32_t *words, const struct list *starts, const struct list *goals)
{
    struct run run = {0};
    run.refusal = begin(words, starts, goals);
    if (run.refusal != PERILLABEAM_DONE) {
        return run;
    }
    do {
        struct perillabeam_answer answer;
        check(perillabeam_step(words, WORDS, record, RECORD, &answer) == PERILLABEAM_DONE, "a step is refused");
        check(answer.waits == (answer.status == PERILLABEAM_INCOMPLETE ? 1 : 0), "the waits of a step");
        add(&run, &answer);
    } while (run.answer.status == PERILLABEAM_INCOMPLETE);
    show(words, &run);
    return run;
}

/* Two steps at a time. */
static struct run by_solve(uint32_t *words, const struct list *starts, const struct list *goals)
{
    struct run run = {0};
    run.refusal = begin(words, starts, goals);
    if (run.refusal != PERILLABEAM_DONE) {
        return run;
    }
    do {
        struct perillabeam_answer answer;
        check(perillabeam_solve(words, WORDS, record, RECORD, 2, &answer) == PERILLABEAM_DONE, "solve is refused");
        add(&run, &answer);
    } while (run.answer.status == PERILLABEAM_INCOMPLETE);
    show(words, &run);
    return run;
}

/* The whole search by one call, with so much room for its path. */
static struct run by_plan(uint32_t *words, const struct list *starts, const struct list *goals, size_t room)
{
    struct run run;
    mark(record, RECORD);
    mark(path, PATH);
    run.refusal = perillabeam_plan(words, WORDS, starts->numbers, starts->len, goals->numbers, goals->len, path, room, record,
                                   RECORD, &run.answer);
    size_t shown = PERILLABEAM_PATH_WORDS(run.answer.moves);
    bool has_path = run.answer.status == PERILLABEAM_SOLVED && shown <= room;
    check(run.answer.has_path == (has_path ? 1 : 0), "has_path");
    check(are_marked(path + (has_path ? shown : 0), PATH - (has_path ? shown : 0)), "plan wrote past the path");
    if (run.refusal == PERILLABEAM_DONE && !has_path) {
        show(words, &run);
    }
    return run;
}

static struct run run_order(size_t number, uint32_t *words, const struct list *starts, const struct list *goals)
{
    switch (number % 4) {
    case 0:
        return by_steps(words, starts, goals);
    case 1:
        return by_plan(words, starts, goals, PATH);
    case 2:
        return by_solve(words, starts, goals);
    default:
        return by_plan(words, starts, goals, 2);
    }
}

static void print_run(size_t number, const struct run *run)
{
    if (run->refusal != PERILLABEAM_DONE) {
        printf("%zu,refused %u,-,0,0,-\n", number, (unsigned)run->refusal);
        return;
    }
    if (run->answer.status != PERILLABEAM_SOLVED) {
        printf("%zu,none,-,%zu,%zu,-\n", number, run->answer.waits, run->answer.tickets);
        return;
    }
    printf("%zu,solved,%zu,%zu,%zu,%u", number, run->answer.total_cost, run->answer.waits, run->answer.tickets,
           (unsigned)path[0]);
    for (size_t i = 1; i < PERILLABEAM_PATH_WORDS(run->answer.moves); i++) {
        printf(" %u", (unsigned)path[i]);
    }
    printf("\n");
}

/* An order's line, without its LF. */
static void print_order(size_t number, const uint8_t *at, size_t len)
{
    size_t direction;
    struct list starts;
    struct list goals;
    struct run run = {.refusal = PERILLABEAM_MALFORMED};
    if (!read_order(at, len, &direction, &starts, &goals)) {
        print_run(number, &run);
        return;
    }
    uint32_t *words = caches[direction];
    memcpy(kept, words, WORDS * sizeof(uint32_t));
    run = run_order(number, words, &starts, &goals);
    if (run.refusal != PERILLABEAM_DONE) {
        check(memcmp(kept, words, WORDS * sizeof(uint32_t)) == 0, "a refused call wrote a word of the cache");
        check(are_marked(record, RECORD), "a refused call wrote a word of the record");
    }
    check(perillabeam_is_sound(words, WORDS), "the words are not sound");
    print_run(number, &run);
    free(starts.numbers);
    free(goals.numbers);
}

/* Both caches, or the number of a refusal. */
static uint32_t open_caches(const struct bytes *chart, const struct bytes *orders)
{
    if (chart->len > MAX_BYTES || orders->len > MAX_BYTES) {
        return PERILLABEAM_OVER_LIMIT;
    }
    for (uint32_t direction = 0; direction < 2; direction++) {
        size_t line;
        mark(caches[direction], WORDS);
        uint32_t refusal = perillabeam_open(caches[direction], WORDS, chart->at, chart->len, direction, SLOTS, &line);
        if (refusal != PERILLABEAM_DONE) {
            check(are_marked(caches[direction], WORDS), "a refused opening wrote a word");
            return refusal;
        }
        check(line == 0, "an opening names a line");
    }
    return PERILLABEAM_DONE;
}

static void print_sheet(const struct bytes *chart, const struct bytes *orders)
{
    uint32_t refusal = open_caches(chart, orders);
    if (refusal != PERILLABEAM_DONE) {
        printf("refused %u\n", (unsigned)refusal);
        return;
    }
    printf("order,answer,total,waits,tickets,run\n");
    size_t at = 0;
    for (size_t number = 0; at < orders->len; number++) {
        size_t len = find(orders->at + at, orders->len - at, '\n');
        if (at + len == orders->len) {
            /* a last line without LF is no order, but has a number */
            print_order(number, orders->at, 0);
            return;
        }
        print_order(number, orders->at + at, len);
        at += len + 1;
    }
}

int main(void)
{
    struct bytes chart;
    struct bytes orders;
    caches[0] = block_of_words(WORDS);
    caches[1] = block_of_words(WORDS);
    kept = block_of_words(WORDS);
    record = block_of_words(RECORD);
    path = block_of_words(PATH);
    if (read_file("chart.txt", &chart) && read_file("orders.txt", &orders)) {
        print_sheet(&chart, &orders);
    }
    return 0;
}
