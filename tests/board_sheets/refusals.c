/*
 * Every refusal of every call through the archive: its number, that of two faults the first in order is told, and that words,
 * record and path are as they were. Says nothing and ends with 0 if all is so; else a line for each fault, and 1.
 */
#include "perillabeam.h"

#include <stdio.h>
#include <stdlib.h>
#include <string.h>

#define SLOTS 1
#define WORDS PERILLABEAM_WORDS(4, 3, SLOTS)
/* two words past what is needed */
#define RECORD (PERILLABEAM_RECORD_WORDS + 2)
#define PATH (PERILLABEAM_PATH_WORDS(2) + 2)
#define MARK 0xA5A5A5A5u

#define TEXT(literal) (const uint8_t *)(literal), sizeof(literal) - 1
#define CHART TEXT("M,0,0\nM,1,5\nM,2,-\nM,3,-\nL,0,1,4\nL,1,2,3\nL,0,2,9\n")

/* A call that is to be refused, and one that is to be done. */
#define REFUSED(number, call) (keep(), judge(#call, (call), (number)), judge_kept(#call))
#define DONE(call) judge(#call, (call), PERILLABEAM_DONE)
#define HOLDS(fact) judge(#fact, (fact) ? 1 : 0, 1)

static uint32_t *lent[3];
static uint32_t *kept[3];
static const size_t lengths[3] = {WORDS, RECORD, PATH};
static struct perillabeam_answer answer;
static size_t told;
static int faults;

/* The parts lent, each a heap block of just its size. */
#define words lent[0]
#define record lent[1]
#define path lent[2]

static void judge(const char *what, uint32_t found, uint32_t expected)
{
    if (found != expected) {
        printf("%s: %u, not %u\n", what, (unsigned)found, (unsigned)expected);
        faults++;
    }
}

/* What a refused call has to write is marked before it. */
static void keep(void)
{
    for (size_t i = 0; i < 3; i++) {
        memcpy(kept[i], lent[i], lengths[i] * sizeof(uint32_t));
    }
    memset(&answer, 0xA5, sizeof(answer));
    told = MARK;
}

static void judge_kept(const char *what)
{
    for (size_t i = 0; i < 3; i++) {
        judge(what, memcmp(kept[i], lent[i], lengths[i] * sizeof(uint32_t)) != 0, 0);
    }
}

/* A call that answers a status answers six zeros when it is refused; one that answers a count, 0. */
static void judge_no_answer(void)
{
    static const struct perillabeam_answer none;
    HOLDS(memcmp(&answer, &none, sizeof(answer)) == 0);
}

static void make_blocks(void)
{
    for (size_t i = 0; i < 3; i++) {
        lent[i] = malloc(lengths[i] * sizeof(uint32_t));
        kept[i] = malloc(lengths[i] * sizeof(uint32_t));
        if (lent[i] == NULL || kept[i] == NULL) {
            exit(2);
        }
        memset(lent[i], 0xA5, lengths[i] * sizeof(uint32_t));
    }
}

static void ask_sizes(void)
{
    DONE(perillabeam_words_needed(1024, 2048, 64, &told));
    HOLDS(told == 731654 && told == PERILLABEAM_WORDS(1024, 2048, 64));
    DONE(perillabeam_words_needed(4, 3, SLOTS, &told));
    HOLDS(told == WORDS);
    REFUSED(4, perillabeam_words_needed(1025, 0, 1, &told));
    HOLDS(told == 0);
    REFUSED(4, perillabeam_words_needed(0, 2049, 1, &told));
    HOLDS(told == 0);
    REFUSED(4, perillabeam_words_needed(0, 0, 0, &told));
    REFUSED(4, perillabeam_words_needed(0, 0, 65, &told));
    REFUSED(4, perillabeam_words_needed(SIZE_MAX, SIZE_MAX, SIZE_MAX, &told));
}

static void open_all(void)
{
    REFUSED(4, perillabeam_open(words, WORDS, TEXT("?\n"), 2, 1, &told));
    HOLDS(told == 0);
    REFUSED(4, perillabeam_open(words, WORDS, TEXT("?\n"), 0, 0, &told));
    HOLDS(told == 0);
    REFUSED(4, perillabeam_open(words, WORDS, CHART, 0, 65, &told));
    REFUSED(1, perillabeam_open(words, WORDS, TEXT("M,0,0\nM,2,1000000"), 0, SLOTS, &told));
    HOLDS(told == 2);
    REFUSED(2, perillabeam_open(words, WORDS, TEXT("M,0,0\nM,2,1000000\n"), 0, SLOTS, &told));
    HOLDS(told == 2);
    REFUSED(4, perillabeam_open(words, WORDS, TEXT("M,0,0\nL,0,1,1000000\n"), 0, SLOTS, &told));
    HOLDS(told == 2);
    REFUSED(3, perillabeam_open(words, WORDS, TEXT("M,0,0\nM,1,0\nL,0,2,0\n"), 0, SLOTS, &told));
    HOLDS(told == 3);
    REFUSED(5, perillabeam_open(words, WORDS - 1, CHART, 0, SLOTS, &told));
    HOLDS(told == 0);
    HOLDS(!perillabeam_is_sound(words, WORDS));
    DONE(perillabeam_open(words, WORDS, CHART, PERILLABEAM_FORWARD, SLOTS, &told));
    HOLDS(told == 0 && perillabeam_is_sound(words, WORDS) && !perillabeam_is_sound(words, WORDS - 1));
}

/* Opens the only search of the only slot, from 0 to 2; before and after it, what is refused. */
static void initialize_all(void)
{
    static const uint32_t many[65] = {9};
    static const uint32_t vertex[4] = {0, 1, 2, 9};
    words[0] = 2;
    REFUSED(7, perillabeam_initialize(words, WORDS, many, 65, vertex, 1, record, 389));
    words[0] = 0;
    REFUSED(8, perillabeam_initialize(words, WORDS, many, 65, vertex, 1, record, 389));
    REFUSED(4, perillabeam_initialize(words, WORDS, many, 65, vertex, 1, record, RECORD));
    REFUSED(4, perillabeam_initialize(words, WORDS, vertex, 1, many, 65, record, RECORD));
    DONE(perillabeam_initialize(words, WORDS, vertex, 1, vertex + 2, 1, record, RECORD));
    HOLDS(record[1] == 1 && record[2] == 1 && record[6] == 2 && record[390] == MARK && record[391] == MARK);
    REFUSED(3, perillabeam_initialize(words, WORDS, vertex + 1, 3, vertex, 1, record, RECORD));
    REFUSED(3, perillabeam_initialize(words, WORDS, vertex, 1, vertex, 4, record, RECORD));
    REFUSED(6, perillabeam_initialize(words, WORDS, vertex, 2, vertex, 1, record, RECORD));
}

static void plan_all(void)
{
    static const uint32_t many[65] = {9};
    static const uint32_t vertex[4] = {0, 1, 2, 9};
    words[0] = 2;
    REFUSED(7, perillabeam_plan(words, WORDS, many, 65, vertex, 1, path, PATH, record, 389, &answer));
    judge_no_answer();
    words[0] = 0;
    REFUSED(8, perillabeam_plan(words, WORDS, many, 65, vertex, 1, path, PATH, record, 389, &answer));
    judge_no_answer();
    REFUSED(4, perillabeam_plan(words, WORDS, many, 65, vertex, 1, path, PATH, record, RECORD, &answer));
    judge_no_answer();
    REFUSED(3, perillabeam_plan(words, WORDS, vertex + 1, 3, vertex, 1, path, PATH, record, RECORD, &answer));
    judge_no_answer();
    REFUSED(6, perillabeam_plan(words, WORDS, vertex, 2, vertex, 1, path, PATH, record, RECORD, &answer));
    judge_no_answer();
}

/* The record is that of the search, but for one word, by which it is none of the cache. */
static void strange_record(size_t at, uint32_t word)
{
    uint32_t was = record[at];
    record[at] = word;
    words[0] = 2;
    REFUSED(7, perillabeam_step(words, WORDS, record, RECORD, &answer));
    judge_no_answer();
    REFUSED(7, perillabeam_solve(words, WORDS, record, RECORD, 9, &answer));
    judge_no_answer();
    REFUSED(7, perillabeam_retrace(words, WORDS, record, RECORD, path, 0, &told));
    HOLDS(told == 0);
    words[0] = 0;
    REFUSED(8, perillabeam_step(words, WORDS, record, RECORD, &answer));
    judge_no_answer();
    REFUSED(8, perillabeam_solve(words, WORDS, record, RECORD, 9, &answer));
    judge_no_answer();
    REFUSED(8, perillabeam_solve(words, WORDS, record, RECORD, 0, &answer));
    judge_no_answer();
    REFUSED(8, perillabeam_retrace(words, WORDS, record, RECORD, path, 0, &told));
    HOLDS(told == 0);
    record[at] = was;
}

static void short_records(void)
{
    REFUSED(8, perillabeam_step(words, WORDS, record, 389, &answer));
    judge_no_answer();
    REFUSED(8, perillabeam_solve(words, WORDS, record, 0, 1, &answer));
    judge_no_answer();
    REFUSED(8, perillabeam_retrace(words, WORDS, record, 389, path, PATH, &told));
    HOLDS(told == 0);
}

/* The search to its end. */
static void step_to_the_end(void)
{
    keep();
    DONE(perillabeam_solve(words, WORDS, record, RECORD, 0, &answer));
    HOLDS(answer.status == PERILLABEAM_INCOMPLETE && answer.waits == 0 && answer.tickets == 0);
    judge_kept("solve with 0 steps");
    REFUSED(9, perillabeam_retrace(words, WORDS, record, RECORD, path, 0, &told));
    HOLDS(told == 0);
    DONE(perillabeam_step(words, WORDS, record, RECORD, &answer));
    HOLDS(answer.status == PERILLABEAM_INCOMPLETE && answer.waits == 1 && answer.tickets == 3);
    HOLDS(answer.total_cost == 0 && answer.moves == 0 && answer.has_path == 0);
    DONE(perillabeam_solve(words, WORDS, record, RECORD, UINT32_MAX, &answer));
    HOLDS(answer.status == PERILLABEAM_SOLVED && answer.total_cost == 7 && answer.moves == 2);
    HOLDS(answer.waits == 1 && answer.tickets == 1 && answer.has_path == 0);
    HOLDS(record[0] == 1 && record[390] == MARK && record[391] == MARK);
}

static void retrace_all(void)
{
    static const uint32_t shown[PATH] = {0, 0, 1, 1, 2, MARK, MARK};
    REFUSED(10, perillabeam_retrace(words, WORDS, record, RECORD, path, PERILLABEAM_PATH_WORDS(2) - 1, &told));
    HOLDS(told == 0);
    DONE(perillabeam_retrace(words, WORDS, record, RECORD, path, PATH, &told));
    HOLDS(told == 2 && memcmp(path, shown, sizeof(shown)) == 0);
}

int main(void)
{
    make_blocks();
    ask_sizes();
    open_all();
    initialize_all();
    plan_all();
    strange_record(0, 2);   /* a finished mark is 0 or 1 */
    strange_record(1, 65);  /* more entries than there may be */
    strange_record(2, 65);  /* more goals */
    strange_record(4, 1);   /* the best's entry, where there is no best */
    strange_record(6, 4);   /* a goal that is no vertex */
    strange_record(70, 1);  /* a tree that is not in use */
    strange_record(72, 1);  /* a count, where none is remembered */
    strange_record(388, 2); /* also the last entry holds a solution or none */
    short_records();
    step_to_the_end();
    retrace_all();
    return faults == 0 ? 0 : 1;
}
