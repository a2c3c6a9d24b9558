/*
 * A controller of two heads. Their searches share one cache, and between two picks of the loom one of them makes a step.
 *
 *     cc -Iinclude -o controller examples/c/controller.c crates/board/out/libboard.a
 */
#include "perillabeam.h"

#include <stdio.h>

#define VERTICES 4
#define EDGES 3
#define SLOTS 4
#define HEADS 2
#define LENGTH(array) (sizeof(array) / sizeof((array)[0]))

/* The graph (01's chart). */
static const uint8_t text[] = "M,0,0\nM,1,5\nM,2,-\nM,3,-\nL,0,1,4\nL,1,2,3\nL,0,2,9\n";
static const size_t text_len = sizeof(text) - 1;

/* All memory there is: a cache for each direction, the longest path among four vertices, and a record for each head. */
static uint32_t forward[PERILLABEAM_WORDS(VERTICES, EDGES, SLOTS)];
static uint32_t backward[PERILLABEAM_WORDS(VERTICES, EDGES, SLOTS)];
static uint32_t path[PERILLABEAM_PATH_WORDS(VERTICES - 1)];

struct head {
    char name;
    uint32_t start;
    uint32_t goal;
    bool finished;
    uint32_t record[PERILLABEAM_RECORD_WORDS];
};

static struct head heads[HEADS] = {{.name = 'A', .start = 0, .goal = 2}, {.name = 'B', .start = 1, .goal = 2}};

static void print_refusal(uint32_t refusal, size_t line)
{
    if (line != 0) {
        printf("line %zu: ", line);
    }
    printf("refused %u: %s\n", (unsigned)refusal, perillabeam_refusal_text(refusal));
}

static void print_path(size_t moves)
{
    printf("path");
    for (size_t i = 0; i < PERILLABEAM_PATH_WORDS(moves); i++) {
        printf(" %u", (unsigned)path[i]);
    }
    printf("\n");
}

static void print_answer(const struct perillabeam_answer *answer)
{
    switch (answer->status) {
    case PERILLABEAM_INCOMPLETE:
        printf("incomplete, tickets %zu\n", answer->tickets);
        break;
    case PERILLABEAM_SOLVED:
        printf("solved, total cost %zu, moves %zu, tickets %zu\n", answer->total_cost, answer->moves, answer->tickets);
        break;
    default:
        printf("impossible, tickets %zu\n", answer->tickets);
        break;
    }
}

/* Opens the search of a head. */
static uint32_t begin(struct head *head)
{
    printf("head %c, from %u to %u: ", head->name, (unsigned)head->start, (unsigned)head->goal);
    uint32_t refusal = perillabeam_initialize(forward, LENGTH(forward), &head->start, 1, &head->goal, 1, head->record,
                                              LENGTH(head->record));
    if (refusal != PERILLABEAM_DONE) {
        print_refusal(refusal, 0);
    } else {
        printf("begun\n");
    }
    return refusal;
}

/* The path of a head, once its search is solved. */
static void show(const struct head *head)
{
    size_t moves;
    uint32_t refusal =
        perillabeam_retrace(forward, LENGTH(forward), head->record, LENGTH(head->record), path, LENGTH(path), &moves);
    printf("head %c: ", head->name);
    if (refusal != PERILLABEAM_DONE) {
        print_refusal(refusal, 0);
    } else {
        print_path(moves);
    }
}

/* One step of a head's search. */
static uint32_t advance(struct head *head)
{
    struct perillabeam_answer answer;
    uint32_t refusal = perillabeam_step(forward, LENGTH(forward), head->record, LENGTH(head->record), &answer);
    printf("head %c: ", head->name);
    if (refusal != PERILLABEAM_DONE) {
        print_refusal(refusal, 0);
        return refusal;
    }
    print_answer(&answer);
    head->finished = answer.status != PERILLABEAM_INCOMPLETE;
    if (answer.status == PERILLABEAM_SOLVED) {
        show(head);
    }
    return refusal;
}

static bool all_finished(void)
{
    for (size_t i = 0; i < HEADS; i++) {
        if (!heads[i].finished) {
            return false;
        }
    }
    return true;
}

/* Picks, and after each a step of the head whose turn it is. */
static uint32_t run_picks(void)
{
    for (size_t pick = 1; !all_finished(); pick++) {
        struct head *head = &heads[(pick - 1) % HEADS];
        if (head->finished) {
            continue;
        }
        printf("pick %zu, ", pick);
        uint32_t refusal = advance(head);
        if (refusal != PERILLABEAM_DONE) {
            return refusal;
        }
    }
    return PERILLABEAM_DONE;
}

/* A cache is opened; before that, a text with a fault is refused and nothing is written. */
static uint32_t open_forward(void)
{
    static const uint8_t faulty[] = "M,0,0\nM,2,5\n";
    size_t needed;
    size_t line;
    uint32_t refusal = perillabeam_words_needed(VERTICES, EDGES, SLOTS, &needed);
    printf("words needed %zu, lent %zu\n", needed, LENGTH(forward));
    if (refusal != PERILLABEAM_DONE) {
        return refusal;
    }
    refusal = perillabeam_open(forward, LENGTH(forward), faulty, sizeof(faulty) - 1, PERILLABEAM_FORWARD, SLOTS, &line);
    printf("a faulty text, ");
    print_refusal(refusal, line);
    return perillabeam_open(forward, LENGTH(forward), text, text_len, PERILLABEAM_FORWARD, SLOTS, &line);
}

/* Both heads begin. A goal that is no vertex is refused, and so is a path that is asked for too early. */
static uint32_t begin_heads(void)
{
    struct head astray = {.name = 'A', .start = 0, .goal = 9};
    begin(&astray);
    for (size_t i = 0; i < HEADS; i++) {
        uint32_t refusal = begin(&heads[i]);
        if (refusal != PERILLABEAM_DONE) {
            return refusal;
        }
    }
    show(&heads[0]);
    return PERILLABEAM_DONE;
}

static const char *sound(void)
{
    return perillabeam_is_sound(forward, LENGTH(forward)) ? "sound" : "not sound";
}

/* A word changes under the controller: every call is refused, and changes nothing, until the word is put back. */
static uint32_t damage_and_mend(void)
{
    uint32_t kept = forward[0];
    forward[0] = 2;
    printf("word 0 damaged: %s\n", sound());
    advance(&heads[0]);
    forward[0] = kept;
    printf("word 0 put back: %s\n", sound());
    return advance(&heads[0]);
}

/* A whole search by one call, with trees that grow from the goal. */
static uint32_t plan_backward(void)
{
    struct head *head = &heads[0];
    struct perillabeam_answer answer;
    size_t line;
    uint32_t refusal =
        perillabeam_open(backward, LENGTH(backward), text, text_len, PERILLABEAM_BACKWARD, SLOTS, &line);
    if (refusal != PERILLABEAM_DONE) {
        return refusal;
    }
    refusal = perillabeam_plan(backward, LENGTH(backward), &head->start, 1, &head->goal, 1, path, LENGTH(path),
                               head->record, LENGTH(head->record), &answer);
    if (refusal != PERILLABEAM_DONE) {
        return refusal;
    }
    printf("planned backward, waits %zu: ", answer.waits);
    print_answer(&answer);
    if (answer.has_path == 1) {
        print_path(answer.moves);
    }
    return refusal;
}

int main(void)
{
    uint32_t (*const parts[])(void) = {open_forward, begin_heads, run_picks, damage_and_mend, plan_backward};
    for (size_t i = 0; i < LENGTH(parts); i++) {
        uint32_t refusal = parts[i]();
        if (refusal != PERILLABEAM_DONE) {
            print_refusal(refusal, 0);
            return 1;
        }
    }
    return 0;
}
