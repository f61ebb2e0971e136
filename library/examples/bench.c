/* Three decks and a desk in one process. 10,000 draws are taken one by one, with the delivery
 * written out, and once more in batches with a small log: the same messages, list and class. */
#include "tracker.h"
#include <inttypes.h>
#include <stdio.h>
#include <stdlib.h>
#include <string.h>

enum { DECKS = 3, SLOTS = 100, CODES = 1000, DRAWS = 10000, ALLOWANCE = 112500 };
static const tracker_settings settings = {DECKS, 60, 300, 500, SLOTS, CODES};

/* A bench: all records, and the memory that the settings ask for. */
enum { IN_DECKS = TRACKER_DECKS_NUMBERS(DECKS, SLOTS), IN_DESK = TRACKER_DESK_NUMBERS(CODES) };
typedef struct {
    tracker_decks decks;
    tracker_desk desk;
    uint32_t deck_memory[IN_DECKS];
    uint64_t desk_memory[IN_DESK];
} bench;
static bench single, batch;
static tracker_draw draws[DRAWS];
static tracker_message sent[ALLOWANCE], logged[ALLOWANCE];

/* Refusals that cannot come, since the numbers above are right, end the program. */
static void must(uint32_t refusal, const char *call) {
    if (refusal == TRACKER_ACCEPTED) return;
    fprintf(stderr, "%s: refused %" PRIu32 "\n", call, refusal);
    exit(1);
}

static void start(bench *b) {
    must(tracker_start_decks(&settings, &b->decks, b->deck_memory, IN_DECKS), "start decks");
    must(tracker_start_desk(&settings, &b->desk, b->desk_memory, IN_DESK), "start desk");
}

/* One draw and all messages that follow it, each handed over in the order of going out. They stay
 * in the queue, and the answer is their number. A call may zero the place after the last. */
static size_t take(bench *b, const tracker_draw *draw, tracker_message *queue) {
    size_t head, tail;
    uint32_t count;
    must(tracker_decks_draw(&settings, &b->decks, b->deck_memory, IN_DECKS, draw, queue,
                            &count), "draw");
    for (head = 0, tail = count;; head++, tail += count) {
        if (head == tail) { /* nothing waits: is there a kind 7? */
            if (b->desk.phase != TRACKER_ANNOUNCING) return tail;
            must(tracker_desk_announcement(&settings, &b->desk, b->desk_memory, IN_DESK,
                                           &queue[tail++]), "announcement");
        }
        if (TRACKER_TO_DECK(queue[head].kind))
            must(tracker_decks_message(&settings, &b->decks, b->deck_memory, IN_DECKS,
                                       &queue[head], &queue[tail], &count), "message to a deck");
        else
            must(tracker_desk_message(&settings, &b->desk, b->desk_memory, IN_DESK, &queue[head],
                                      &queue[tail], &count), "message to the desk");
    }
}

int main(void) {
    tracker_message queue[TRACKER_QUEUE_PLACES(DECKS)], log[2 * TRACKER_MOST_MESSAGES(DECKS)];
    uint32_t x = 1, tenth, refusal, codes[TRACKER_MOST_LISTED], median;
    size_t i, n, total = 0, taken = 0, written = 0, emptied = 0;
    tracker_counts counts; int64_t margin;
    for (i = 0; i < DRAWS; i++) { /* four in ten of code 42, three of code 7, the rest of any */
        x = 1664525 * x + 1013904223, tenth = (x >> 8) % 10;
        draws[i].deck = (x >> 8) % DECKS;
        draws[i].code = tenth < 4 ? 42 : tenth < 7 ? 7 : (x >> 12) % CODES;
        draws[i].volume_class = 1 + (x >> 20) % TRACKER_TOP_CLASS;
    }
    start(&single);
    for (i = 0; i < DRAWS; i++, total += n) {
        n = take(&single, &draws[i], queue);
        memcpy(sent + total, queue, n * sizeof *queue);
    }
    printf("one by one: %d draws, %zu messages\n", DRAWS, total);
    start(&batch);
    do { /* on 14 empty the log and go on at `accepted` */
        refusal = tracker_run(&settings, &batch.decks, &batch.desk, draws + taken, DRAWS - taken,
                              batch.deck_memory, IN_DECKS, batch.desk_memory, IN_DESK, log,
                              2 * TRACKER_LOG_NUMBERS(DECKS), &counts);
        memcpy(logged + written, log, counts.written * sizeof *log);
        taken += counts.accepted, written += counts.written, emptied++;
    } while (refusal == TRACKER_LOG_TOO_SHORT && counts.accepted);
    must(refusal, "run");
    printf("in batches: %zu draws, %zu messages in %zu logs\n", taken, written, emptied);
    for (i = total = 0; i < DECKS; total += batch.decks.messages[i++]) /* each deck's own */
        printf("deck %zu: %" PRIu64 " messages\n", i, batch.decks.messages[i]);
    printf("all decks: %zu messages, allowance %d\n", total, ALLOWANCE);
    n = !memcmp(sent, logged, sizeof sent) && !memcmp(&single.desk, &batch.desk, sizeof batch.desk);
    printf("the same messages and desk: %s\n", n ? "yes" : "no");
    must(tracker_desk_list(&settings, &batch.desk, batch.desk_memory, IN_DESK, codes,
                           TRACKER_MOST_LISTED, &n), "list");
    for (i = 0; i < n; i++) {
        must(tracker_desk_margin(&settings, &batch.desk, batch.desk_memory, IN_DESK, codes[i],
                                 &margin), "margin");
        printf("listed %" PRIu32 ", margin %" PRId64 "\n", codes[i], margin);
    }
    must(tracker_desk_class(&settings, &batch.desk, batch.desk_memory, IN_DESK, &median), "class");
    printf("class %" PRIu32 "\n", median);
}
