/* Links libtracker.a and tries every call of tracker.h from C: document 01's instances P1 to P5, P8
 * and P9, each refusal of each call in its order, and that a refused call changes nothing. Every
 * record, every memory and every number that is handed out has sentinels before and after it. Its
 * last line counts the checks; it exits non-zero if one failed. */
#include "tracker.h"

#include <stdio.h>
#include <string.h>

static int passed = 0;
static int failed = 0;

static void check(int holds, const char *what) {
    if (holds) {
        passed++;
    } else {
        failed++;
        printf("FAILED: %s\n", what);
    }
}

/* Two decks of six slots and ten codes: memory that is exactly as long as asked for. */
enum { DECKS = 2, SLOTS = 6, CODES = 10, DRAW_MESSAGES = 23 * DECKS + 2 };
enum { IN_DECK = TRACKER_DECK_NUMBERS(SLOTS), IN_DECKS = TRACKER_DECKS_NUMBERS(DECKS, SLOTS) };
enum { IN_DESK = TRACKER_DESK_NUMBERS(CODES), IN_LOG = TRACKER_LOG_NUMBERS(DECKS) };

static const tracker_settings two_decks = {DECKS, 1000, 1000, 500, SLOTS, CODES};
/* Document 01's settings A: one deck. */
static const tracker_settings settings_a = {1, 1000, 1000, 500, SLOTS, CODES};

#define SENTINEL 0xa5

/* All that calls are lent, with sentinels between. */
typedef struct {
    uint64_t before;
    tracker_decks decks;
    uint64_t after_decks;
    tracker_deck deck;
    uint64_t after_deck;
    tracker_desk desk;
    uint64_t after_desk;
    uint32_t deck_memory[IN_DECKS];
    uint64_t after_deck_memory;
    uint64_t desk_memory[IN_DESK];
    uint64_t after_desk_memory;
    tracker_message log[DRAW_MESSAGES];
    uint64_t after_log;
    tracker_message out[2];
    uint64_t after_out;
    uint32_t codes[3];
    uint32_t count;
    uint32_t volume_class;
    uint32_t after_count;
    size_t listed;
    uint64_t after_listed;
    int64_t margin;
    uint64_t after_margin;
    tracker_lengths lengths;
    uint64_t after_lengths;
    tracker_delivery delivery;
    uint64_t after_delivery;
    tracker_counts counts;
    uint64_t after_counts;
} lent;

static lent now, kept;

static void fill(lent *l) { memset(l, SENTINEL, sizeof *l); }

/* Whether no byte is another than it was when `kept` was set. */
static int unchanged(void) { return memcmp(&now, &kept, sizeof now) == 0; }

/* Whether the places between what is lent still hold what fill() put there. */
static int sentinels(void) {
    lent fresh;
    fill(&fresh);
    return now.before == fresh.before && now.after_decks == fresh.before &&
           now.after_deck == fresh.before && now.after_desk == fresh.before &&
           now.after_deck_memory == fresh.before && now.after_desk_memory == fresh.before &&
           now.after_log == fresh.before && now.after_out == fresh.before &&
           now.after_count == fresh.after_count && now.after_listed == fresh.before &&
           now.after_margin == fresh.before && now.after_lengths == fresh.before &&
           now.after_delivery == fresh.before && now.after_counts == fresh.before;
}

static int all_zero(const void *from, size_t length) {
    const unsigned char *bytes = (const unsigned char *)from;
    size_t i;
    for (i = 0; i < length; i++) {
        if (bytes[i] != 0) return 0;
    }
    return 1;
}

/* The largest count of messages that passes. */
#define MOST_COUNTED UINT64_C(100000000000000)

static int no_messages(void) { return all_zero(now.decks.messages, sizeof now.decks.messages); }

static int is_message(const tracker_message *m, uint64_t kind, uint64_t deck, uint64_t a,
                      uint64_t b) {
    return m->kind == kind && m->deck == deck && m->a == a && m->b == b;
}

static tracker_message message(uint64_t kind, uint64_t deck, uint64_t a, uint64_t b) {
    tracker_message m;
    m.kind = kind;
    m.deck = deck;
    m.a = a;
    m.b = b;
    return m;
}

static tracker_draw draw(uint32_t deck, uint32_t code, uint32_t volume_class) {
    tracker_draw d;
    d.deck = deck;
    d.code = code;
    d.volume_class = volume_class;
    return d;
}

/* ---- The calls on `now`, in short ------------------------------------------------------------ */

static const tracker_settings *under = &two_decks;
static size_t in_decks = IN_DECKS, in_deck = IN_DECK, in_desk = IN_DESK, in_log = IN_LOG;

static uint32_t lengths(void) { return tracker_test_lengths(under, &now.lengths); }
static uint32_t start_decks(void) {
    return tracker_start_decks(under, &now.decks, now.deck_memory, in_decks);
}
static uint32_t start_deck(uint32_t deck) {
    return tracker_start_deck(under, deck, &now.deck, now.deck_memory, in_deck);
}
static uint32_t start_desk(void) {
    return tracker_start_desk(under, &now.desk, now.desk_memory, in_desk);
}
static uint32_t deck_draw(uint32_t deck, uint32_t code, uint32_t volume_class) {
    return tracker_deck_draw(under, deck, &now.deck, now.deck_memory, in_deck, code, volume_class,
                             now.out, &now.count);
}
static uint32_t deck_message(uint32_t deck, tracker_message m) {
    return tracker_deck_message(under, deck, &now.deck, now.deck_memory, in_deck, &m, &now.out[0],
                                &now.count);
}
static uint32_t decks_draw(tracker_draw d) {
    return tracker_decks_draw(under, &now.decks, now.deck_memory, in_decks, &d, now.out,
                              &now.count);
}
static uint32_t decks_message(tracker_message m) {
    return tracker_decks_message(under, &now.decks, now.deck_memory, in_decks, &m, &now.out[0],
                                 &now.count);
}
static uint32_t desk_message(tracker_message m) {
    return tracker_desk_message(under, &now.desk, now.desk_memory, in_desk, &m, &now.out[0],
                                &now.count);
}
static uint32_t announcement(void) {
    return tracker_desk_announcement(under, &now.desk, now.desk_memory, in_desk, &now.out[0]);
}
static uint32_t deliver(tracker_draw d) {
    return tracker_deliver(under, &now.decks, &now.desk, now.deck_memory, in_decks,
                           now.desk_memory, in_desk, &d, &now.delivery);
}
static uint32_t run(const tracker_draw *draws, size_t count) {
    return tracker_run(under, &now.decks, &now.desk, draws, count, now.deck_memory, in_decks,
                       now.desk_memory, in_desk, now.log, in_log, &now.counts);
}
static uint32_t list(size_t places) {
    return tracker_desk_list(under, &now.desk, now.desk_memory, in_desk, now.codes, places,
                             &now.listed);
}
static uint32_t margin(uint32_t code) {
    return tracker_desk_margin(under, &now.desk, now.desk_memory, in_desk, code, &now.margin);
}
static uint32_t volume_class(void) {
    return tracker_desk_class(under, &now.desk, now.desk_memory, in_desk, &now.volume_class);
}

/* A bench started fresh over memory that held something else. */
static void fresh(const tracker_settings *settings) {
    fill(&now);
    under = settings;
    in_decks = settings == &settings_a ? IN_DECK : IN_DECKS;
    in_deck = IN_DECK;
    in_desk = IN_DESK;
    in_log = IN_LOG;
    check(start_decks() == 0 && start_desk() == 0 && sentinels(), "a fresh start");
}

/* A refused call: this number, and nothing changed. */
#define REFUSED(number, call, what)                       \
    do {                                                  \
        kept = now;                                       \
        check((call) == (number) && unchanged(), what);   \
    } while (0)

/* ---- How much to lend, and starting ---------------------------------------------------------- */

static void lengths_checks(void) {
    static const tracker_settings most = {32, 2, 2, 1, 3000, 65536};
    fresh(&two_decks);
    check(lengths() == 0 && sentinels(), "lengths");
    check(now.lengths.deck_numbers == IN_DECK && now.lengths.decks_numbers == IN_DECKS &&
              now.lengths.desk_numbers == IN_DESK && now.lengths.list_places == 3 &&
              now.lengths.log_numbers == IN_LOG,
          "lengths as the macros have them");
    under = &most;
    check(lengths() == 0 && now.lengths.decks_numbers == TRACKER_DECKS_NUMBERS(32, 3000) &&
              now.lengths.desk_numbers == 66560 &&
              now.lengths.list_places <= TRACKER_MOST_LISTED &&
              now.lengths.log_numbers == 4 * 738,
          "the largest lengths");
}

static void start_checks(void) {
    size_t i;
    int right = 1;
    fresh(&two_decks);
    check(all_zero(now.deck_memory, sizeof now.deck_memory) &&
              all_zero(now.desk_memory, sizeof now.desk_memory),
          "memory is zeros after a start");
    for (i = 0; i < TRACKER_MOST_DECKS; i++) {
        tracker_deck *deck = &now.decks.deck[i];
        right = right && deck->draws == 0 && deck->pending == 0 && deck->threshold == 1 &&
                deck->slots_in_use == 0 && deck->forgotten == 0;
    }
    check(right && no_messages(), "all 32 records are fresh, and no message is counted");
    check(now.desk.total == 0 && now.desk.base == 0 && now.desk.threshold == 1 &&
              now.desk.signals == 0 && now.desk.volume_class == 0 &&
              all_zero(&now.desk.phase, 5 * sizeof(uint64_t)),
          "the desk's record is fresh");
    fill(&now);
    check(start_deck(1) == 0 && sentinels() && all_zero(now.deck_memory, IN_DECK * 4) &&
              now.deck.threshold == 1 && now.deck.draws == 0 && now.deck_memory[IN_DECK] != 0,
          "one deck alone");
    REFUSED(5, start_deck(2), "a deck that there is none of");
    REFUSED(5, start_deck(UINT32_MAX), "a deck far above");
    in_deck--;
    REFUSED(4, start_deck(2), "one deck's memory is one short, before 5");
    in_decks--;
    REFUSED(4, start_decks(), "decks' memory is one short");
    in_desk--;
    REFUSED(4, start_desk(), "the desk's memory is one short");
}

/* Settings are tested by every call, before anything else: pointers with length 0 may be null. */
static void settings_checks(void) {
    static const tracker_settings wrong[3] = {
        {33, 1000, 1000, 500, SLOTS, CODES},
        {DECKS, 1000, 999, 500, SLOTS, CODES},
        {DECKS, 1000, 1000, 500, 5, CODES},
    };
    tracker_draw d = draw(9, 99, 9999);
    tracker_message m = message(99, 99, 99, 99);
    uint32_t number;
    fresh(&two_decks);
    for (number = 1; number <= 3; number++) {
        const tracker_settings *s = under = &wrong[number - 1];
        REFUSED(number, lengths(), "lengths: settings");
        REFUSED(number, tracker_start_decks(s, &now.decks, NULL, 0), "start decks: settings");
        REFUSED(number, tracker_start_deck(s, 9, &now.deck, NULL, 0), "start deck: settings");
        REFUSED(number, tracker_start_desk(s, &now.desk, NULL, 0), "start desk: settings");
        REFUSED(number,
                tracker_deck_draw(s, 9, &now.deck, NULL, 0, 99, 9999, now.out, &now.count),
                "a deck's draw: settings");
        REFUSED(number,
                tracker_deck_message(s, 9, &now.deck, NULL, 0, &m, &now.out[0], &now.count),
                "a deck's message: settings");
        REFUSED(number, tracker_decks_draw(s, &now.decks, NULL, 0, &d, now.out, &now.count),
                "a draw: settings");
        REFUSED(number,
                tracker_decks_message(s, &now.decks, NULL, 0, &m, &now.out[0], &now.count),
                "a message to a deck: settings");
        REFUSED(number,
                tracker_desk_message(s, &now.desk, NULL, 0, &m, &now.out[0], &now.count),
                "a message to the desk: settings");
        REFUSED(number, tracker_desk_announcement(s, &now.desk, NULL, 0, &now.out[0]),
                "announcement: settings");
        REFUSED(number,
                tracker_deliver(s, &now.decks, &now.desk, NULL, 0, NULL, 0, &d, &now.delivery),
                "deliver: settings");
        REFUSED(number, tracker_desk_list(s, &now.desk, NULL, 0, NULL, 0, &now.listed),
                "list: settings");
        REFUSED(number, tracker_desk_margin(s, &now.desk, NULL, 0, 99, &now.margin),
                "margin: settings");
        REFUSED(number, tracker_desk_class(s, &now.desk, NULL, 0, &now.volume_class),
                "class: settings");
        kept = now;
        kept.counts.accepted = kept.counts.written = 0;
        check(tracker_run(s, &now.decks, &now.desk, NULL, 0, NULL, 0, NULL, 0, NULL, 0,
                          &now.counts) == number && unchanged(),
              "run: settings; its counts alone are written");
    }
}

/* ---- One deck -------------------------------------------------------------------------------- */

static void deck_checks(void) {
    fresh(&two_decks);
    check(start_deck(1) == 0, "deck 1 starts");
    check(deck_draw(1, 7, 3) == 0 && now.count == 2 && is_message(&now.out[0], 1, 1, 7, 1) &&
              is_message(&now.out[1], 2, 1, 1, 3) && sentinels(),
          "a draw at deck 1 sends two messages");
    check(now.deck.draws == 1 && now.deck.pending == 0 && now.deck.slots_in_use == 1,
          "deck 1 after it");
    check(deck_message(1, message(3, 1, 0, 0)) == 0 && now.count == 1 &&
              is_message(&now.out[0], 4, 1, 0, 0) && sentinels(),
          "kind 3 is answered");
    check(deck_message(1, message(5, 1, 3, 0)) == 0 && now.count == 1 &&
              is_message(&now.out[0], 6, 1, 3, 1),
          "kind 5 is answered");
    check(deck_message(1, message(7, 1, 2, 99)) == 0 && now.count == 0 &&
              is_message(&now.out[0], 0, 0, 0, 0) && now.deck.threshold == 2 && sentinels(),
          "kind 7 is not answered");
    kept = now;
    check(deck_draw(1, 7, 0) == 0 && now.count == 0 && all_zero(now.out, sizeof now.out),
          "class 0 sends nothing");
    check(memcmp(&now.deck, &kept.deck, sizeof now.deck) == 0 &&
              memcmp(now.deck_memory, kept.deck_memory, sizeof now.deck_memory) == 0,
          "class 0 changes nothing");
    check(deck_draw(1, 7, 4) == 0 && now.count == 0 && all_zero(now.out, sizeof now.out) &&
              now.deck.pending == 1 && sentinels(),
          "a draw below the threshold sends nothing");
    REFUSED(5, deck_draw(2, 10, 1024), "a deck's draw: 5 before 6 and 7");
    REFUSED(6, deck_draw(1, 10, 1024), "a deck's draw: 6 before 7");
    REFUSED(7, deck_draw(1, 7, 1024), "a deck's draw: 7");
    REFUSED(5, deck_message(2, message(3, 1, 0, 0)), "a deck's own number is 5");
    REFUSED(5, deck_message(1, message(0, 2, 0, 0)), "a deck's message: 5 before 9");
    REFUSED(5, deck_message(1, message(3, UINT64_C(1) << 32, 0, 0)), "a wide deck");
    REFUSED(9, deck_message(1, message(3, 0, 0, 0)), "a message for another deck");
    REFUSED(9, deck_message(1, message(1, 1, 7, 2)), "a kind that goes to the desk");
    REFUSED(9, deck_message(1, message((UINT64_C(1) << 32) + 3, 1, 0, 0)), "a wide kind");
    REFUSED(7, deck_message(1, message(5, 1, 1024, 1)), "a deck's message: 7 before 10");
    REFUSED(10, deck_message(1, message(5, 1, 3, 1)), "kind 5 with another b");
    REFUSED(10, deck_message(1, message(3, 1, 1, 0)), "kind 3 with an a");
    REFUSED(10, deck_message(1, message(7, 1, 1, 0)), "kind 7 below the threshold");
    REFUSED(10, deck_message(1, message(7, 1, 1000000001, 0)), "kind 7 too large");
    now.deck.forgotten = 99;
    REFUSED(11, deck_draw(2, 10, 1024), "a deck's draw: 11 before 5");
    REFUSED(11, deck_message(2, message(9, 9, 9, 9)), "a deck's message: 11 before 5");
    in_deck--;
    REFUSED(4, deck_draw(2, 10, 1024), "a deck's draw: 4 before 11");
    REFUSED(4, deck_message(2, message(9, 9, 9, 9)), "a deck's message: 4 before 11");
    /* A deck with all the draws that it may take. */
    fresh(&two_decks);
    check(start_deck(0) == 0, "deck 0 starts");
    now.deck.draws = now.deck_memory[4 * SLOTS + 3] = 1000000000;
    REFUSED(8, deck_draw(0, 7, 3), "a full deck");
    check(deck_draw(0, 7, 0) == 0 && now.count == 0, "class 0 at a full deck");
}

/* ---- All decks and the desk, draw by draw ---------------------------------------------------- */

/* A draw with its delivery; how many messages there were, or 0 where one was refused. */
static size_t take(tracker_draw d) {
    tracker_message queue[DRAW_MESSAGES + 1];
    size_t head, tail;
    uint32_t refusal = decks_draw(d);
    for (tail = 0; tail < now.count; tail++) queue[tail] = now.out[tail];
    for (head = 0; refusal == 0; head++) {
        if (head == tail) {
            if (now.desk.phase != TRACKER_ANNOUNCING) return tail;
            refusal = announcement();
            if (refusal != 0) break;
            queue[tail++] = now.out[0];
        }
        refusal = TRACKER_TO_DECK(queue[head].kind) ? decks_message(queue[head])
                                                    : desk_message(queue[head]);
        if (refusal == 0 && now.count == 1) queue[tail++] = now.out[0];
    }
    printf("take: refused %u\n", (unsigned)refusal);
    return 0;
}

static void decks_checks(void) {
    fresh(&two_decks);
    check(decks_draw(draw(1, 7, 3)) == 0 && now.count == 2 &&
              is_message(&now.out[0], 1, 1, 7, 1) && is_message(&now.out[1], 2, 1, 1, 3) &&
              sentinels(),
          "a draw at deck 1 of the bench");
    check(now.decks.deck[1].draws == 1 && now.decks.deck[0].draws == 0 &&
              all_zero(now.deck_memory, IN_DECK * 4),
          "deck 0 is as it was");
    check(decks_message(message(5, 1, 1023, 0)) == 0 && now.count == 1 &&
              is_message(&now.out[0], 6, 1, 1023, 1) && sentinels(),
          "a message at deck 1 of the bench");
    REFUSED(5, decks_draw(draw(2, 10, 1024)), "a draw: 5 before 6 and 7");
    REFUSED(5, decks_draw(draw(32, 7, 3)), "a draw at deck 32");
    REFUSED(5, decks_draw(draw(UINT32_MAX, 7, 3)), "a draw at a deck far above");
    REFUSED(6, decks_draw(draw(1, 10, 1024)), "a draw: 6 before 7");
    REFUSED(7, decks_draw(draw(1, 7, 1024)), "a draw: 7");
    REFUSED(5, decks_message(message(0, 2, 0, 0)), "a message to a deck: 5 before 9");
    REFUSED(5, decks_message(message(3, UINT64_C(1) << 32, 0, 0)), "a wide deck in the bench");
    REFUSED(9, decks_message(message(2, 1, 0, 0)), "a message to a deck: 9");
    REFUSED(9, decks_message(message(UINT64_MAX, 1, 0, 0)), "a wide kind in the bench");
    REFUSED(7, decks_message(message(5, 1, 1024, 1)), "a message to a deck: 7 before 10");
    REFUSED(10, decks_message(message(3, 1, 0, 1)), "a message to a deck: 10");
    now.decks.deck[0].pending = 9;
    check(decks_message(message(3, 1, 0, 0)) == 0, "11 is tested of the named deck alone");
    REFUSED(11, decks_draw(draw(0, 10, 1024)), "a draw: 11 before 6");
    /* Records from k on are not looked at, whatever they hold. */
    now.decks.deck[2].threshold = now.decks.deck[31].threshold = 0;
    REFUSED(5, decks_draw(draw(2, 7, 3)), "a draw: 5 before 11");
    REFUSED(5, decks_draw(draw(31, 7, 3)), "a draw at deck 31: 5 before 11");
    REFUSED(5, decks_message(message(3, 2, 0, 0)), "a message to a deck: 5 before 11");
    REFUSED(11, decks_message(message(2, 0, 0, 0)), "a message to a deck: 11 before 9");
    in_decks--;
    REFUSED(4, decks_draw(draw(2, 10, 1024)), "a draw: 4 before 5");
    REFUSED(4, decks_message(message(9, 9, 9, 9)), "a message to a deck: 4 before 5");
}

static void desk_checks(void) {
    static const uint64_t wide = UINT64_C(1) << 32;
    uint64_t *numbers = &now.desk.total;
    size_t place;
    fresh(&settings_a);
    REFUSED(9, announcement(), "an idle desk announces nothing");
    REFUSED(5, desk_message(message(0, 1, 0, 0)), "a message to the desk: 5 before 9");
    REFUSED(5, desk_message(message(1, wide, 7, 1)), "a wide deck to the desk");
    REFUSED(9, desk_message(message(3, 0, 0, 0)), "a kind that goes to a deck");
    REFUSED(9, desk_message(message(4, 0, 0, 0)), "kind 4 to an idle desk");
    REFUSED(9, desk_message(message(wide + 1, 0, 7, 1)), "a wide kind to the desk");
    REFUSED(6, desk_message(message(1, 0, 10, 9)), "a message to the desk: 6 before 10");
    REFUSED(10, desk_message(message(1, 0, 7, 2)), "a message to the desk: 10");
    REFUSED(7, desk_message(message(2, 0, 9, 1024)), "a message to the desk: 7 before 10");
    check(desk_message(message(1, 0, 7, 1)) == 0 && now.count == 0 &&
              all_zero(&now.out[0], sizeof now.out[0]) && sentinels() && now.desk_memory[7] == 1,
          "kind 1 is taken");
    check(desk_message(message(2, 0, 1, 3)) == 0 && now.count == 1 &&
              is_message(&now.out[0], 3, 0, 0, 0) && sentinels() &&
              now.desk.phase == TRACKER_COLLECTING,
          "kind 2 closes the round");
    check(desk_message(message(4, 0, 0, 0)) == 0 && now.count == 0 &&
              now.desk.phase == TRACKER_ANNOUNCING,
          "kind 4 ends the poll");
    check(announcement() == 0 && is_message(&now.out[0], 7, 0, 1, 1) && sentinels() &&
              now.desk.phase == TRACKER_IDLE,
          "the announcement");
    for (place = 3; place < 10; place++) {
        fresh(&settings_a);
        numbers[place] = place == 5 ? 4 : wide;
        REFUSED(11, desk_message(message(9, 9, 9, 9)), "a malformed desk: message");
        REFUSED(11, announcement(), "a malformed desk: announcement");
        REFUSED(11, deliver(draw(9, 9, 9)), "a malformed desk: deliver");
        REFUSED(11, list(0), "a malformed desk: list");
        REFUSED(11, margin(99), "a malformed desk: margin");
        REFUSED(11, volume_class(), "a malformed desk: class");
        kept = now;
        kept.counts.accepted = kept.counts.written = 0;
        check(run(NULL, 0) == 11 && unchanged(), "a malformed desk: run");
        in_desk--;
        REFUSED(4, desk_message(message(9, 9, 9, 9)), "the desk's message: 4 before 11");
        REFUSED(4, announcement(), "announcement: 4 before 11");
        REFUSED(4, deliver(draw(9, 9, 9)), "deliver: 4 before 11");
        REFUSED(4, list(0), "list: 4 before 11");
        REFUSED(4, margin(99), "margin: 4 before 11");
        REFUSED(4, volume_class(), "class: 4 before 11");
    }
}

/* P1 to P5, P8 and P9 draw by draw. */
static void instance_checks(void) {
    static const tracker_settings rank_501 = {1, 1000, 1000, 501, SLOTS, CODES};
    size_t i, each = 0;
    fresh(&settings_a);
    check(list(0) == 0 && now.listed == 0 && sentinels(), "P1: nothing is listed");
    check(volume_class() == 0 && now.volume_class == TRACKER_NO_CLASS && sentinels(), "P1: none");
    check(take(draw(0, 7, 3)) == 5, "P2: five messages");
    check(list(3) == 0 && now.listed == 1 && now.codes[0] == 7 &&
              now.codes[1] == UINT32_C(0xa5a5a5a5) && now.codes[2] == UINT32_C(0xa5a5a5a5),
          "P2: 7 is listed, and places after it stay");
    REFUSED(12, list(0), "a list without places");
    check(volume_class() == 0 && now.volume_class == 3, "P2: class 3");
    check(margin(7) == 0 && now.margin == 1000 && sentinels(), "P8: the margin of 7");
    check(margin(8) == 0 && now.margin == -1000, "P8: the margin of 8");
    REFUSED(6, margin(10), "the margin of a code that there is none of");
    for (i = 0; i < 4; i++) each += take(draw(0, 7, 3)) == 5;
    check(each == 4 && take(draw(0, 7, 3)) == 25 && now.desk.threshold == 2, "P3");
    check(decks_draw(draw(0, 7, 3)) == 0 && now.count == 0, "P4: the seventh sends none");
    check(take(draw(0, 7, 3)) == 25 && now.desk.threshold == 2, "P4: the eighth sends 25");
    fresh(&settings_a);
    for (i = 0; i < 6; i++) each += take(draw(0, (uint32_t)i, 3)) >= 5;
    check(each == 10 && decks_draw(draw(0, 6, 3)) == 0 && now.count == 0, "P5: code 6 is silent");
    check(now.deck_memory[0] == 6 && now.deck_memory[1] == 2 && now.deck_memory[2] == 1 &&
              now.deck_memory[3] == 0,
          "P5: code 6 in the place of code 0");
    fresh(&settings_a);
    check(take(draw(0, 7, 3)) == 5 && take(draw(0, 7, 9)) == 5 && volume_class() == 0 &&
              now.volume_class == 3,
          "P9: rank 500");
    under = &rank_501;
    check(volume_class() == 0 && now.volume_class == 9, "P9: rank 501");
}

/* ---- Full delivery --------------------------------------------------------------------------- */

static void deliver_checks(void) {
    fresh(&two_decks);
    check(deliver(draw(0, 7, 3)) == 0 && now.delivery.carried == 2 && now.delivery.stopped == 0 &&
              sentinels(),
          "a draw is delivered");
    check(deliver(draw(1, 7, 3)) == 0 && now.delivery.carried == 2 + 2 * 2 + 2 && sentinels() &&
              now.desk.total == 2 && now.desk.phase == TRACKER_IDLE && no_messages(),
          "the second closes the round");
    check(deliver(draw(0, 7, 0)) == 0 && now.delivery.carried == 0 && now.delivery.stopped == 0,
          "class 0 is delivered");
    REFUSED(5, deliver(draw(2, 10, 1024)), "deliver: 5 before 6 and 7");
    REFUSED(6, deliver(draw(0, 10, 1024)), "deliver: 6 before 7");
    REFUSED(7, deliver(draw(0, 7, 1024)), "deliver: 7");
    now.decks.messages[DECKS - 1] = MOST_COUNTED + 1;
    REFUSED(11, deliver(draw(2, 10, 1024)), "deliver: 11 before 5");
    in_decks--;
    REFUSED(4, deliver(draw(2, 10, 1024)), "deliver: 4 before 11");
    /* A desk that is not at rest. */
    fresh(&settings_a);
    check(desk_message(message(1, 0, 7, 1)) == 0 && desk_message(message(2, 0, 1, 3)) == 0,
          "a desk that collects");
    REFUSED(11, deliver(draw(0, 7, 3)), "deliver: a desk that collects");
}

static void run_checks(void) {
    static lent singles;
    tracker_draw draws[20];
    size_t i, total = 0, taken = 0, logs = 0;
    uint32_t refusal;
    for (i = 0; i < 20; i++) draws[i] = draw(i % 2, i % 3 ? 7 : i % 10, 1 + 50 * i % 1023);
    fresh(&two_decks);
    for (i = 0; i < 20; i++) {
        check(deliver(draws[i]) == 0, "a single draw");
        total += now.delivery.carried;
    }
    singles = now;
    fresh(&two_decks);
    do {
        refusal = run(draws + taken, 20 - taken);
        check((refusal == 0 || refusal == 14) && sentinels(), "a batch");
        taken += now.counts.accepted;
        logs++;
    } while (refusal == 14 && logs < 100);
    check(taken == 20 && logs > 1 && now.decks.messages[0] + now.decks.messages[1] == total &&
              now.decks.messages[0] > 0 && now.decks.messages[1] > 0,
          "going on after 14");
    memset(now.decks.messages, 0, sizeof now.decks.messages);
    check(memcmp(&now.decks, &singles.decks, sizeof now.decks) == 0 &&
              memcmp(&now.desk, &singles.desk, sizeof now.desk) == 0 &&
              memcmp(now.deck_memory, singles.deck_memory, sizeof now.deck_memory) == 0 &&
              memcmp(now.desk_memory, singles.desk_memory, sizeof now.desk_memory) == 0,
          "batches leave what single draws leave");
    fresh(&settings_a);
    draws[0] = draw(0, 7, 3);
    check(run(draws, 1) == 0 && now.counts.accepted == 1 && now.counts.written == 5 &&
              is_message(&now.log[0], 1, 0, 7, 1) && is_message(&now.log[4], 7, 0, 1, 1) &&
              now.log[5].kind == UINT64_C(0xa5a5a5a5a5a5a5a5) && sentinels(),
          "P2: the log, and the places after it stay");
    /* A draw that is refused stops the run; the one before it stays. */
    draws[1] = draw(1, 10, 1024);
    check(run(draws, 2) == 5 && now.counts.accepted == 1 && now.decks.deck[0].draws == 2, "run: 5");
    draws[0] = draw(0, 10, 1024);
    kept = now;
    kept.counts.accepted = kept.counts.written = 0;
    check(run(draws, 2) == 6 && unchanged(), "run: 6 before 7");
    draws[0] = draw(0, 7, 1024);
    check(run(draws, 2) == 7 && unchanged(), "run: 7");
    draws[0] = draw(0, 7, 3);
    in_log = 4 * 25 - 1;
    check(run(draws, 1) == 14 && unchanged(), "run: a log one number short");
    draws[0].volume_class = 0;
    kept.counts.accepted = 1;
    in_log = 0;
    check(tracker_run(under, &now.decks, &now.desk, draws, 1, now.deck_memory, in_decks,
                      now.desk_memory, in_desk, NULL, 0, &now.counts) == 0 && unchanged(),
          "run: class 0 needs no log");
    kept.counts.accepted = 0;
    check(run(NULL, 0) == 0 && unchanged(), "run: no draws");
    now.decks.deck[0].threshold++;
    kept = now;
    check(run(draws, 1) == 11 && unchanged(), "run: thresholds unequal");
    in_decks--;
    check(run(draws, 1) == 4 && unchanged(), "run: 4 before 11");
}

/* ---- Counts of messages, one for each deck --------------------------------------------------- */

/* Two decks of which the second has drawn: the next draw at deck 0 closes the round, with five
 * messages of deck 0 and three of deck 1. Decks that the bench has not count whatever they held. */
static void before_a_close(void) {
    tracker_draw one = draw(1, 7, 3);
    fresh(&two_decks);
    memset(&now.decks.messages[DECKS], 0xff, sizeof now.decks.messages - DECKS * 8);
    check(run(&one, 1) == 0 && now.decks.messages[0] == 0 && now.decks.messages[1] == 2,
          "two messages of deck 1");
}

/* Whether the counts of decks that the bench has not still hold what they held. */
static int others_stay(void) {
    size_t i;
    for (i = DECKS; i < TRACKER_MOST_DECKS; i++) {
        if (now.decks.messages[i] != UINT64_MAX) return 0;
    }
    return 1;
}

static void count_checks(void) {
    tracker_draw close = draw(0, 7, 3), refused[2];
    uint64_t counted[DECKS] = {0, 2};
    size_t i, deck;
    before_a_close();
    check(run(&close, 1) == 0 && now.counts.written == 8 && sentinels(), "a close");
    for (i = 0; i < now.counts.written; i++) counted[now.log[i].deck]++;
    check(now.decks.messages[0] == 5 && now.decks.messages[1] == 5 && counted[0] == 5 &&
              counted[1] == 5 && others_stay(),
          "each message counts at the deck that it names");
    check(deliver(close) == 0 && now.delivery.carried == 2 && now.decks.messages[0] == 5 &&
              others_stay(),
          "no other call adds");
    before_a_close();
    refused[0] = close;
    refused[1] = draw(2, 7, 3);
    check(run(refused, 2) == 5 && now.counts.written == 8 && now.decks.messages[0] == 5 &&
              now.decks.messages[1] == 5,
          "what was written before a refusal counts");
    for (deck = 0; deck < DECKS; deck++) {
        const uint64_t more = deck == 0 ? 5 : 3;
        before_a_close();
        now.decks.messages[0] = now.decks.messages[1] = MOST_COUNTED;
        check(run(NULL, 0) == 0 && others_stay(), "all at the limit pass: their sum has none");
        now.decks.messages[deck]++;
        kept = now;
        kept.counts.accepted = kept.counts.written = 0;
        check(run(&close, 1) == 11 && unchanged(), "one above the limit is 11");
        REFUSED(11, deliver(close), "deliver: one above the limit is 11");
        before_a_close();
        now.decks.messages[deck] = MOST_COUNTED - more;
        check(run(&close, 1) == 0 && now.decks.messages[deck] == MOST_COUNTED &&
                  run(NULL, 0) == 0,
              "a run up to the limit");
        before_a_close();
        now.decks.messages[deck] = MOST_COUNTED - more + 1;
        check(run(&close, 1) == 0 && now.counts.accepted == 1 &&
                  now.decks.messages[deck] == MOST_COUNTED + 1,
              "a run that passes it is accepted");
        kept = now;
        kept.counts.accepted = kept.counts.written = 0;
        check(run(&close, 1) == 11 && unchanged(), "the next call is 11");
    }
}

/* Lent memory may be longer than asked for. */
static void longer_checks(void) {
    fresh(&settings_a);
    /* Under settings A the second deck's part is not asked for. */
    in_decks = IN_DECKS;
    memset(now.deck_memory + IN_DECK, SENTINEL, IN_DECK * 4);
    check(take(draw(0, 7, 3)) == 5 && deliver(draw(0, 7, 3)) == 0 && now.delivery.carried == 5,
          "draws with longer memory");
    kept = now;
    memset(kept.deck_memory + IN_DECK, SENTINEL, IN_DECK * 4);
    check(unchanged(), "the rest of longer memory stays");
}

int main(void) {
    lengths_checks();
    start_checks();
    settings_checks();
    deck_checks();
    decks_checks();
    desk_checks();
    instance_checks();
    deliver_checks();
    run_checks();
    count_checks();
    longer_checks();
    printf("%d passed, %d failed\n", passed, failed);
    return failed != 0;
}
