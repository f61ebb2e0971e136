/* Links libtracker.a and tries the calls that save a bench and read it back, from C: request N3's
 * instances with request N5's counts of messages, each refusal in its order, files of the older
 * layout, and that a refused call changes nothing. Everything lent has sentinels after it. Its last
 * line counts the checks; it exits non-zero if one failed. */
#include "tracker.h"

#include <stdio.h>
#include <string.h>

static int passed = 0;
static int failed = 0;

static void check(int holds, const char *what) {
    if (holds) {
        passed++;
    } else {
        failed++;
        printf("FAILED: %s\n", what);
    }
}

/* Document 01's settings A, and memory that is exactly as long as asked for. */
enum { SLOTS = 6, CODES = 10, FILE_BYTES = TRACKER_FILE_BYTES(1, SLOTS, CODES) };
enum { IN_DECK = TRACKER_DECK_NUMBERS(SLOTS), IN_DESK = TRACKER_DESK_NUMBERS(CODES) };

static const tracker_settings settings_a = {1, 1000, 1000, 500, SLOTS, CODES};

#define SENTINEL 0xa5

/* A bench, and the bytes of a file, with sentinels between. */
typedef struct {
    tracker_settings settings;
    uint64_t after_settings;
    tracker_decks decks;
    uint64_t after_decks;
    tracker_desk desk;
    uint64_t after_desk;
    uint32_t deck_memory[IN_DECK];
    uint64_t after_deck_memory;
    uint64_t desk_memory[IN_DESK];
    uint64_t after_desk_memory;
    uint8_t bytes[FILE_BYTES];
    uint64_t after_bytes;
    size_t length;
    uint64_t after_length;
} lent;

static lent now, kept, other;

static int same(const lent *a, const lent *b) { return memcmp(a, b, sizeof *a) == 0; }

static int sentinels(const lent *l) {
    uint64_t s;
    memset(&s, SENTINEL, sizeof s);
    return l->after_settings == s && l->after_decks == s && l->after_desk == s &&
           l->after_deck_memory == s && l->after_desk_memory == s && l->after_bytes == s &&
           l->after_length == s;
}

static uint32_t save_of(lent *l, size_t in_deck, size_t in_desk, size_t room) {
    return tracker_save(&l->settings, &l->decks, &l->desk, l->deck_memory, in_deck, l->desk_memory,
                        in_desk, l->bytes, room, &l->length);
}
static uint32_t save(lent *l) { return save_of(l, IN_DECK, IN_DESK, FILE_BYTES); }

static uint32_t load_of(const uint8_t *file, size_t length, lent *l, size_t in_deck,
                        size_t in_desk) {
    return tracker_load(file, length, &l->settings, &l->decks, &l->desk, l->deck_memory, in_deck,
                        l->desk_memory, in_desk);
}
static uint32_t load(lent *l) { return load_of(now.bytes, FILE_BYTES, l, IN_DECK, IN_DESK); }

static void fresh(void) {
    memset(&now, SENTINEL, sizeof now);
    now.settings = settings_a;
    check(tracker_start_decks(&settings_a, &now.decks, now.deck_memory, IN_DECK) == 0 &&
              tracker_start_desk(&settings_a, &now.desk, now.desk_memory, IN_DESK) == 0,
          "start");
}

/* The sum of all bytes but its own two, put there: what was changed is then refused by no 16. */
static void mend_of(uint8_t *bytes, size_t length) {
    uint32_t sum = 0;
    size_t i;
    for (i = 0; i < length - 2; i++) sum += bytes[i];
    bytes[length - 2] = (uint8_t)(sum & 255);
    bytes[length - 1] = (uint8_t)(sum >> 8 & 255);
}
static void mend(void) { mend_of(now.bytes, FILE_BYTES); }

/* Changes a byte of the saved file, mends the sum, reads, and puts the file back. */
static uint32_t patched(size_t place, uint8_t byte) {
    uint8_t saved[FILE_BYTES];
    uint32_t answer;
    memcpy(saved, now.bytes, FILE_BYTES);
    now.bytes[place] = byte;
    mend();
    kept = other;
    answer = load(&other);
    check(answer == 0 || same(&other, &kept), "a refused reading changes nothing");
    memcpy(now.bytes, saved, FILE_BYTES);
    return answer;
}

static void saving_checks(void) {
    static const uint8_t last[12] = {48, 0, 0, 0, 216, 32, 0, 0, 4, 0, 10, 4};
    size_t length = 0;
    tracker_settings wrong = settings_a;
    fresh();
    check(tracker_file_length(&settings_a, &length) == 0 && length == 12632, "the length of A");
    wrong.decks = 33;
    length = 7;
    check(tracker_file_length(&wrong, &length) == 1 && length == 7, "length: 1");
    check(save(&now) == 0 && now.length == 12632 && sentinels(&now) &&
              memcmp(now.bytes + FILE_BYTES - 12, last, 12) == 0,
          "A fresh: its length and its last 12 bytes");
    memset(now.bytes, SENTINEL, sizeof now.bytes);
    kept = now;
    check(save_of(&now, IN_DECK, IN_DESK, FILE_BYTES - 1) == 4 && same(&now, &kept),
          "save: a byte too few is 4");
    check(save_of(&now, IN_DECK - 1, IN_DESK, FILE_BYTES) == 4 && same(&now, &kept),
          "save: 4 of the deck's memory");
    check(save_of(&now, IN_DECK, IN_DESK - 1, FILE_BYTES) == 4 && same(&now, &kept),
          "save: 4 of the desk's memory");
    now.desk.phase = 4;
    kept = now;
    check(save(&now) == 11 && same(&now, &kept), "save: a phase that is none is 11");
    check(save_of(&now, IN_DECK, IN_DESK, 0) == 4 && same(&now, &kept), "save: 4 before 11");
    now.settings.leeway = 1;
    kept = now;
    check(save_of(&now, 0, 0, 0) == 1 && same(&now, &kept), "save: 1 before 4");
}

static void reading_checks(void) {
    fresh();
    check(save(&now) == 0, "saved");
    memset(&other, SENTINEL, sizeof other);
    check(load(&other) == 0 && sentinels(&other) &&
              memcmp(&other.settings, &now.settings, sizeof now.settings) == 0 &&
              memcmp(&other.decks, &now.decks, sizeof now.decks) == 0 &&
              memcmp(&other.desk, &now.desk, sizeof now.desk) == 0 &&
              memcmp(other.deck_memory, now.deck_memory, sizeof now.deck_memory) == 0 &&
              memcmp(other.desk_memory, now.desk_memory, sizeof now.desk_memory) == 0,
          "read back: settings, records and memory");
    check(save(&other) == 0 && memcmp(other.bytes, now.bytes, FILE_BYTES) == 0,
          "saved again: the same bytes");
    kept = other;
    check(load_of(now.bytes, 59, &other, IN_DECK, IN_DESK) == 15 && same(&other, &kept), "15");
    check(load_of(NULL, 0, &other, IN_DECK, IN_DESK) == 15 && same(&other, &kept), "an empty file");
    now.bytes[0]++;
    check(load(&other) == 16 && same(&other, &kept), "16");
    now.bytes[FILE_BYTES - 4] = 8;
    check(load(&other) == 15 && same(&other, &kept), "15 before 16: the width");
    now.bytes[FILE_BYTES - 4] = 4;
    now.bytes[0]--;
    check(patched(0, 0) == 1, "k 0 is 1");
    check(patched(4, 1) == 1, "k 2^32 + 1 is 1");
    check(patched(17, 0) == 2, "p < e is 2");
    check(patched(32, 5) == 3, "c x e < 6000 is 3");
    check(patched(40, 11) == 15, "a length that the settings do not give is 15");
    check(patched(FILE_BYTES - 12, 49) == 15, "the desk's offset");
    check(patched(FILE_BYTES - 8, 217) == 15, "the first deck's offset");
    check(patched(48 + 8 * (IN_DESK + 5), 4) == 15, "phase 4 is 15");
    check(patched(48 + 8 * (IN_DESK + 6), 1) == 15, "a phase number that is not in use is 15");
    check(patched(48 + 8 * (IN_DESK + 2), 2) == 11, "another threshold than the base's is 11");
    check(load_of(now.bytes, FILE_BYTES, &other, IN_DECK - 1, IN_DESK) == 4 && same(&other, &kept),
          "4 of the deck's memory");
    check(load_of(now.bytes, FILE_BYTES, &other, IN_DECK, IN_DESK - 1) == 4 && same(&other, &kept),
          "4 of the desk's memory");
}

/* Closed in the midst of P2's delivery: the desk polls deck 0 and its poll is on its way. */
static void closing_checks(void) {
    static const tracker_draw seven = {0, 7, 3};
    tracker_message out[2], poll, reply, next;
    uint32_t count;
    fresh();
    check(tracker_decks_draw(&settings_a, &now.decks, now.deck_memory, IN_DECK, &seven, out,
                             &count) == 0 &&
              count == 2,
          "a draw");
    check(tracker_desk_message(&settings_a, &now.desk, now.desk_memory, IN_DESK, &out[0], &next,
                               &count) == 0 &&
              tracker_desk_message(&settings_a, &now.desk, now.desk_memory, IN_DESK, &out[1], &poll,
                                   &count) == 0 &&
              count == 1 && poll.kind == 3,
          "the desk polls");
    check(save(&now) == 0, "saved in the midst of a delivery");
    memset(&other, SENTINEL, sizeof other);
    check(load(&other) == 0 && sentinels(&other), "and read back");
    check(tracker_decks_message(&other.settings, &other.decks, other.deck_memory, IN_DECK, &poll,
                                &reply, &count) == 0 &&
              count == 1 && reply.kind == 4,
          "the poll that was kept is answered");
    check(tracker_desk_message(&other.settings, &other.desk, other.desk_memory, IN_DESK, &reply,
                               &next, &count) == 0 &&
              other.desk.phase == TRACKER_ANNOUNCING,
          "the desk goes on");
}

/* Two decks, and the bytes of their file. */
enum { TWO_BYTES = TRACKER_FILE_BYTES(2, SLOTS, CODES), IN_DECKS = 2 * IN_DECK };

typedef struct {
    tracker_settings settings;
    tracker_decks decks;
    tracker_desk desk;
    uint32_t deck_memory[IN_DECKS];
    uint64_t desk_memory[IN_DESK];
} two_decks;

static two_decks two, again, before;
static uint8_t file[TWO_BYTES];

static uint32_t save_two(void) {
    size_t length = 0;
    uint32_t answer = tracker_save(&two.settings, &two.decks, &two.desk, two.deck_memory, IN_DECKS,
                                   two.desk_memory, IN_DESK, file, TWO_BYTES, &length);
    check(answer != 0 || length == TWO_BYTES, "the length of a file of two decks");
    return answer;
}

/* Reads so many bytes of the file, which changes nothing if it is refused. */
static uint32_t load_two(size_t length) {
    uint32_t answer;
    memset(&again, SENTINEL, sizeof again);
    before = again;
    answer = tracker_load(file, length, &again.settings, &again.decks, &again.desk,
                          again.deck_memory, IN_DECKS, again.desk_memory, IN_DESK);
    check(answer == 0 || memcmp(&again, &before, sizeof again) == 0,
          "a refused file of two decks changes nothing");
    return answer;
}

/* Where the counts of messages stand, the last numbers of the desk part, and the first deck. */
enum { COUNTS = 48 + 8 * (IN_DESK + 10), FIRST_DECK = COUNTS + 16 };
#define MOST_COUNTED UINT64_C(100000000000000)

static uint64_t number_at(size_t place, size_t bytes) {
    uint64_t number = 0;
    while (bytes > 0) number = number << 8 | file[place + --bytes];
    return number;
}

static void count_checks(void) {
    static const tracker_settings settings = {2, 1000, 1000, 500, SLOTS, CODES};
    static const tracker_draw draws[3] = {{0, 7, 3}, {1, 7, 3}, {1, 7, 3}};
    static tracker_message log[3 * TRACKER_MOST_MESSAGES(2)];
    tracker_counts counts;
    size_t i;
    memset(&two, 0, sizeof two);
    two.settings = settings;
    check(tracker_start_decks(&settings, &two.decks, two.deck_memory, IN_DECKS) == 0 &&
              tracker_start_desk(&settings, &two.desk, two.desk_memory, IN_DESK) == 0 &&
              tracker_run(&settings, &two.decks, &two.desk, draws, 3, two.deck_memory, IN_DECKS,
                          two.desk_memory, IN_DESK, log, 3 * TRACKER_LOG_NUMBERS(2), &counts) == 0,
          "two decks that have drawn");
    /* Those of decks that the bench has not are neither tested nor saved, and come back 0. */
    for (i = 2; i < TRACKER_MOST_DECKS; i++) two.decks.messages[i] = UINT64_MAX;
    check(save_two() == 0 && TWO_BYTES == 16852 && number_at(COUNTS, 8) == 5 &&
              number_at(COUNTS + 8, 8) == 7 && number_at(TWO_BYTES - 8, 4) == FIRST_DECK,
          "the counts end the desk part");
    for (i = 2; i < TRACKER_MOST_DECKS; i++) two.decks.messages[i] = 0;
    check(load_two(TWO_BYTES) == 0 && memcmp(&again, &two, sizeof two) == 0, "read back");
    for (i = 0; i < 2; i++) {
        two.decks.messages[0] = two.decks.messages[1] = MOST_COUNTED;
        check(save_two() == 0 && load_two(TWO_BYTES) == 0 &&
                  again.decks.messages[i] == MOST_COUNTED,
              "all counts at the limit");
        file[COUNTS + 8 * i]++;
        mend_of(file, TWO_BYTES);
        check(load_two(TWO_BYTES) == 11, "reading: one above the limit is 11");
        two.decks.messages[i]++;
        check(save_two() == 11, "saving: one above the limit is 11");
    }
    /* The older layout: one count, so that the first deck stands 8 bytes before its place. */
    two.decks.messages[0] = 5;
    two.decks.messages[1] = 7;
    check(save_two() == 0, "saved");
    file[COUNTS] = 12;
    memmove(file + COUNTS + 8, file + FIRST_DECK, TWO_BYTES - FIRST_DECK);
    mend_of(file, TWO_BYTES - 8);
    check(load_two(TWO_BYTES - 8) == 15, "another length than the settings give is 15");
    file[TWO_BYTES - 16] = (uint8_t)((FIRST_DECK - 8) & 255);
    file[TWO_BYTES - 15] = (uint8_t)((FIRST_DECK - 8) >> 8);
    mend_of(file, TWO_BYTES - 8);
    check(load_two(TWO_BYTES - 8) == 15, "an older file of two decks is 15");
}

int main(void) {
    saving_checks();
    reading_checks();
    closing_checks();
    count_checks();
    printf("%d passed, %d failed\n", passed, failed);
    return failed != 0;
}
