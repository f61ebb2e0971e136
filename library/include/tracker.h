/* The draw tracker: decks, desk and the messages between them, in C or C++. Link with libtracker.a,
 * which `bash library/build.sh` makes, and not with libcontroller.a beside it, which defines the
 * same names. x86-64, System V calling convention; of the C library it needs memcpy and memset.
 *
 * Up to 32 decks watch draws of reagent codes. Whenever no message is under way, the desk knows
 * which codes take at least a share p of all draws, and which volume class is their q-quantile,
 * each within a leeway e, all in thousandths.
 *
 * ANSWERS. Each call answers TRACKER_ACCEPTED (0) or a refusal: each names those that it has, in
 * the order of its tests. A refused call changes nothing that it was lent, with one exception:
 * tracker_run, which says how far it came.
 *
 * MEMORY. The caller owns every byte. No call keeps a pointer, allocates, blocks, or fails in any
 * other way. "Writes:" at a call is all that it changes, and only where it accepts. Lent memory may
 * be longer than asked for: the rest is neither read nor changed. Its length may differ from call
 * to call, as long as it is enough; what is too short is refused (4).
 *
 * RECORDS AND MEMORY ARE WRITTEN BY THESE CALLS ALONE. They may be read at any time, copied, and
 * moved to another address. What the calls left and nobody else changed is consistent to every call
 * but two: tracker_run and tracker_deliver also want a bench at rest, with the desk idle and every
 * message handed over, and say 11 where they see that it is not. Anything else is either refused
 * (11) or stepped by the same rules, never undefined.
 *
 * WHAT A CALLER OWES, and all that he owes: no number and no length is undefined, but
 * - a pointer with a length points to at least that many numbers (bytes, draws) that live through
 *   the call; with length 0 it may be null;
 * - a pointer without a length points to one object of its type (`out[2]`: two) and is not null;
 * - each is aligned as C aligns its type: 4 bytes for uint32_t, 8 for uint64_t and size_t;
 * - what a call writes overlaps nothing else that is lent to it. Two things that are `const` may
 *   overlap.
 *
 * THREADS. There is no hidden state. Calls on different decks, desks or benches may run at the same
 * time; calls on the same records or memory may not.
 *
 * COST. Every call but tracker_run tests all memory that it is lent: some c numbers at a deck, some
 * u at the desk. tracker_run tests once, when it starts: docs/INTEGRATORS.md has the figures.
 */
#ifndef TRACKER_H
#define TRACKER_H

#include <stddef.h>
#include <stdint.h>

/* The settings test, the allowance and the line test, on plain numbers. They are in libtracker.a
 * too. */
#include "controller.h"

#ifdef __cplusplus
extern "C" {
#endif

/* ---- Refusals, besides those of controller.h (0, 1, 2, 3 and 13) ---------------------------- */

#define TRACKER_MEMORY_TOO_SHORT 4     /* lent memory is shorter than the settings ask for */
#define TRACKER_UNKNOWN_DECK 5         /* a deck is not below k */
#define TRACKER_UNKNOWN_CODE 6         /* a code is not below u */
#define TRACKER_CLASS_TOO_LARGE 7      /* a class is above 1023 */
#define TRACKER_DECK_FULL 8            /* the deck has taken 1,000,000,000 draws */
#define TRACKER_MESSAGE_NOT_DUE 9      /* kind unknown, or not due now, here or from this deck */
#define TRACKER_AMOUNT_NOT_DUE 10      /* an amount of a message that cannot be right */
#define TRACKER_MEMORY_INCONSISTENT 11 /* not as the calls leave it; to some, not at rest */
#define TRACKER_LIST_TOO_SHORT 12      /* the list has fewer places than codes are listed */
#define TRACKER_LOG_TOO_SHORT 14       /* the log lacks the places of one draw's messages */
#define TRACKER_FILE_UNREADABLE 15     /* a file's length, width, offsets or phase are wrong */
#define TRACKER_CHECKSUM_WRONG 16      /* a file's bytes do not add up to its sum */

/* ---- Settings, draws and messages ------------------------------------------------------------ */

/* decks k (1 to 32), leeway e (2 to 1000), list share p (1 to 1000, at least e) and rank q (1 to
 * 1000) in thousandths, slots c (1 to 3000, c x e at least 6000), codes u (1 to 65536). Every call
 * is given the settings that the bench was started with, and tests them (1, 2, 3). */
typedef struct {
    uint32_t decks, leeway, share, rank, slots, codes;
} tracker_settings;

/* A draw: deck 0 to k - 1, code 0 to u - 1, volume class 0 to 1023. Class 0 is no draw: the tip
 * touched but took nothing. It is accepted and changes nothing. */
typedef struct {
    uint32_t deck, code, volume_class;
} tracker_draw;

/* A message: its kind (1 to 7), the deck that it comes from or goes to, and two numbers. Where a
 * place for a message holds none, all four are 0.
 *   kind  way      a                            b
 *   1     to desk  code                         amount
 *   2     to desk  amount                       class if threshold 1, else 0
 *   3     to deck  0                            0
 *   4     to desk  pending, which then is 0     0
 *   5     to deck  class                        0
 *   6     to desk  class                        draws at or below it
 *   7     to deck  threshold                    base */
typedef struct {
    uint64_t kind, deck, a, b;
} tracker_message;

/* Kinds 3, 5 and 7 go to the deck that the message names, all others to the desk. */
#define TRACKER_TO_DECK(kind) ((kind) == 3 || (kind) == 5 || (kind) == 7)

/* ---- Records: the single numbers of decks and desk, in this order ---------------------------- */

#define TRACKER_MOST_DECKS 32
#define TRACKER_MOST_SLOTS 3000
#define TRACKER_MOST_CODES 65536
#define TRACKER_TOP_CLASS 1023
#define TRACKER_CLASSES 1024

/* One deck. `forgotten` counts the draws that went, unsent, with codes that lost their slot. */
typedef struct {
    uint64_t draws, pending, threshold, slots_in_use, forgotten;
} tracker_deck;

/* All decks of a bench, those from k on unused. messages[d] counts the messages since the start
 * that name deck d, to the desk and from it. tracker_run alone adds to it, one for each message
 * that it writes to the log. One of the first k above 100,000,000,000,000 is inconsistent (11);
 * their sum, the bench's total, has no limit. Those from k on are neither tested nor changed: a
 * start and a reading set them 0. */
typedef struct {
    tracker_deck deck[TRACKER_MOST_DECKS];
    uint64_t messages[TRACKER_MOST_DECKS];
} tracker_decks;

/* The desk. Its phase: which of the four, then deck, low, high and sum, those not in use 0. */
typedef struct {
    uint64_t total, base, threshold, signals, volume_class;
    uint64_t phase, phase_deck, phase_low, phase_high, phase_sum;
} tracker_desk;

#define TRACKER_IDLE 0
#define TRACKER_COLLECTING 1
#define TRACKER_PROBING 2
#define TRACKER_ANNOUNCING 3

/* ---- How much to lend ------------------------------------------------------------------------ */

/* In numbers, of 4 bytes (decks, list) or 8 (desk, log), never in bytes. For constant settings: */
#define TRACKER_DECK_NUMBERS(slots) (4 * (size_t)(slots) + TRACKER_CLASSES)
#define TRACKER_DECKS_NUMBERS(decks, slots) ((size_t)(decks)*TRACKER_DECK_NUMBERS(slots))
#define TRACKER_DESK_NUMBERS(codes) ((size_t)(codes) + TRACKER_CLASSES)
#define TRACKER_MOST_MESSAGES(decks) (23 * (size_t)(decks) + 2) /* of one draw */
#define TRACKER_MESSAGE_NUMBERS 4
#define TRACKER_LOG_NUMBERS(decks) (TRACKER_MESSAGE_NUMBERS * TRACKER_MOST_MESSAGES(decks))
#define TRACKER_QUEUE_PLACES(decks) (TRACKER_MOST_MESSAGES(decks) + 1) /* messages: see below */
#define TRACKER_MOST_LISTED 1000 /* between draws, under any settings */

/* The same as a call, for settings that are read at run time. */
typedef struct {
    uint64_t deck_numbers;  /* uint32_t: the memory of one deck */
    uint64_t decks_numbers; /* uint32_t: of all k decks, one after another, deck 0 first */
    uint64_t desk_numbers;  /* uint64_t: the memory of the desk */
    uint64_t list_places;   /* uint32_t: with so many a list between draws never meets 12 */
    uint64_t log_numbers;   /* uint64_t: the least log with which tracker_run takes a draw */
} tracker_lengths;

/* Writes: *lengths. Refuses: 1, 2, 3. */
uint32_t tracker_test_lengths(const tracker_settings *settings, tracker_lengths *lengths);

/* ---- Starting fresh -------------------------------------------------------------------------- */

/* All decks: every number of their memory becomes 0. Writes: *decks, and of `memory` the first
 * TRACKER_DECKS_NUMBERS(k, c). Refuses: 1, 2, 3, 4. */
uint32_t tracker_start_decks(const tracker_settings *settings, tracker_decks *decks,
                             uint32_t *memory, size_t numbers);

/* Deck number `deck` alone, for a process that holds one. Writes: *record, and of `memory` the
 * first TRACKER_DECK_NUMBERS(c). Refuses: 1, 2, 3, 4, 5. */
uint32_t tracker_start_deck(const tracker_settings *settings, uint32_t deck, tracker_deck *record,
                            uint32_t *memory, size_t numbers);

/* The desk. Writes: *desk, and of `memory` the first TRACKER_DESK_NUMBERS(u). Refuses: 1, 2, 3,
 * 4. */
uint32_t tracker_start_desk(const tracker_settings *settings, tracker_desk *desk, uint64_t *memory,
                            size_t numbers);

/* ---- Draw by draw: the caller delivers ------------------------------------------------------- */

/* After an accepted draw hand over each message that came out, in the order of coming out, answers
 * included, to the deck that it names or to the desk; while nothing waits and the desk announces,
 * ask it for the next kind 7. Only then comes the next draw. A call writes its place for a message
 * also where none comes out, with zeros; so a queue whose next place is handed over for it has one
 * place more than messages: TRACKER_QUEUE_PLACES(k). */

/* A draw at deck number `deck`, with its own record and its own part of the memory. out[0] to
 * out[*count - 1] are the messages to send, two at most; the rest of `out` becomes zeros. Writes:
 * *record, memory, both of `out`, *count. Refuses: 1, 2, 3, 4, 11, 5, 6, 7, 8. */
uint32_t tracker_deck_draw(const tracker_settings *settings, uint32_t deck, tracker_deck *record,
                           uint32_t *memory, size_t numbers, uint32_t code, uint32_t volume_class,
                           tracker_message out[2], uint32_t *count);

/* A message (kind 3, 5, 7) at deck number `deck`, likewise. *count is 1 if *reply is to be sent,
 * else 0, and *reply zeros. Writes: *record, *reply, *count. Refuses: 1, 2, 3, 4, 11, 5, 9, 7,
 * 10. */
uint32_t tracker_deck_message(const tracker_settings *settings, uint32_t deck, tracker_deck *record,
                              const uint32_t *memory, size_t numbers,
                              const tracker_message *message, tracker_message *reply,
                              uint32_t *count);

/* The same where one process holds all decks: the deck is the one that draw or message names, and
 * is looked up after it was tested. 4 is tested of all decks' memory, 11 of that deck's alone.
 * Writes: that deck's record and its part of `memory`, both of `out`, *count. Refuses: 1, 2, 3, 4,
 * 5, 11, 6, 7, 8. */
uint32_t tracker_decks_draw(const tracker_settings *settings, tracker_decks *decks,
                            uint32_t *memory, size_t numbers, const tracker_draw *draw,
                            tracker_message out[2], uint32_t *count);

/* Writes: that deck's record, *reply, *count. Refuses: 1, 2, 3, 4, 5, 11, 9, 7, 10. */
uint32_t tracker_decks_message(const tracker_settings *settings, tracker_decks *decks,
                               const uint32_t *memory, size_t numbers,
                               const tracker_message *message, tracker_message *reply,
                               uint32_t *count);

/* A message (kind 1, 2, 4, 6) at the desk. *count is 1 if *out is to be sent, else 0, and *out
 * zeros. Writes: *desk, memory, *out, *count. Refuses: 1, 2, 3, 4, 11, 5, 9, 6, 7, 10. */
uint32_t tracker_desk_message(const tracker_settings *settings, tracker_desk *desk,
                              uint64_t *memory, size_t numbers, const tracker_message *message,
                              tracker_message *out, uint32_t *count);

/* The next kind 7 of a desk that announces (desk->phase is TRACKER_ANNOUNCING); 9 from any other.
 * Writes: *desk, *out. Refuses: 1, 2, 3, 4, 11, 9. */
uint32_t tracker_desk_announcement(const tracker_settings *settings, tracker_desk *desk,
                                   const uint64_t *memory, size_t numbers, tracker_message *out);

/* ---- A draw with full delivery --------------------------------------------------------------- */

typedef struct {
    uint64_t carried; /* messages that went out, each handed over once */
    uint64_t stopped; /* 0; a refusal on the way, which no record or memory that arose meets */
} tracker_delivery;

/* One draw and all that the loop above does after it. All memory is tested first, as tracker_run
 * tests it, so a bench that is not at rest is 11. Writes: *decks but for its `messages`, *desk,
 * both memories, *delivery. Refuses: 1, 2, 3, 4, 11, 5, 6, 7, 8. */
uint32_t tracker_deliver(const tracker_settings *settings, tracker_decks *decks, tracker_desk *desk,
                         uint32_t *deck_memory, size_t deck_numbers, uint64_t *desk_memory,
                         size_t desk_numbers, const tracker_draw *draw,
                         tracker_delivery *delivery);

/* ---- Many draws with full delivery ----------------------------------------------------------- */

typedef struct {
    uint64_t accepted; /* draws, those of class 0 included: go on at draws + accepted */
    uint64_t written;  /* messages, from log[0] on */
} tracker_counts;

/* Takes draws in their order, delivers everything after each, and writes each message to the log;
 * decks->messages[d] grows by those that name deck d. Stops at the first draw that is refused:
 * `counts`, records, memory and log then have what the draws before it brought. `counts` is always
 * written; 1, 2, 3, 4 and 11 come before the first draw, with 0 and 0. `log_numbers` is 4 for each
 * message that the log has a place for. On 14 take the messages out of the log and go on at
 * draws + accepted; a log of TRACKER_LOG_NUMBERS(k) numbers always takes a draw, a shorter one may
 * take none, however often it is tried. A count of messages may pass its limit within the call: the
 * next one says 11. Writes: *decks but for those from k on, *desk, both memories, the first
 * `written` of the log, *counts. Refuses: 1, 2, 3, 4, 11, 5, 6, 7, 8, 14. */
uint32_t tracker_run(const tracker_settings *settings, tracker_decks *decks, tracker_desk *desk,
                     const tracker_draw *draws, size_t count, uint32_t *deck_memory,
                     size_t deck_numbers, uint64_t *desk_memory, size_t desk_numbers,
                     tracker_message *log, size_t log_numbers, tracker_counts *counts);

/* ---- Reading the desk, between draws --------------------------------------------------------- */

/* The listed codes in rising order: codes[0] to codes[*count - 1]; the places after them stay.
 * Writes: these, *count. Refuses: 1, 2, 3, 4, 11, 12. */
uint32_t tracker_desk_list(const tracker_settings *settings, const tracker_desk *desk,
                           const uint64_t *memory, size_t numbers, uint32_t *codes, size_t places,
                           size_t *count);

/* How far a code is above the list rule (0 or more: listed, once there is a draw) or below it:
 * 2000 x its number - (2p - e) x total. Writes: *margin. Refuses: 1, 2, 3, 4, 11, 6. */
uint32_t tracker_desk_margin(const tracker_settings *settings, const tracker_desk *desk,
                             const uint64_t *memory, size_t numbers, uint32_t code,
                             int64_t *margin);

/* The tracked class, or TRACKER_NO_CLASS before the first draw. Writes: *volume_class. Refuses: 1,
 * 2, 3, 4, 11. */
#define TRACKER_NO_CLASS UINT32_MAX
uint32_t tracker_desk_class(const tracker_settings *settings, const tracker_desk *desk,
                            const uint64_t *memory, size_t numbers, uint32_t *volume_class);

/* ---- A bench in a file ----------------------------------------------------------------------- */

/* A bench is saved to bytes, from which it is read back, in another process or release, and goes on
 * exactly as one never closed, draw by draw and in the midst of a delivery too. The file has no
 * messages: what was on its way is the caller's to keep and to hand over afterwards.
 *
 * All numbers are little-endian: the settings and the desk part (the desk's memory, its record, the
 * first k of decks->messages) have 8 bytes, each deck's (memory, record) 4; then offset of the desk
 * part and of the first deck (4 bytes each), 4 for the width of a deck's numbers (2), the sum of
 * all bytes before modulo 65,536 (2). The sum finds every change of one byte; it does not find
 * bytes that changed places. An older file, with one count of messages for the bench, has the same
 * bytes where the bench has one deck, and is read; of two or more decks it is 15. */
#define TRACKER_FILE_BYTES(decks, slots, codes)            \
    (48 + 8 * ((size_t)(codes) + 1034 + (size_t)(decks)) + \
     4 * (size_t)(decks) * (4 * (size_t)(slots) + 1029) + 12)

/* The same as a call. Writes: *length. Refuses: 1, 2, 3. */
uint32_t tracker_file_length(const tracker_settings *settings, size_t *length);

/* Writes: the first TRACKER_FILE_BYTES(k, c, u) of `bytes`, and their number to *length. A bench
 * that is not at rest is saved too. 4 also where `room` is less. Refuses: 1, 2, 3, 4, 11. */
uint32_t tracker_save(const tracker_settings *settings, const tracker_decks *decks,
                      const tracker_desk *desk, const uint32_t *deck_memory, size_t deck_numbers,
                      const uint64_t *desk_memory, size_t desk_numbers, uint8_t *bytes, size_t room,
                      size_t *length);

/* The `length` bytes at `file` are the whole file: with a byte more it is 15. Settings, both
 * records and the counts of messages become the file's; those of decks from k on are as started.
 * Every test comes before the first change. An accepted file that is read and saved again has the
 * same bytes. Writes: *settings, *decks, *desk, of both memories what these settings ask for.
 * Refuses: 15 (too short, or the width unknown), 16, 1, 2, 3, 15 (offset, length or phase), 4,
 * 11. */
uint32_t tracker_load(const uint8_t *file, size_t length, tracker_settings *settings,
                      tracker_decks *decks, tracker_desk *desk, uint32_t *deck_memory,
                      size_t deck_numbers, uint64_t *desk_memory, size_t desk_numbers);

/* ---- Records as the calls see them: rows of numbers of one width ----------------------------- */

#if defined(__cplusplus) ? __cplusplus >= 201103L : __STDC_VERSION__ >= 201112L
#ifdef __cplusplus
#define TRACKER_HOLDS(type, number, count) \
    static_assert(sizeof(type) == (count) * sizeof(number), "a row of numbers")
#else
#define TRACKER_HOLDS(type, number, count) \
    _Static_assert(sizeof(type) == (count) * sizeof(number), "a row of numbers")
#endif
TRACKER_HOLDS(tracker_settings, uint32_t, 6);
TRACKER_HOLDS(tracker_draw, uint32_t, 3);
TRACKER_HOLDS(tracker_message, uint64_t, 4);
TRACKER_HOLDS(tracker_deck, uint64_t, 5);
TRACKER_HOLDS(tracker_decks, uint64_t, 192);
TRACKER_HOLDS(tracker_desk, uint64_t, 10);
TRACKER_HOLDS(tracker_lengths, uint64_t, 5);
TRACKER_HOLDS(tracker_delivery, uint64_t, 2);
TRACKER_HOLDS(tracker_counts, uint64_t, 2);
#undef TRACKER_HOLDS
#endif

#ifdef __cplusplus
}
#endif

#endif
