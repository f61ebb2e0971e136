/* The three calls that a bench controller makes, in C or C++. Link with libcontroller.a.
 *
 * Each call answers 0 if it accepts, or the number of the refusal. Values go out through pointers,
 * and a refusal leaves the numbers there as they were. No call keeps a pointer, allocates, or fails
 * in any other way.
 *
 * What a caller owes:
 * - A pointer to a number is never null, and is aligned as C aligns an object of its type: 4 bytes
 *   for uint32_t, 8 for uint64_t and size_t. Variables, array elements and fields of a struct that
 *   is not packed are.
 * - The bytes may stand at any address. With length 0 the pointer to them may be null.
 * - The numbers that a call hands out do not overlap one another or the bytes.
 */
#ifndef TRACKER_CONTROLLER_H
#define TRACKER_CONTROLLER_H

#include <stddef.h>
#include <stdint.h>

#ifdef __cplusplus
extern "C" {
#endif

/* Refusals of these calls. */
#define TRACKER_ACCEPTED 0
#define TRACKER_SETTING_OUT_OF_RANGE 1 /* a setting is outside its range */
#define TRACKER_SHARE_BELOW_LEEWAY 2   /* the list share p is below the leeway e */
#define TRACKER_TOO_FEW_SLOTS 3        /* slots times leeway, c x e, is below 6000 */
#define TRACKER_MALFORMED_LINE 13      /* a line is not deck;code;class and a line feed */

/* Tests settings: decks k (1 to 32), leeway e (2 to 1000), list share p (1 to 1000) and rank q (1
 * to 1000) in thousandths, slots c (1 to 3000), code space u (1 to 65536). Answers 0, 1, 2 or 3. */
uint32_t tracker_test_settings(uint32_t decks, uint32_t leeway, uint32_t share, uint32_t rank,
                               uint32_t slots, uint32_t codes);

/* The allowance, into *messages: so many draws cost at most so many messages under these settings
 * (and at most 25 each). A line of class 0 is no draw and is not counted here. Answers 0, 1, 2 or
 * 3, as the settings test does. */
uint32_t tracker_allowance(uint32_t decks, uint32_t leeway, uint32_t share, uint32_t rank,
                           uint32_t slots, uint32_t codes, uint64_t draws, uint64_t *messages);

/* Reads the first worklist line of some bytes: its deck, code and class, and how many bytes the
 * line takes with its line feed. Class 0 is read as any other: the tip touched but took nothing.
 * Answers 0 or 13. */
uint32_t tracker_test_line(const uint8_t *bytes, size_t length, uint32_t *deck, uint32_t *code,
                           uint32_t *volume_class, size_t *used);

#ifdef __cplusplus
}
#endif

#endif
