/* Links libcontroller.a and checks its three calls: document 01's instances P7, P10 and the line
 * instances, every refusal of settings, every sort of malformed line, and what the header says of
 * pointers: null for no bytes, bytes at any address, numbers aligned as C aligns them and no more.
 * Its last line counts the checks; it exits non-zero if one failed. */
#include "controller.h"

#include <stdalign.h>
#include <stdio.h>
#include <string.h>

static int passed = 0;
static int failed = 0;

static void check(int holds, const char *what) {
    if (holds) {
        passed++;
    } else {
        failed++;
        printf("FAILED: %s\n", what);
    }
}

/* Settings in document 01's order k, e, p, q, c, u. */
struct settings {
    uint32_t numbers[6];
};

static const struct settings settings_a = {{1, 1000, 1000, 500, 6, 10}};

static uint32_t test(struct settings s) {
    const uint32_t *n = s.numbers;
    return tracker_test_settings(n[0], n[1], n[2], n[3], n[4], n[5]);
}

static uint32_t allowance(struct settings s, uint64_t draws, uint64_t *messages) {
    const uint32_t *n = s.numbers;
    return tracker_allowance(n[0], n[1], n[2], n[3], n[4], n[5], draws, messages);
}

static struct settings with(struct settings s, int place, uint32_t number) {
    s.numbers[place] = number;
    return s;
}

/* Refused settings leave the allowance as it was. */
static void refused(struct settings s, uint32_t refusal, const char *what) {
    uint64_t messages = 77;
    check(test(s) == refusal, what);
    check(allowance(s, 6, &messages) == refusal && messages == 77, what);
}

static void accepted(struct settings s, const char *what) { check(test(s) == 0, what); }

static void settings_checks(void) {
    static const uint32_t most[6] = {32, 1000, 1000, 1000, 3000, 65536};
    static const uint32_t least[6] = {1, 2, 1, 1, 1, 1};
    int place;
    accepted(settings_a, "settings A");
    /* P7: e 7: 857 slots is 3, 858 accepted. */
    refused((struct settings){{1, 7, 1000, 500, 857, 10}}, 3, "P7: 857 slots");
    accepted((struct settings){{1, 7, 1000, 500, 858, 10}}, "P7: 858 slots");
    for (place = 0; place < 6; place++) {
        refused(with(settings_a, place, least[place] - 1), 1, "a setting below its range");
        refused(with(settings_a, place, most[place] + 1), 1, "a setting above its range");
        refused(with(settings_a, place, UINT32_MAX), 1, "a setting far above its range");
    }
    accepted((struct settings){{32, 1000, 1000, 1000, 3000, 65536}}, "every setting at its most");
    accepted((struct settings){{1, 2, 2, 1, 3000, 1}}, "the smallest leeway");
    refused((struct settings){{1, 1000, 999, 500, 6, 10}}, 2, "share below leeway");
    refused((struct settings){{1, 1000, 1000, 500, 5, 10}}, 3, "too few slots");
    /* The order 1, 2, 3 where several hold. */
    refused((struct settings){{0, 1000, 999, 500, 5, 10}}, 1, "1 before 2 and 3");
    refused((struct settings){{1, 1000, 999, 500, 5, 10}}, 2, "2 before 3");
}

static void allowance_checks(void) {
    uint64_t messages = 0;
    /* P10: 600 at n 6, 150 at n 0. */
    check(allowance(settings_a, 6, &messages) == 0 && messages == 600, "P10: n 6");
    check(allowance(settings_a, 0, &messages) == 0 && messages == 150, "P10: n 0");
    check(allowance(settings_a, UINT64_MAX, &messages) == 0 && messages == 9750, "the largest n");
    check(allowance((struct settings){{32, 2, 2, 1, 3000, 1}}, UINT64_MAX, &messages) == 0 &&
              messages == 156000000,
          "the largest allowance");
}

/* A line as a string; its length may be cut to leave bytes out. */
static uint32_t line(const char *text, size_t length, uint32_t out[3], size_t *used) {
    return tracker_test_line((const uint8_t *)text, length, &out[0], &out[1], &out[2], used);
}

static void good_line(const char *text, uint32_t deck, uint32_t code, uint32_t volume_class,
                      size_t takes) {
    uint32_t out[3] = {9, 9, 9};
    size_t used = 99;
    check(line(text, strlen(text), out, &used) == 0 && out[0] == deck && out[1] == code &&
              out[2] == volume_class && used == takes,
          text);
}

static void bad_line(const char *text) {
    uint32_t out[3] = {9, 9, 9};
    size_t used = 99;
    check(line(text, strlen(text), out, &used) == 13 && out[0] == 9 && out[1] == 9 && out[2] == 9 &&
              used == 99,
          text);
}

static void line_checks(void) {
    static const char *const malformed[] = {
        "",           "\n",           "0;7;3",      "00;7;3\n",   "0;07;3\n",    "0;7;03\n",
        ";7;3\n",     "0;;3\n",       "0;7;\n",     "0;7\n",      "0\n",         "0;7;3;\n",
        "0;7;3;4\n",  "0,7,3\n",      " 0;7;3\n",   "0 ;7;3\n",   "0;7;3 \n",    "0;7;3\r\n",
        "-1;7;3\n",   "+0;7;3\n",     "0;7;a\n",    "0;/;3\n",    "0;:;3\n",     "10000000;7;3\n",
        "0;7;10000000\n",             "0;12345678;3\n",           "0;7;3x\n",    "0;7\n;3\n",
    };
    size_t i;
    good_line("0;7;3\n", 0, 7, 3, 6);
    good_line("0;0;0\n", 0, 0, 0, 6);
    /* Request N2: a line of class 0 is no draw, but a good line. */
    good_line("0;7;0\n", 0, 7, 0, 6);
    good_line("31;65535;1023\n", 31, 65535, 1023, 14);
    good_line("9999999;9999999;9999999\n", 9999999, 9999999, 9999999, 24);
    good_line("0;7;3\nrubbish", 0, 7, 3, 6);
    good_line("10;20;30\n1;2;3\n", 10, 20, 30, 9);
    for (i = 0; i < sizeof malformed / sizeof malformed[0]; i++) {
        bad_line(malformed[i]);
    }
    {
        static const uint8_t odd[] = {48, 59, 0, 59, 51, 10};
        uint32_t out[3] = {9, 9, 9};
        size_t used = 99;
        check(tracker_test_line(odd, 6, &out[0], &out[1], &out[2], &used) == 13, "a zero byte");
        check(tracker_test_line(odd, 0, &out[0], &out[1], &out[2], &used) == 13, "no bytes");
    }
}

/* With length 0 the bytes may be null: no line, and the numbers stay. */
static void null_checks(void) {
    uint32_t out[3] = {9, 9, 9};
    size_t used = 99;
    check(tracker_test_line(NULL, 0, &out[0], &out[1], &out[2], &used) == 13, "null, no bytes");
    check(out[0] == 9 && out[1] == 9 && out[2] == 9 && used == 99, "null: the numbers stay");
}

/* The bytes of a line at each of eight addresses in a row. */
static void byte_address_checks(void) {
    static const char text[] = "31;65535;1023\n";
    uint8_t room[8 + sizeof text];
    size_t shift;
    for (shift = 0; shift < 8; shift++) {
        uint32_t out[3] = {9, 9, 9};
        size_t used = 99;
        memcpy(room + shift, text, sizeof text);
        check(tracker_test_line(room + shift, 14, &out[0], &out[1], &out[2], &used) == 0 &&
                  out[0] == 31 && out[1] == 65535 && out[2] == 1023 && used == 14,
              "bytes at any address");
    }
}

/* Numbers at the least aligned addresses that the header allows, close together: the places before
 * and after each are as they were. */
struct numbers {
    uint32_t before;
    uint32_t deck;
    uint32_t code;
    uint32_t volume_class;
    size_t used;
    uint64_t messages;
    uint32_t after;
};

static void alignment_checks(void) {
    /* one number further on, so that a uint32_t stands at 4 and at 0 of a multiple of 8 */
    alignas(16) uint32_t row[4] = {9, 9, 9, 9};
    struct numbers n = {1, 9, 9, 9, 99, 77, 2};
    size_t used = 99;
    check(alignof(uint32_t) == 4 && alignof(uint64_t) == 8 && alignof(size_t) == 8,
          "the alignments that the header names");
    check(line("4;5;6\n", 6, row, &used) == 0 && row[0] == 4 && row[1] == 5 && row[2] == 6 &&
              row[3] == 9 && used == 6,
          "numbers from a multiple of 16 on");
    check(line("4;5;6\n", 6, row + 1, &used) == 0 && row[0] == 4 && row[1] == 4 && row[2] == 5 &&
              row[3] == 6,
          "numbers one place further on");
    check(tracker_test_line((const uint8_t *)"4;5;6\n", 6, &n.deck, &n.code, &n.volume_class,
                            &n.used) == 0 &&
              n.before == 1 && n.deck == 4 && n.code == 5 && n.volume_class == 6 && n.used == 6 &&
              n.messages == 77 && n.after == 2,
          "numbers that are fields of a struct");
    check(allowance(settings_a, 6, &n.messages) == 0 && n.messages == 600 && n.used == 6 &&
              n.after == 2,
          "the allowance into a field of a struct");
}

int main(void) {
    settings_checks();
    null_checks();
    byte_address_checks();
    alignment_checks();
    allowance_checks();
    line_checks();
    printf("%d passed, %d failed\n", passed, failed);
    return failed != 0;
}
