/*
 * Calls every function of airsaffron.h from C (or C++) and compares with document 01: its examples P1 to P13, its limits, every number of
 * refusal that a call gives, and that a refusal changes no lent byte; and the calls for column files with a plain reading of request 4. Ends
 * with "N passed, M failed".
 */
#include "airsaffron.h"

#include <stdio.h>
#include <stdlib.h>
#include <string.h>

static unsigned passed, failed;
/* numbers that were answered: all lie below END */
enum { END = AIRSAFFRON_TWICE + 1 };
static int seen[END];

static void expect(int holds, const char *what) {
    if (holds) {
        passed++;
    } else {
        failed++;
        printf("FAILED %s\n", what);
    }
}

static void expect_answer(airsaffron_answer x, uint64_t refusal, uint64_t first, uint64_t second, const char *what) {
    int holds = x.refusal == refusal && x.first == first && x.second == second;
    if (!holds) {
        printf("answer %llu %llu %llu\n", (unsigned long long)x.refusal, (unsigned long long)x.first, (unsigned long long)x.second);
    }
    expect(holds, what);
    if (x.refusal < END) {
        seen[x.refusal] = 1;
    }
}

/* ---- a slice to lend: between guards, with a copy of what it held */

enum { GUARD = 16, MOST = 2000000, MARK = 0xC5 };

typedef struct lent {
    uint8_t *all;
    uint8_t *at;
    uint8_t *was;
    size_t length;
} lent;

static uint8_t *room_for(size_t length) {
    uint8_t *room = (uint8_t *)malloc(length + 1);
    if (room == NULL) {
        printf("no memory\n");
        exit(2);
    }
    return room;
}

static lent lend(const uint8_t *bytes, size_t length) {
    lent s;
    s.all = room_for(length + 2 * GUARD);
    s.was = room_for(length);
    memset(s.all, MARK, length + 2 * GUARD);
    s.at = s.all + GUARD;
    s.length = length;
    if (bytes != NULL) {
        memcpy(s.at, bytes, length);
    }
    memcpy(s.was, s.at, length);
    return s;
}

static int guarded(lent s) {
    size_t i;
    for (i = 0; i < GUARD; i++) {
        if (s.all[i] != MARK || s.at[s.length + i] != MARK) {
            return 0;
        }
    }
    return 1;
}

/* Whether the slice has these bytes, and the guards stand. */
static int holds_bytes(lent s, const uint8_t *bytes) {
    return guarded(s) && memcmp(s.at, bytes, s.length) == 0;
}

static int unchanged(lent s) {
    return holds_bytes(s, s.was);
}

static void take_back(lent s) {
    free(s.all);
    free(s.was);
}

/* ---- the image I, p=5, k=2, r=2, B=1: revisions 0 and 7 */

enum { I_LENGTH = 40, REVISION_1 = 16, DATA_0 = 22, DATA_1 = 26, PARITY_0 = 32, PARITY_1 = 36 };

static const uint8_t I[I_LENGTH] = {4, 0, 5, 0, 2, 0, 2, 0, 1, 0, 2, 0, 0, 0, 0, 0, 7, 0, 0, 0,
                                    2, 0, 1, 0, 0, 0, 0, 2, 0, 0, 2, 0, 3, 0, 3, 2, 3, 3, 3, 0};

/* I with one byte changed */
static lent lend_with(size_t at, uint8_t v) {
    lent s = lend(I, I_LENGTH);
    s.at[at] = v;
    s.was[at] = v;
    return s;
}

/* ---- ring */

static void test_ring(void) {
    expect_answer(airsaffron_divide(5, 30, 0, 1), 0, 10, 0, "P1 1 / (1 + x) = x + x^3");
    expect_answer(airsaffron_divide(5, 30, 0, 2), 0, 6, 0, "P1 1 / (1 + x^2) = x + x^2");
    expect_answer(airsaffron_divide(5, 30, 0, 3), 0, 24, 0, "P1 1 / (1 + x^3) = x^3 + x^4");
    expect_answer(airsaffron_divide(5, 30, 0, 4), 0, 20, 0, "P1 1 / (1 + x^4) = x^2 + x^4");
    expect_answer(airsaffron_divide(5, 17, 1, 4), 0, 10, 0, "(1 + x^4) / (x + x^4)");
    expect_answer(airsaffron_divide(5, 10, 3, 1), 0, 30, 0, "(x + x^3) / (x^3 + x) = e");
    expect_answer(airsaffron_divide(5, 0, 2, 4), 0, 0, 0, "0 divided");
    expect_answer(airsaffron_product(5, 10, 12), 0, 27, 0, "(x + x^3)(x^2 + x^3)");
    expect_answer(airsaffron_product(5, 3, 10), 0, 30, 0, "(1 + x)(x + x^3) = e");
    expect_answer(airsaffron_product(5, 30, 6), 0, 6, 0, "e u = u");
    expect_answer(airsaffron_product(61, UINT64_C(0x1FFFFFFFFFFFFFFE), UINT64_C(0x1800000000000000)), 0, UINT64_C(0x1800000000000000), 0,
                  "e u = u at p = 61");

    expect_answer(airsaffron_product(9, 1, 1), AIRSAFFRON_PRIME, 0, 0, "product PRIME before ELEMENT");
    expect_answer(airsaffron_product(UINT64_MAX, 0, 0), AIRSAFFRON_PRIME, 0, 0, "product PRIME at 2^64 - 1");
    expect_answer(airsaffron_product(5, 1, 0), AIRSAFFRON_ELEMENT, 0, 0, "first factor of odd weight");
    expect_answer(airsaffron_product(5, 0, 7), AIRSAFFRON_ELEMENT, 0, 0, "second factor of odd weight");
    expect_answer(airsaffron_product(5, 33, 0), AIRSAFFRON_ELEMENT, 0, 0, "a bit at p");
    expect_answer(airsaffron_product(61, 0, UINT64_C(0xC000000000000000)), AIRSAFFRON_ELEMENT, 0, 0, "bits at 62 and 63");
    expect_answer(airsaffron_divide(2, 1, 9, 9), AIRSAFFRON_PRIME, 0, 0, "divide PRIME first");
    expect_answer(airsaffron_divide(5, 1, 5, 5), AIRSAFFRON_ELEMENT, 0, 0, "divide ELEMENT before EXPONENT");
    expect_answer(airsaffron_divide(5, 30, 5, 0), AIRSAFFRON_EXPONENT, 0, 0, "a = p");
    expect_answer(airsaffron_divide(5, 30, 0, 5), AIRSAFFRON_EXPONENT, 0, 0, "b = p");
    expect_answer(airsaffron_divide(5, 30, 3, 3), AIRSAFFRON_EXPONENT, 0, 0, "a = b");
    expect_answer(airsaffron_divide(5, 30, 0, UINT64_MAX), AIRSAFFRON_EXPONENT, 0, 0, "b = 2^64 - 1");
}

/* ---- make */

static void make_is(uint64_t p, uint64_t k, uint64_t r, uint64_t b, const uint8_t *bytes, size_t n, const uint8_t *due, size_t length,
                    const char *what) {
    lent d = lend(bytes, n), s = lend(NULL, length);
    expect_answer(airsaffron_make(p, k, r, b, d.at, d.length, s.at, s.length), 0, 0, 0, what);
    expect(unchanged(d) && holds_bytes(s, due), what);
    take_back(d);
    take_back(s);
}

static void make_refuses(uint64_t p, uint64_t k, uint64_t r, uint64_t b, size_t n, size_t length, uint64_t refusal, const char *what) {
    lent d = lend(NULL, n), s = lend(NULL, length);
    expect_answer(airsaffron_make(p, k, r, b, d.at, d.length, s.at, s.length), refusal, 0, 0, what);
    expect(unchanged(d) && unchanged(s), what);
    take_back(d);
    take_back(s);
}

static void test_make(void) {
    static const uint8_t two[2] = {0xA5, 0x0F};
    static const uint8_t p2[24] = {4, 0, 3, 0, 1, 0, 1, 0, 1, 0, 1, 0, 0, 0, 0, 0, 1, 0, 0xA5, 0x0F, 1, 0, 0xAA, 0xA5};
    static const uint8_t p3[26] = {4, 0, 3, 0, 1,    0,    2, 0, 1,    0,    1,    0,   0,
                                   0, 0, 0, 1, 0, 0xA5, 0x0F, 2, 0, 0x0F, 0xAA, 0xA5, 0x0F};
    static const uint8_t eight[8] = {1, 0, 0, 0, 0, 0, 0, 0};
    static const uint8_t p4[I_LENGTH] = {4, 0, 5, 0, 2, 0, 2, 0, 1, 0, 2, 0, 0, 0, 0, 0, 0, 0, 0, 0,
                                         2, 0, 1, 0, 0, 0, 0, 0, 0, 0, 2, 0, 1, 0, 1, 0, 1, 1, 1, 0};
    make_is(3, 1, 1, 1, two, 2, p2, 24, "P2 parity AA A5");
    make_is(3, 1, 2, 1, two, 2, p3, 26, "P3 parity 0F AA and A5 0F");
    make_is(5, 2, 2, 1, eight, 8, p4, I_LENGTH, "P4 parity 01 00 01 00 and 01 01 01 00");

    make_refuses(2, 0, 0, 0, 1, 1, AIRSAFFRON_PRIME, "make p = 2");
    make_refuses(9, 1, 1, 1, 8, 40, AIRSAFFRON_PRIME, "make p = 9");
    make_refuses(67, 1, 1, 1, 66, 152, AIRSAFFRON_PRIME, "make p = 67");
    make_refuses(5, 0, 2, 0, 1, 1, AIRSAFFRON_SHAPE, "make k = 0");
    make_refuses(5, 2, 0, 0, 1, 1, AIRSAFFRON_SHAPE, "make r = 0");
    make_refuses(5, 4, 2, 1, 16, 56, AIRSAFFRON_SHAPE, "make k + r above p");
    make_refuses(61, UINT64_MAX, 2, 1, 1, 1, AIRSAFFRON_SHAPE, "make k + r wraps to 1");
    make_refuses(5, 2, 2, 0, 1, 1, AIRSAFFRON_STRIP, "make B = 0");
    make_refuses(5, 2, 2, 513, 1, 1, AIRSAFFRON_STRIP, "make B = 513");
    make_refuses(5, 2, 2, 1, 7, 1, AIRSAFFRON_WIDTH, "make WIDTH before ROOM");
    make_refuses(5, 2, 2, 1, 9, I_LENGTH, AIRSAFFRON_WIDTH, "make data too long");
    make_refuses(5, 2, 2, 1, 8, I_LENGTH - 1, AIRSAFFRON_ROOM, "make buffer too short");
    make_refuses(5, 2, 2, 1, 8, I_LENGTH + 1, AIRSAFFRON_ROOM, "make buffer too long");
}

/* ---- read, and what every call on an image refuses alike */

/* Every call on an image refuses it alike, and changes nothing. */
static void all_refuse(lent s, uint64_t refusal, const char *what) {
    uint64_t shape[4] = {11, 12, 13, 14};
    lent one = lend(NULL, 1);
    expect_answer(airsaffron_read(s.at, s.length, shape), refusal, 0, 0, what);
    expect(shape[0] == 11 && shape[1] == 12 && shape[2] == 13 && shape[3] == 14, what);
    expect_answer(airsaffron_check(s.at, s.length), refusal, 0, 0, what);
    expect_answer(airsaffron_refill(s.at, s.length), refusal, 0, 0, what);
    expect_answer(airsaffron_write(s.at, s.length, 9, 9, 9, one.at, one.length), refusal, 0, 0, what);
    expect_answer(airsaffron_write_away(s.at, s.length, UINT64_MAX, 9, 9, 9, one.at, one.length), refusal, 0, 0, what);
    expect_answer(airsaffron_rebuild(s.at, s.length, UINT64_MAX), refusal, 0, 0, what);
    expect_answer(airsaffron_restore(s.at, s.length, UINT64_MAX, 9, 9, one.at, 0), refusal, 0, 0, what);
    expect_answer(airsaffron_show(s.at, s.length, UINT64_MAX, 9, 9, one.at, 0), refusal, 0, 0, what);
    expect_answer(airsaffron_export(s.at, s.length, 9, one.at, one.length), refusal, 0, 0, what);
    expect_answer(airsaffron_file_length(s.at, s.length, 9), refusal, 0, 0, what);
    expect(unchanged(s) && unchanged(one), what);
    take_back(one);
    take_back(s);
}

static void test_read(void) {
    static const uint8_t late[11] = {4, 0, 9, 0, 0, 0, 1, 0, 0, 0, 0};
    uint64_t shape[6] = {9, 9, 9, 9, 9, 9};
    uint8_t longer[I_LENGTH + 1] = {0};
    lent s = lend(I, I_LENGTH);
    expect_answer(airsaffron_read(s.at, s.length, shape + 1), 0, 0, 0, "read I");
    expect(shape[0] == 9 && shape[1] == 5 && shape[2] == 2 && shape[3] == 2 && shape[4] == 1 && shape[5] == 9, "shape of I");
    expect(unchanged(s), "read I changes nothing");
    take_back(s);

    memcpy(longer, I, I_LENGTH);
    all_refuse(lend(NULL, 0), AIRSAFFRON_CUT, "no byte");
    all_refuse(lend(I, 1), AIRSAFFRON_CUT, "one byte");
    all_refuse(lend_with(0, 3), AIRSAFFRON_COUNT, "count of section 1");
    all_refuse(lend(late, 9), AIRSAFFRON_CUT, "CUT before PRIME");
    all_refuse(lend(late, 10), AIRSAFFRON_PRIME, "PRIME before SHAPE");
    all_refuse(lend_with(2, 9), AIRSAFFRON_PRIME, "p = 9");
    all_refuse(lend_with(4, 0), AIRSAFFRON_SHAPE, "k = 0");
    all_refuse(lend_with(6, 4), AIRSAFFRON_SHAPE, "k + r above p");
    all_refuse(lend_with(8, 0), AIRSAFFRON_STRIP, "B = 0");
    all_refuse(lend_with(9, 2), AIRSAFFRON_STRIP, "B = 513");
    all_refuse(lend(I, I_LENGTH - 1), AIRSAFFRON_CUT, "I less one byte");
    all_refuse(lend(longer, I_LENGTH + 1), AIRSAFFRON_TAIL, "I with one more");
    all_refuse(lend_with(10, 3), AIRSAFFRON_COUNT, "count of section 2");
    all_refuse(lend_with(20, 3), AIRSAFFRON_COUNT, "count of section 3");
    all_refuse(lend_with(30, 3), AIRSAFFRON_COUNT, "count of section 4");
}

/* ---- check and refill */

static void check_is(size_t at, uint8_t v, uint64_t word, const char *what) {
    lent s = lend_with(at, v);
    expect_answer(airsaffron_check(s.at, s.length), 0, word, 0, what);
    expect(unchanged(s), what);
    take_back(s);
}

static void test_check(void) {
    lent s = lend_with(PARITY_0 + 2, 0x77);
    check_is(PARITY_0, 3, 0, "P5 I is right");
    check_is(PARITY_0 + 1, 0x80, 1, "parity 0 wrong");
    check_is(PARITY_1 + 3, 1, 2, "parity 1 wrong");
    check_is(DATA_1 + 2, 4, 3, "a changed data strip makes both wrong");
    check_is(REVISION_1, 9, 0, "a revision makes none wrong");
    s.at[PARITY_1 + 1] = 0;
    expect_answer(airsaffron_refill(s.at, s.length), 0, 0, 0, "refill");
    expect(holds_bytes(s, I), "refill gives I again");
    take_back(s);
}

/* ---- write */

/* `distance`: how far the base is behind or ahead, 0 beside a refusal that is not STALE or AHEAD */
static void write_refuses(lent s, uint64_t column, uint64_t row, uint32_t base, size_t n, uint64_t refusal, uint64_t distance, const char *what) {
    lent v = lend(NULL, n);
    expect_answer(airsaffron_write(s.at, s.length, column, row, base, v.at, v.length), refusal, distance, 0, what);
    expect(unchanged(s) && unchanged(v), what);
    take_back(v);
    take_back(s);
}

static void test_write(void) {
    static const uint8_t nothing[1] = {0}, five[1] = {5};
    uint8_t due[I_LENGTH];
    lent s = lend(I, I_LENGTH), v = lend(nothing, 1), f = lend(five, 1);

    memcpy(due, I, I_LENGTH);
    due[REVISION_1] = 8;
    due[DATA_1 + 1] = 0;
    memcpy(due + PARITY_0, "\1\0\1\0\1\1\1\0", 8);
    expect_answer(airsaffron_write(s.at, s.length, 1, 1, 7, v.at, v.length), 0, 8, 6, "P9 revision 8, count 6");
    expect(holds_bytes(s, due) && unchanged(v), "P9 parity as in P4");
    expect_answer(airsaffron_write(s.at, s.length, 1, 1, 8, v.at, v.length), 0, 9, 6, "the same bytes are counted alike");
    due[REVISION_1] = 9;
    expect(holds_bytes(s, due), "the same bytes change the revision alone");
    take_back(s);

    s = lend(I, I_LENGTH);
    memcpy(due, I, I_LENGTH);
    due[12] = 1;
    due[DATA_0] = 5;
    memcpy(due + PARITY_0, "\7\0\7\2\7\7\7\0", 8);
    expect_answer(airsaffron_write(s.at, s.length, 0, 0, 0, f.at, f.length), 0, 1, 5, "column 0, row 0 of I");
    expect(holds_bytes(s, due), "rows 0 and 2 of parity 0 move");
    take_back(s);

    write_refuses(lend(I, I_LENGTH), 1, 1, 6, 1, AIRSAFFRON_STALE, 1, "P10 base 6");
    write_refuses(lend(I, I_LENGTH), 1, 1, 8, 1, AIRSAFFRON_AHEAD, 1, "P11 base 8");

    s = lend(I, I_LENGTH);
    memset(s.at + REVISION_1, 0xFF, 4);
    expect_answer(airsaffron_write(s.at, s.length, 1, 1, UINT32_MAX, v.at, v.length), 0, 0, 6, "P12 the revision after 4294967295 is 0");
    expect(s.at[REVISION_1] == 0 && s.at[REVISION_1 + 1] == 0 && s.at[REVISION_1 + 2] == 0 && s.at[REVISION_1 + 3] == 0, "P12 revision 0");
    take_back(s);

    write_refuses(lend(I, I_LENGTH), 0, 1, UINT32_MAX, 1, AIRSAFFRON_STALE, 1, "P13 revision 0, base 4294967295");
    write_refuses(lend(I, I_LENGTH), 0, 0, UINT32_C(0x80000000), 1, AIRSAFFRON_UNCLEAR, 0, "2^31 apart");
    write_refuses(lend(I, I_LENGTH), 1, 0, UINT32_C(0x80000007), 1, AIRSAFFRON_UNCLEAR, 0, "2^31 from revision 7");
    write_refuses(lend(I, I_LENGTH), 0, 0, UINT32_C(0x7FFFFFFF), 1, AIRSAFFRON_AHEAD, UINT64_C(0x7FFFFFFF), "2^31 + 1 behind");
    write_refuses(lend(I, I_LENGTH), 0, 0, UINT32_C(0x80000001), 1, AIRSAFFRON_STALE, UINT64_C(0x7FFFFFFF), "2^31 - 1 behind");
    write_refuses(lend(I, I_LENGTH), 1, 0, 0, 1, AIRSAFFRON_STALE, 7, "base 0 of revision 7");
    write_refuses(lend(I, I_LENGTH), 1, 0, UINT32_MAX, 1, AIRSAFFRON_STALE, 8, "base 4294967295 of revision 7");
    write_refuses(lend(I, I_LENGTH), 2, 4, 9, 2, AIRSAFFRON_COLUMN, 0, "write COLUMN before ROW");
    write_refuses(lend(I, I_LENGTH), UINT64_MAX, 0, 0, 1, AIRSAFFRON_COLUMN, 0, "column 2^64 - 1");
    write_refuses(lend(I, I_LENGTH), 1, 4, 9, 2, AIRSAFFRON_ROW, 0, "write ROW before WIDTH");
    write_refuses(lend(I, I_LENGTH), 1, 3, 9, 2, AIRSAFFRON_WIDTH, 0, "write WIDTH before AHEAD");
    write_refuses(lend(I, I_LENGTH), 1, 3, UINT32_C(0x80000007), 2, AIRSAFFRON_WIDTH, 0, "write WIDTH before UNCLEAR");
    write_refuses(lend(I, I_LENGTH), 1, 3, 7, 0, AIRSAFFRON_WIDTH, 0, "an empty strip");
    take_back(v);
    take_back(f);
}

/* Three writes to column 1 are accepted, one to column 0 too, and the base that was current at first is three notes behind, by either call. */
static void test_notes_behind(void) {
    lent s = lend(I, I_LENGTH), v = lend(NULL, 1);
    uint32_t n;
    for (n = 7; n < 10; n++) {
        expect(airsaffron_write(s.at, s.length, 1, n - 7, n, v.at, v.length).first == n + 1, "a note to column 1");
    }
    expect(airsaffron_write(s.at, s.length, 0, 0, 0, v.at, v.length).refusal == 0, "a note to column 0");
    memcpy(s.was, s.at, I_LENGTH);
    expect_answer(airsaffron_write(s.at, s.length, 1, 3, 7, v.at, v.length), AIRSAFFRON_STALE, 3, 0, "three notes behind");
    expect_answer(airsaffron_write_away(s.at, s.length, 6, 1, 3, 7, v.at, v.length), AIRSAFFRON_STALE, 3, 0, "three notes behind, away");
    expect_answer(airsaffron_write(s.at, s.length, 1, 3, 13, v.at, v.length), AIRSAFFRON_AHEAD, 3, 0, "three notes ahead");
    expect(unchanged(s), "and nothing changes");
    take_back(s);
    take_back(v);
}

/* ---- rebuild, restore and show */

/* the patterns of at most two of I's four columns */
static const uint64_t few_lost[11] = {0, 1, 2, 4, 8, 3, 5, 9, 6, 10, 12};

/* I, with the lost columns spoilt */
static lent spoilt(uint64_t lost) {
    static const size_t at[4] = {DATA_0, DATA_1, PARITY_0, PARITY_1};
    lent s = lend(I, I_LENGTH);
    size_t n;
    for (n = 0; n < 4; n++) {
        if (lost >> n & 1) {
            memset(s.at + at[n], 0xE0 + (int)n, 4);
        }
    }
    memcpy(s.was, s.at, I_LENGTH);
    return s;
}

static void rebuild_refuses(uint64_t lost, uint64_t refusal, const char *what) {
    lent s = lend(I, I_LENGTH);
    expect_answer(airsaffron_rebuild(s.at, s.length, lost), refusal, 0, 0, what);
    expect(unchanged(s), what);
    take_back(s);
}

static void test_rebuild(void) {
    size_t i;
    for (i = 0; i < 11; i++) {
        lent s = spoilt(few_lost[i]);
        expect_answer(airsaffron_rebuild(s.at, s.length, few_lost[i]), 0, 0, 0, "rebuild");
        expect(holds_bytes(s, I), "P6 I again, for each pattern of at most two columns");
        take_back(s);
    }
    rebuild_refuses(7, AIRSAFFRON_MANY, "P7 pattern 7");
    rebuild_refuses(16, AIRSAFFRON_COLUMN, "P8 pattern 16");
    rebuild_refuses(UINT64_C(0x8000000000000000), AIRSAFFRON_COLUMN, "pattern bit 63");
    rebuild_refuses(31, AIRSAFFRON_COLUMN, "rebuild COLUMN before MANY");
}

/* ---- write while columns are away */

static void away_refuses(uint64_t lost, uint64_t column, uint64_t row, uint32_t base, size_t n, uint64_t refusal, uint64_t distance,
                         const char *what) {
    lent s = spoilt(lost & 15), v = lend(NULL, n);
    expect_answer(airsaffron_write_away(s.at, s.length, lost, column, row, base, v.at, v.length), refusal, distance, 0, what);
    expect(unchanged(s) && unchanged(v), what);
    take_back(s);
    take_back(v);
}

/* For each pattern of at most two columns and each data strip: present columns end as on the complete image, lost ones stay, and rebuild gives
 * the complete image with the write made. */
static void away_is(uint64_t lost, size_t column, size_t row) {
    static const size_t at[4] = {DATA_0, DATA_1, PARITY_0, PARITY_1};
    static const uint8_t five[1] = {5};
    lent s = spoilt(lost), z = lend(I, I_LENGTH), v = lend(five, 1);
    uint32_t base = column == 0 ? 0 : 7;
    uint64_t count = 0;
    size_t n, i;
    airsaffron_answer whole = airsaffron_write(z.at, z.length, column, row, base, v.at, v.length);
    for (n = 2; n < 4; n++) {
        for (i = 0; i < 4 && !(lost >> n & 1); i++) {
            count += z.at[at[n] + i] != I[at[n] + i];
        }
    }
    expect(whole.refusal == 0, "the write on the complete image");
    expect_answer(airsaffron_write_away(s.at, s.length, lost, column, row, base, v.at, v.length), 0, whole.first, count, "away");
    for (n = 0; n < 4; n++) {
        memcpy(s.was + at[n], (lost >> n & 1 ? s.was : z.at) + at[n], 4);
    }
    memcpy(s.was, z.at, DATA_0);
    expect(unchanged(s) && unchanged(v), "present columns as on the complete image, lost ones as they were");
    expect_answer(airsaffron_rebuild(s.at, s.length, lost), 0, 0, 0, "rebuild afterwards");
    expect(holds_bytes(s, z.at), "the complete image with the write made");
    take_back(s);
    take_back(z);
    take_back(v);
}

static void test_write_away(void) {
    size_t i, column, row;
    for (i = 0; i < 11; i++) {
        for (column = 0; column < 2; column++) {
            for (row = 0; row < 4; row++) {
                away_is(few_lost[i], column, row);
            }
        }
    }
    away_refuses(UINT64_MAX, 1, 1, 7, 1, AIRSAFFRON_COLUMN, 0, "a pattern of 64 bits");
    away_refuses(16, 1, 4, 9, 2, AIRSAFFRON_COLUMN, 0, "pattern COLUMN before ROW");
    away_refuses(7, 2, 4, 9, 2, AIRSAFFRON_COLUMN, 0, "column 2 is parity");
    away_refuses(1, UINT64_MAX, 0, 0, 1, AIRSAFFRON_COLUMN, 0, "column 2^64 - 1 away");
    away_refuses(7, 1, 4, 9, 2, AIRSAFFRON_ROW, 0, "away ROW before WIDTH");
    away_refuses(1, 1, UINT64_MAX, 7, 1, AIRSAFFRON_ROW, 0, "row 2^64 - 1 away");
    away_refuses(7, 1, 3, 9, 2, AIRSAFFRON_WIDTH, 0, "away WIDTH before MANY");
    away_refuses(2, 1, 3, 7, 0, AIRSAFFRON_WIDTH, 0, "an empty strip away");
    away_refuses(7, 1, 3, 6, 1, AIRSAFFRON_MANY, 0, "MANY before STALE");
    away_refuses(14, 1, 3, 8, 1, AIRSAFFRON_MANY, 0, "MANY before AHEAD");
    away_refuses(7, 1, 3, UINT32_C(0x80000007), 1, AIRSAFFRON_MANY, 0, "MANY before UNCLEAR");
    away_refuses(6, 1, 3, 6, 1, AIRSAFFRON_STALE, 1, "away base 6");
    away_refuses(6, 1, 3, 8, 1, AIRSAFFRON_AHEAD, 1, "away base 8");
    away_refuses(6, 1, 3, UINT32_C(0x80000006), 1, AIRSAFFRON_AHEAD, UINT64_C(0x7FFFFFFF), "away 2^31 - 1 ahead");
    away_refuses(6, 1, 3, UINT32_C(0x80000007), 1, AIRSAFFRON_UNCLEAR, 0, "away 2^31 apart");
    away_refuses(6, 1, 3, UINT32_C(0x80000008), 1, AIRSAFFRON_STALE, UINT64_C(0x7FFFFFFF), "away 2^31 - 1 behind");
}

/* Restore and show refuse alike. */
static void asking_refuses(uint64_t lost, uint64_t column, uint64_t row, size_t room, uint64_t refusal, const char *what) {
    lent s = lend(I, I_LENGTH), c = lend(NULL, room);
    expect_answer(airsaffron_restore(s.at, s.length, lost, column, row, c.at, c.length), refusal, 0, 0, what);
    expect_answer(airsaffron_show(s.at, s.length, lost, column, row, c.at, c.length), refusal, 0, 0, what);
    expect(unchanged(s) && unchanged(c), what);
    take_back(s);
    take_back(c);
}

static void test_restore_and_show(void) {
    static const size_t at[4] = {DATA_0, DATA_1, PARITY_0, PARITY_1};
    size_t i, n, t;
    for (i = 0; i < 11; i++) {
        for (n = 0; n < 4; n++) {
            for (t = 0; t < 4; t++) {
                int away = (int)(few_lost[i] >> n & 1);
                lent s = spoilt(few_lost[i]), c = lend(NULL, 3);
                airsaffron_answer x;
                expect_answer(airsaffron_restore(s.at, s.length, few_lost[i], n, t, c.at, c.length), 0, 0, 0, "restore");
                if (away) {
                    c.was[0] = I[at[n] + t];
                }
                expect(unchanged(s) && unchanged(c), "restore puts the strip of a lost column into the scratch, and nothing else");
                x = airsaffron_show(s.at, s.length, few_lost[i], n, t, c.at, c.length);
                expect_answer(x, 0, away ? AIRSAFFRON_IN_SCRATCH : AIRSAFFRON_IN_IMAGE, away ? 0 : at[n] + t, "show");
                expect((away ? c.at : s.at)[x.second] == I[at[n] + t], "the strip shown is I's");
                expect(unchanged(s) && unchanged(c), "show writes nothing");
                take_back(s);
                take_back(c);
            }
        }
    }
    asking_refuses(16, 0, 9, 0, AIRSAFFRON_COLUMN, "a pattern with column 4");
    asking_refuses(7, 4, 9, 0, AIRSAFFRON_COLUMN, "COLUMN before ROW");
    asking_refuses(0, UINT64_MAX, 0, 1, AIRSAFFRON_COLUMN, "column 2^64 - 1 asked");
    asking_refuses(7, 3, 4, 0, AIRSAFFRON_ROW, "ROW before MANY");
    asking_refuses(0, 0, UINT64_MAX, 1, AIRSAFFRON_ROW, "row 2^64 - 1 asked");
    asking_refuses(7, 3, 3, 0, AIRSAFFRON_MANY, "MANY before ROOM");
    asking_refuses(1, 0, 0, 0, AIRSAFFRON_ROOM, "a scratch below B, column lost");
    asking_refuses(1, 1, 0, 0, AIRSAFFRON_ROOM, "a scratch below B, column present");
}

/* ---- limits: p=61, k=60, r=1, B=512 */

static void test_limits(void) {
    size_t width = (size_t)60 * 60 * 512, column = (size_t)60 * 512, length = 16 + 240 + 61 * column, i;
    uint64_t shape[4] = {0, 0, 0, 0};
    lent d = lend(NULL, width), s = lend(NULL, length), c = lend(NULL, 512);
    uint8_t *right = room_for(length);
    for (i = 0; i < width; i++) {
        d.at[i] = (uint8_t)(i * 2654435761U >> 13);
    }
    memcpy(d.was, d.at, width);
    make_refuses(61, 60, 2, 512, 1, 1, AIRSAFFRON_SHAPE, "p = 61 with k = 60, r = 2");
    make_refuses(61, 60, 1, 513, 1, 1, AIRSAFFRON_STRIP, "p = 61 with B = 513");
    expect_answer(airsaffron_make(61, 60, 1, 512, d.at, d.length, s.at, s.length), 0, 0, 0, "p = 61 with k = 60, r = 1, B = 512");
    expect(unchanged(d) && guarded(s) && memcmp(s.at + 14 + 240, d.at, width) == 0, "its data stand in section 3");
    memcpy(right, s.at, length);
    expect_answer(airsaffron_read(s.at, s.length, shape), 0, 0, 0, "it is read");
    expect(shape[0] == 61 && shape[1] == 60 && shape[2] == 1 && shape[3] == 512, "its shape");
    expect_answer(airsaffron_check(s.at, s.length), 0, 0, 0, "it is right");
    memset(s.at + 14 + 240 + 59 * column, 0, column);
    expect_answer(airsaffron_check(s.at, s.length), 0, 1, 0, "it is wrong with data column 59 away");
    expect_answer(airsaffron_restore(s.at, s.length, UINT64_C(1) << 59, 59, 59, c.at, c.length), 0, 0, 0, "its last data strip restored");
    expect(guarded(c) && memcmp(c.at, right + 14 + 240 + 59 * column + 59 * 512, 512) == 0, "the strip of 512 bytes");
    expect_answer(airsaffron_rebuild(s.at, s.length, UINT64_C(1) << 59), 0, 0, 0, "data column 59 rebuilt");
    expect(holds_bytes(s, right), "the image again");
    memset(s.at + 14 + 240 + 59 * column, 0, column);
    expect(airsaffron_write_away(s.at, s.length, UINT64_C(1) << 59, 59, 59, 0, d.at, 512).first == 1, "its last data strip written while away");
    expect_answer(airsaffron_rebuild(s.at, s.length, UINT64_C(1) << 59), 0, 0, 0, "data column 59 comes back");
    expect(airsaffron_write(right, length, 59, 59, 0, d.at, 512).refusal == 0 && holds_bytes(s, right), "as if it had never been away");
    memset(s.at + 16 + 240 + 60 * column, 0, column);
    expect_answer(airsaffron_rebuild(s.at, s.length, UINT64_C(1) << 60), 0, 0, 0, "parity column 60 rebuilt");
    expect(holds_bytes(s, right), "the image again");
    expect_answer(airsaffron_rebuild(s.at, s.length, UINT64_C(3) << 59), AIRSAFFRON_MANY, 0, 0, "two of 61 lost with r = 1");
    expect_answer(airsaffron_rebuild(s.at, s.length, UINT64_C(1) << 61), AIRSAFFRON_COLUMN, 0, 0, "column 61 of 61");
    expect(holds_bytes(s, right), "the image still");
    free(right);
    take_back(d);
    take_back(s);
    take_back(c);
}

/* ---- column files, read plainly from the sentences of request 4 (and of document 01 for reading): what the calls are compared with */

typedef struct params {
    unsigned p, k, r, b;
} params;

static unsigned sixteen(const uint8_t *s) {
    return s[0] + 256U * s[1];
}

static params four_numbers(const uint8_t *s) {
    params q;
    q.p = sixteen(s);
    q.k = sixteen(s + 2);
    q.r = sixteen(s + 4);
    q.b = sixteen(s + 6);
    return q;
}

/* "PRIME, SHAPE, STRIP" */
static uint64_t params_refusal(params q) {
    unsigned d;
    int prime = q.p >= 3 && q.p <= 61;
    for (d = 2; d < q.p && d < 62; d++) {
        prime = prime && q.p % d != 0;
    }
    if (!prime) {
        return AIRSAFFRON_PRIME;
    }
    if (q.k == 0 || q.r == 0 || q.k + q.r > q.p) {
        return AIRSAFFRON_SHAPE;
    }
    return q.b == 0 || q.b > 512 ? AIRSAFFRON_STRIP : AIRSAFFRON_ACCEPTED;
}

static size_t column_bytes(params q) {
    return (size_t)(q.p - 1) * q.b;
}

/* "Length L = 16 + 4k + (k+r)(p-1)B" */
static size_t image_bytes(params q) {
    return 16 + 4 * q.k + (q.k + q.r) * column_bytes(q);
}

/* "Reading tests in this order" */
static uint64_t read_refusal(const uint8_t *s, size_t length) {
    params q;
    size_t k;
    if (length < 2) {
        return AIRSAFFRON_CUT;
    }
    if (sixteen(s) != 4) {
        return AIRSAFFRON_COUNT;
    }
    if (length < 10) {
        return AIRSAFFRON_CUT;
    }
    q = four_numbers(s + 2);
    k = q.k;
    if (params_refusal(q) != 0) {
        return params_refusal(q);
    }
    if (length != image_bytes(q)) {
        return length < image_bytes(q) ? AIRSAFFRON_CUT : AIRSAFFRON_TAIL;
    }
    if (sixteen(s + 10) != q.k || sixteen(s + 12 + 4 * k) != q.k || sixteen(s + 14 + 4 * k + k * column_bytes(q)) != q.r) {
        return AIRSAFFRON_COUNT;
    }
    return AIRSAFFRON_ACCEPTED;
}

/* Puts a number of 16 bits, and says where the next one goes. */
static uint8_t *put_sixteen(uint8_t *to, unsigned v) {
    to[0] = (uint8_t)(v % 256);
    to[1] = (uint8_t)(v / 256);
    return to + 2;
}

static uint8_t *put_bytes(uint8_t *to, const uint8_t *bytes, size_t length) {
    memcpy(to, bytes, length);
    return to + length;
}

/* "Export writes one file for column n", of an image that is read; its length */
static size_t plain_file(const uint8_t *image, unsigned n, uint8_t *file) {
    params q = four_numbers(image + 2);
    const uint8_t *revisions = image + 12, *data = revisions + 4 * q.k + 2, *parity = data + q.k * column_bytes(q) + 2;
    int is_data = n < q.k;
    uint8_t *to = put_sixteen(file, 6);
    to = put_sixteen(to, q.p);
    to = put_sixteen(to, q.k);
    to = put_sixteen(to, q.r);
    to = put_sixteen(to, q.b);
    to = put_sixteen(to, n);
    to = put_sixteen(to, is_data ? 0 : 1);
    to = put_sixteen(to, is_data ? 1 : 0);
    if (is_data) {
        to = put_bytes(to, revisions + 4 * n, 4);
    }
    to = put_sixteen(to, q.p - 1);
    to = put_bytes(to, is_data ? data + n * column_bytes(q) : parity + (n - q.k) * column_bytes(q), column_bytes(q));
    return (size_t)(to - file);
}

/* Where the file of each column starts among those that import takes, or NULL. */
typedef struct met {
    const uint8_t *first;
    const uint8_t *file[61];
} met;

/* "Import takes file by file": the refusal of the one at s, of length bytes at most, or how long it is */
static uint64_t file_refusal(const uint8_t *s, size_t length, met *m, size_t *due) {
    params q;
    unsigned n, parity;
    if (length < 2) {
        return AIRSAFFRON_CUT;
    }
    if (sixteen(s) != 6) {
        return AIRSAFFRON_COUNT;
    }
    if (length < 14) {
        return AIRSAFFRON_CUT;
    }
    q = four_numbers(s + 2);
    n = sixteen(s + 10);
    parity = n >= q.k;
    if (params_refusal(q) != 0) {
        return params_refusal(q);
    }
    if (n >= q.k + q.r) {
        return AIRSAFFRON_COLUMN;
    }
    if (memcmp(s + 2, m->first + 2, 8) != 0 || sixteen(s + 12) != parity) {
        return AIRSAFFRON_FOREIGN;
    }
    if (m->file[n] != NULL) {
        return AIRSAFFRON_TWICE;
    }
    *due = 14 + (parity ? 2 : 6) + 2 + column_bytes(q);
    if (length < *due) {
        return AIRSAFFRON_CUT;
    }
    if (sixteen(s + 14) != 1 - parity || sixteen(s + *due - column_bytes(q) - 2) != q.p - 1) {
        return AIRSAFFRON_COUNT;
    }
    m->file[n] = s;
    return AIRSAFFRON_ACCEPTED;
}

/* The same of all files, up to the end of the slice. */
static uint64_t files_refusal(const uint8_t *files, size_t length, met *m) {
    size_t at = 0, due = 0;
    uint64_t refusal;
    memset(m, 0, sizeof *m);
    m->first = files;
    do {
        refusal = file_refusal(files + at, length - at, m, &due);
        at += due;
    } while (refusal == 0 && at < length);
    return refusal;
}

/* Puts a part of a file, or zeros where there is no file. */
static uint8_t *put_part(uint8_t *to, const uint8_t *file, size_t from, size_t length) {
    if (file == NULL) {
        memset(to, 0, length);
        return to + length;
    }
    return put_bytes(to, file + from, length);
}

/* "fills an image and the pattern of absent columns. Absent columns and their revisions are filled with zeros." */
static uint64_t plain_image(const met *m, uint8_t *image) {
    params q = four_numbers(m->first + 2);
    uint64_t absent = 0;
    unsigned n;
    uint8_t *to = put_bytes(put_sixteen(image, 4), m->first + 2, 8);
    to = put_sixteen(to, q.k);
    for (n = 0; n < q.k; n++) {
        to = put_part(to, m->file[n], 16, 4);
    }
    to = put_sixteen(to, q.k);
    for (n = 0; n < q.k; n++) {
        to = put_part(to, m->file[n], 22, column_bytes(q));
    }
    to = put_sixteen(to, q.r);
    for (n = q.k; n < q.k + q.r; n++) {
        to = put_part(to, m->file[n], 18, column_bytes(q));
    }
    for (n = 0; n < q.k + q.r; n++) {
        absent |= (uint64_t)(m->file[n] == NULL) << n;
    }
    return absent;
}

/* ---- column files: the calls beside that reading */

/* Export, and the length of the file, with a slice of so many bytes. */
static void export_is(const uint8_t *image, size_t length, uint64_t n, size_t room, const char *what) {
    lent s = lend(image, length), t = lend(NULL, room);
    uint8_t *file = room_for(14 + 6 + 2 + 60 * 512);
    uint64_t refusal = read_refusal(image, length);
    size_t due = 0;
    if (refusal == 0) {
        params q = four_numbers(image + 2);
        refusal = n >= q.k + q.r ? AIRSAFFRON_COLUMN : AIRSAFFRON_ACCEPTED;
    }
    if (refusal == 0) {
        due = plain_file(image, (unsigned)n, file);
    }
    expect_answer(airsaffron_file_length(s.at, s.length, n), refusal, due, 0, what);
    if (refusal == 0 && room != due) {
        refusal = AIRSAFFRON_ROOM;
    }
    if (refusal == 0) {
        memcpy(t.was, file, due);
    }
    expect_answer(airsaffron_export(s.at, s.length, n, t.at, t.length), refusal, 0, 0, what);
    expect(unchanged(s) && unchanged(t), what);
    free(file);
    take_back(s);
    take_back(t);
}

/* Import, and the length of the image, with an image of so many bytes; gives the refusal. */
static uint64_t import_is(const uint8_t *files, size_t length, size_t room, const char *what) {
    met m;
    lent s = lend(files, length), t = lend(NULL, room);
    uint64_t refusal = files_refusal(s.was, length, &m), absent = 0;
    size_t due = refusal == 0 ? image_bytes(four_numbers(s.was + 2)) : 0;
    expect_answer(airsaffron_files_length(s.at, s.length), refusal, due, 0, what);
    if (refusal == 0 && room != due) {
        refusal = AIRSAFFRON_ROOM;
    }
    if (refusal == 0) {
        absent = plain_image(&m, t.was);
    }
    expect_answer(airsaffron_import(s.at, s.length, t.at, t.length), refusal, absent, 0, what);
    expect(unchanged(s) && unchanged(t), what);
    take_back(s);
    take_back(t);
    return refusal;
}

/* The same, where the refusal is known. */
static void import_refuses(const uint8_t *files, size_t length, size_t room, uint64_t refusal, const char *what) {
    expect(import_is(files, length, room, what) == refusal, what);
}

/* A stripe with the files of its columns, in the order of the columns, and where each starts. */
typedef struct boxes {
    params q;
    unsigned columns;
    uint8_t *image;
    size_t length;
    uint8_t *files;
    size_t at[62];
} boxes;

static uint32_t last_drawn = 1;
static unsigned drawn(unsigned below) {
    last_drawn = last_drawn * 1664525U + 1013904223U;
    return (last_drawn >> 8) % below;
}

/* The boxes of a right image. */
static boxes boxes_of(const uint8_t *image) {
    boxes x;
    unsigned n;
    x.q = four_numbers(image + 2);
    x.columns = x.q.k + x.q.r;
    x.length = image_bytes(x.q);
    x.image = room_for(x.length);
    memcpy(x.image, image, x.length);
    x.files = room_for(x.columns * (22 + column_bytes(x.q)));
    x.at[0] = 0;
    for (n = 0; n < x.columns; n++) {
        x.at[n + 1] = x.at[n] + plain_file(image, n, x.files + x.at[n]);
    }
    return x;
}

/* The boxes of a right image with drawn data and revisions. */
static boxes drawn_boxes(unsigned p, unsigned k, unsigned r, unsigned b) {
    size_t width = (size_t)k * (p - 1) * b, length = 16 + 4 * k + (size_t)(k + r) * (p - 1) * b, i;
    uint8_t *bytes = room_for(width), *image = room_for(length);
    boxes x;
    for (i = 0; i < width; i++) {
        bytes[i] = (uint8_t)drawn(256);
    }
    expect_answer(airsaffron_make(p, k, r, b, bytes, width, image, length), 0, 0, 0, "a stripe for the boxes");
    for (i = 0; i < 4 * k; i++) {
        image[12 + i] = (uint8_t)drawn(256);
    }
    x = boxes_of(image);
    free(bytes);
    free(image);
    return x;
}

static void throw_away(boxes x) {
    free(x.image);
    free(x.files);
}

/* Puts the file of column n, and says where the next one goes. */
static uint8_t *put_box(uint8_t *to, const boxes *x, unsigned n) {
    return put_bytes(to, x->files + x->at[n], x->at[n + 1] - x->at[n]);
}

/* The files of columns in this order, one after another; their length */
static size_t put_boxes(uint8_t *to, const boxes *x, const unsigned *order, unsigned count) {
    uint8_t *end = to;
    unsigned i;
    for (i = 0; i < count; i++) {
        end = put_box(end, x, order[i]);
    }
    return (size_t)(end - to);
}

/* ---- export */

/* Each column and some that are none, each with a slice of its file's length, one less, one more, and none. */
static void exports_are(const boxes *x) {
    unsigned n;
    for (n = 0; n < x->columns; n++) {
        size_t due = x->at[n + 1] - x->at[n];
        export_is(x->image, x->length, n, due, "export of a column");
        export_is(x->image, x->length, n, due - 1, "export, file one too short");
        export_is(x->image, x->length, n, due + 1, "export, file one too long");
        export_is(x->image, x->length, n, 0, "export, no byte for the file");
    }
    export_is(x->image, x->length, x->columns, x->at[1], "export of column k + r");
    export_is(x->image, x->length, UINT64_C(1) << 32, x->at[1], "export of column 2^32");
    export_is(x->image, x->length, UINT64_MAX, x->at[1], "export of column 2^64 - 1");
    export_is(x->image, x->length - 1, 0, x->at[1], "export of an image less one byte");
    export_is(x->image, 0, 0, x->at[1], "export of no image");
    export_is(x->image, 0, 0, 0, "export of no image to no byte");
}

static void file_of_I(unsigned n, const uint8_t *file, size_t length, const char *what) {
    lent s = lend(I, I_LENGTH), t = lend(NULL, length);
    expect_answer(airsaffron_file_length(s.at, s.length, n), 0, length, 0, what);
    expect_answer(airsaffron_export(s.at, s.length, n, t.at, t.length), 0, 0, 0, what);
    expect(unchanged(s) && holds_bytes(t, file), what);
    take_back(s);
    take_back(t);
}

static void test_export(void) {
    static const uint8_t data_1[26] = {6, 0, 5, 0, 2, 0, 2, 0, 1, 0, 1, 0, 0, 0, 1, 0, 7, 0, 0, 0, 4, 0, 0, 2, 0, 0};
    static const uint8_t parity_1[22] = {6, 0, 5, 0, 2, 0, 2, 0, 1, 0, 3, 0, 1, 0, 0, 0, 4, 0, 3, 3, 3, 0};
    boxes x = boxes_of(I), y = drawn_boxes(7, 4, 3, 5);
    size_t at, n;
    unsigned v;
    file_of_I(1, data_1, 26, "the file of data column 1 of I");
    file_of_I(3, parity_1, 22, "the file of parity column 1 of I");
    exports_are(&x);
    exports_are(&y);
    for (at = 0; at < I_LENGTH; at++) {
        for (v = 0; v < 256; v++) {
            x.image[at] = (uint8_t)v;
            for (n = 0; n < 5; n += 2) {
                export_is(x.image, x.length, n, n < 2 ? 26 : 22, "export with a byte of I changed");
            }
        }
        x.image[at] = I[at];
    }
    throw_away(x);
    throw_away(y);
}

/* ---- import */

/* "Exporting all columns and importing them in any order gives the image back", here of I in each order. */
static void test_import_orders(void) {
    boxes x = boxes_of(I);
    uint8_t files[96];
    unsigned i;
    for (i = 0; i < 24; i++) {
        unsigned left[4] = {0, 1, 2, 3}, order[4], n;
        lent s, t = lend(NULL, I_LENGTH);
        for (n = 0; n < 4; n++) {
            unsigned at = n == 0 ? i / 6 : n == 1 ? i / 2 % 3 : n == 2 ? i % 2 : 0;
            order[n] = left[at];
            memmove(left + at, left + at + 1, (3 - at) * sizeof left[0]);
        }
        s = lend(files, put_boxes(files, &x, order, 4));
        expect_answer(airsaffron_files_length(s.at, s.length), 0, I_LENGTH, 0, "the length of I");
        expect_answer(airsaffron_import(s.at, s.length, t.at, t.length), 0, 0, 0, "all columns of I in an order");
        expect(unchanged(s) && holds_bytes(t, I), "I again");
        take_back(s);
        take_back(t);
    }
    throw_away(x);
}

/* Each set of columns, with the lowest first and with the highest first, into an image of L bytes, one less, one more, and none. */
static void sets_are(const boxes *x) {
    uint8_t *files = room_for(x->at[x->columns]);
    unsigned set, n, up;
    for (set = 0; set < 1U << x->columns; set++) {
        for (up = 0; up < 2; up++) {
            unsigned order[61], count = 0;
            size_t length;
            for (n = 0; n < x->columns; n++) {
                unsigned column = up ? n : x->columns - 1 - n;
                if (set >> column & 1) {
                    order[count++] = column;
                }
            }
            length = put_boxes(files, x, order, count);
            import_refuses(files, length, x->length, count ? AIRSAFFRON_ACCEPTED : AIRSAFFRON_CUT, "import of a set of columns");
            import_refuses(files, length, x->length - 1, count ? AIRSAFFRON_ROOM : AIRSAFFRON_CUT, "import, image one too short");
            import_refuses(files, length, x->length + 1, count ? AIRSAFFRON_ROOM : AIRSAFFRON_CUT, "import, image one too long");
            import_refuses(files, length, 0, count ? AIRSAFFRON_ROOM : AIRSAFFRON_CUT, "import, no byte for the image");
        }
    }
    free(files);
}

/* All files, cut at each length; and each stray byte behind them. */
static void cuts_are(const boxes *x) {
    size_t all = x->at[x->columns], n;
    uint8_t *files = room_for(all + 14);
    unsigned v;
    memcpy(files, x->files, all);
    for (n = 0; n < all; n++) {
        import_is(files, n, x->length, "files cut");
    }
    for (v = 0; v < 256; v++) {
        files[all] = (uint8_t)v;
        import_refuses(files, all + 1, x->length, AIRSAFFRON_CUT, "a stray byte behind the last file");
        files[all + 1] = 0;
        import_refuses(files, all + 2, x->length, v == 6 ? AIRSAFFRON_CUT : AIRSAFFRON_COUNT, "two stray bytes");
    }
    memcpy(files + all, files, 14);
    import_refuses(files, all + 13, x->length, AIRSAFFRON_CUT, "13 stray bytes of a file");
    import_refuses(files, all + 14, x->length, AIRSAFFRON_TWICE, "14 stray bytes of a file");
    free(files);
}

/* Each byte of the files with each value: that of section one, of the counts, of a revision, of a strip. */
static void damages_are(const boxes *x) {
    size_t at;
    unsigned v;
    for (at = 0; at < x->at[x->columns]; at++) {
        uint8_t was = x->files[at];
        for (v = 0; v < 256; v++) {
            x->files[at] = (uint8_t)v;
            import_is(x->files, x->at[x->columns], x->length, "a byte of the files changed");
        }
        x->files[at] = was;
    }
}

/* A file behind all others, or behind the first: of a column met again, and of other parameters. */
static void test_import_second(void) {
    static const unsigned unlike[5][4] = {{7, 2, 2, 1}, {5, 3, 2, 1}, {5, 2, 3, 1}, {5, 2, 2, 2}, {5, 1, 2, 1}};
    boxes x = boxes_of(I);
    uint8_t files[256];
    unsigned i, n;
    for (n = 0; n < 4; n++) {
        size_t all = (size_t)(put_box(put_bytes(files, x.files, x.at[4]), &x, n) - files);
        import_refuses(files, all, I_LENGTH, AIRSAFFRON_TWICE, "a column again behind all");
        all = (size_t)(put_box(put_box(files, &x, n), &x, n) - files);
        import_refuses(files, all, I_LENGTH, AIRSAFFRON_TWICE, "a column twice");
    }
    for (i = 0; i < 5; i++) {
        boxes y = drawn_boxes(unlike[i][0], unlike[i][1], unlike[i][2], unlike[i][3]);
        for (n = 0; n < y.columns; n++) {
            size_t all = (size_t)(put_box(put_box(files, &x, 0), &y, n) - files);
            import_refuses(files, all, I_LENGTH, AIRSAFFRON_FOREIGN, "a file with parameters unlike the first's");
            import_refuses(files, all, y.length, AIRSAFFRON_FOREIGN, "the same with the room of the second's image");
        }
        throw_away(y);
    }
    throw_away(x);
}

/* Where two refusals are due, the earlier in the order: a file of column 0 behind one of I's column 1, with two numbers of 16 bits set. */
static void two_refuse(size_t at, unsigned v, size_t at_2, unsigned v_2, size_t cut, uint64_t refusal, const char *what) {
    boxes x = boxes_of(I);
    uint8_t files[64];
    uint8_t *second = put_box(files, &x, 1);
    size_t all = (size_t)(put_box(second, &x, 0) - files);
    put_sixteen(second + at, v);
    put_sixteen(second + at_2, v_2);
    import_refuses(files, all - cut, I_LENGTH, refusal, what);
    throw_away(x);
}

static void test_import_order_of_refusals(void) {
    enum { COUNT_1 = 0, P = 2, K = 4, R = 6, B = 8, N = 10, FLAG = 12, COUNT_2 = 14, COUNT_3 = 20, LENGTH = 26 };
    two_refuse(COUNT_1, 5, P, 9, LENGTH - 1, AIRSAFFRON_CUT, "CUT below 2 before COUNT");
    two_refuse(COUNT_1, 5, P, 9, LENGTH - 2, AIRSAFFRON_COUNT, "section one's COUNT before CUT below 14");
    two_refuse(COUNT_1, 4, P, 9, 0, AIRSAFFRON_COUNT, "section one's COUNT before PRIME");
    two_refuse(P, 9, K, 0, LENGTH - 13, AIRSAFFRON_CUT, "CUT below 14 before PRIME");
    two_refuse(P, 9, K, 0, LENGTH - 14, AIRSAFFRON_PRIME, "PRIME before SHAPE");
    two_refuse(R, 4, B, 513, 0, AIRSAFFRON_SHAPE, "SHAPE before STRIP");
    two_refuse(B, 0, N, 4, 0, AIRSAFFRON_STRIP, "STRIP before COLUMN");
    two_refuse(N, 4, FLAG, 9, 0, AIRSAFFRON_COLUMN, "COLUMN before FOREIGN for the flag");
    two_refuse(R, 1, N, 3, 0, AIRSAFFRON_COLUMN, "COLUMN by the file's own k + r, before FOREIGN");
    two_refuse(R, 3, N, 4, 0, AIRSAFFRON_FOREIGN, "a column below the file's own k + r: FOREIGN");
    two_refuse(N, 1, FLAG, 1, 0, AIRSAFFRON_FOREIGN, "FOREIGN for the flag before TWICE");
    two_refuse(N, 1, P, 7, 0, AIRSAFFRON_FOREIGN, "FOREIGN for p before TWICE");
    two_refuse(N, 1, COUNT_2, 2, 1, AIRSAFFRON_TWICE, "TWICE before CUT");
    two_refuse(COUNT_2, 0, COUNT_3, 5, 1, AIRSAFFRON_CUT, "CUT before the other counts");
    two_refuse(COUNT_2, 0, COUNT_2, 0, 0, AIRSAFFRON_COUNT, "no revision for data");
    two_refuse(COUNT_3, 5, COUNT_3, 5, 0, AIRSAFFRON_COUNT, "count of section three");
    two_refuse(N, 2, FLAG, 1, 0, AIRSAFFRON_COUNT, "a data column's file with the number and flag of a parity column");
}

/* Draws files of some stripes, changes up to two bytes, cuts some, and lends now and then a wrong room. */
static void test_import_drawn(void) {
    static int how_often[END];
    boxes of[4];
    uint8_t files[512];
    unsigned i, n;
    of[0] = boxes_of(I);
    of[1] = drawn_boxes(5, 3, 2, 1);
    of[2] = drawn_boxes(5, 2, 2, 3);
    of[3] = drawn_boxes(3, 1, 1, 2);
    for (i = 0; i < 20000; i++) {
        const boxes *x = &of[drawn(4)];
        unsigned count = 1 + drawn(x->columns), first = drawn(x->columns), changes = drawn(3);
        uint8_t *end = files;
        size_t length;
        for (n = 0; n < count; n++) {
            end = drawn(20) == 0 ? put_box(end, &of[drawn(4)], 0) : put_box(end, x, drawn(20) == 0 ? drawn(x->columns) : (first + n) % x->columns);
        }
        length = (size_t)(end - files);
        for (n = 0; n < changes; n++) {
            files[drawn((unsigned)length)] = (uint8_t)(drawn(4) == 0 ? drawn(256) : drawn(8));
        }
        length -= drawn(10) == 0 ? drawn((unsigned)length) : 0;
        how_often[import_is(files, length, x->length + (drawn(20) == 0), "drawn files")]++;
    }
    for (n = 0; n < 4; n++) {
        throw_away(of[n]);
    }
    expect(how_often[AIRSAFFRON_ACCEPTED] > 99 && how_often[AIRSAFFRON_CUT] > 99 && how_often[AIRSAFFRON_COUNT] > 99, "drawn often");
    expect(how_often[AIRSAFFRON_PRIME] > 99 && how_often[AIRSAFFRON_SHAPE] > 99 && how_often[AIRSAFFRON_STRIP] > 99, "drawn often");
    expect(how_often[AIRSAFFRON_COLUMN] > 99 && how_often[AIRSAFFRON_FOREIGN] > 99 && how_often[AIRSAFFRON_TWICE] > 99, "drawn often");
    expect(how_often[AIRSAFFRON_ROOM] > 99, "drawn often");
}

static void test_import(void) {
    boxes x = boxes_of(I), y = drawn_boxes(7, 4, 3, 5), z = drawn_boxes(3, 1, 1, 1);
    sets_are(&x);
    sets_are(&y);
    sets_are(&z);
    cuts_are(&x);
    cuts_are(&y);
    cuts_are(&z);
    damages_are(&x);
    damages_are(&z);
    throw_away(x);
    throw_away(y);
    throw_away(z);
}

/* ---- boxes that are absent: import, then rebuild with its pattern */

/* The image comes back, but for the revisions of absent data columns, which are 0. */
static void comes_back(const boxes *x, uint64_t absent) {
    uint8_t *files = room_for(x->at[x->columns]), *end = files;
    lent s = lend(NULL, x->length);
    airsaffron_answer answer;
    unsigned n;
    memcpy(s.was, x->image, x->length);
    for (n = x->columns; n-- > 0;) {
        if (!(absent >> n & 1)) {
            end = put_box(end, x, n);
        } else if (n < x->q.k) {
            memset(s.was + 12 + 4 * n, 0, 4);
        }
    }
    answer = airsaffron_import(files, (size_t)(end - files), s.at, s.length);
    expect_answer(answer, 0, absent, 0, "import without some boxes");
    expect_answer(airsaffron_rebuild(s.at, s.length, answer.first), 0, 0, 0, "their columns rebuilt");
    expect(unchanged(s), "the image again, but for the revisions of absent data columns");
    free(files);
    take_back(s);
}

static void test_absent_boxes(void) {
    boxes x = boxes_of(I), y = drawn_boxes(7, 4, 3, 5);
    uint64_t absent;
    size_t i;
    for (i = 0; i < 11; i++) {
        comes_back(&x, few_lost[i]);
    }
    for (absent = 0; absent < 128; absent++) {
        unsigned n, count = 0;
        for (n = 0; n < 7; n++) {
            count += (unsigned)(absent >> n & 1);
        }
        if (count <= 3) {
            comes_back(&y, absent);
        }
    }
    throw_away(x);
    throw_away(y);
}

/* ---- column files at the limits: p=61, B=512, and 61 columns */

static void limits_are(unsigned k, unsigned r, uint64_t absent) {
    boxes x = drawn_boxes(61, k, r, 512);
    size_t all = x.at[61];
    uint8_t *files = room_for(all + 1);
    unsigned order[61], n;
    for (n = 0; n < 61; n++) {
        export_is(x.image, x.length, n, x.at[n + 1] - x.at[n], "export of each of 61 columns");
        order[n] = n * 17 % 61;
    }
    expect(put_boxes(files, &x, order, 61) == all, "the files of 61 columns");
    import_refuses(files, all, x.length, AIRSAFFRON_ACCEPTED, "import of 61 columns");
    import_refuses(files, all, x.length - 1, AIRSAFFRON_ROOM, "import of 61 columns, image one too short");
    import_refuses(files, all, x.length + 1, AIRSAFFRON_ROOM, "import of 61 columns, image one too long");
    files[all] = 6;
    import_refuses(files, all + 1, x.length, AIRSAFFRON_CUT, "a stray byte behind 61 files");
    import_refuses(x.files, all - 1, x.length, AIRSAFFRON_CUT, "the last of 61 files cut");
    import_refuses(x.files, x.at[60], x.length, AIRSAFFRON_ACCEPTED, "column 60 absent");
    import_refuses(x.files + x.at[60], x.at[61] - x.at[60], x.length, AIRSAFFRON_ACCEPTED, "column 60 alone");
    put_sixteen(x.files + x.at[60] + 10, 61);
    import_refuses(x.files, all, x.length, AIRSAFFRON_COLUMN, "column 61 of 61");
    put_sixteen(x.files + x.at[60] + 10, 60);
    comes_back(&x, absent);
    free(files);
    throw_away(x);
}

static void test_file_limits(void) {
    limits_are(60, 1, UINT64_C(1) << 59);
    limits_are(31, 30, UINT64_C(0x3FFFFFFF));
}

int main(void) {
    int n;
    expect(sizeof(airsaffron_answer) == 24, "an answer is three words");
    test_ring();
    test_make();
    test_read();
    test_check();
    test_write();
    test_notes_behind();
    test_rebuild();
    test_write_away();
    test_restore_and_show();
    test_limits();
    test_export();
    test_import();
    test_import_orders();
    test_import_second();
    test_import_order_of_refusals();
    test_import_drawn();
    test_absent_boxes();
    test_file_limits();
    for (n = 0; n < END; n++) {
        expect(seen[n] == (n != AIRSAFFRON_LONG), "every number but LONG was answered");
    }
    printf("%u passed, %u failed\n", passed, failed);
    return failed != 0;
}
