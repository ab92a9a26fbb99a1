/* call CALL P K R B LOST TIMES: makes a stripe, then runs one call on it TIMES times. bench/run counts its instructions from outside.
   With `stack` for TIMES it runs the call once, on a painted stack, and prints how many bytes of it the call takes. */
#define _XOPEN_SOURCE 700
#include "../include/airsaffron.h"

#include <stdio.h>
#include <stdlib.h>
#include <string.h>
#include <ucontext.h>

static uint8_t painted[256 * 1024];
static uint8_t data[60 * 60 * 512];
static uint8_t image[1874176];
static uint8_t room[512], *volatile room_at = room;
static uint8_t files[1875258];

enum { NOTHING = 15, PAINT = 0xa5 };
static const char *const names[NOTHING] = {"make", "refill", "check", "write", "away", "rebuild", "restore", "export", "import", "show",
                                           "read", "file_length", "files_length", "product", "divide"};

static size_t p, k, r, b, given, length, one, all, column;
static uint64_t lost, shape[4], refusal;
static unsigned long times;
static int which;

/* The empty call, by a pointer that the compiler does not see through. */
static airsaffron_answer empty(void) {
    return (airsaffron_answer){0, 0, 0};
}
static airsaffron_answer (*volatile nothing)(void) = empty;

/* Puts the files of all columns one after another; their length. */
static size_t put_files(size_t columns) {
    size_t at = 0;
    for (size_t n = 0; n < columns; n++) {
        size_t due = airsaffron_file_length(image, length, n).first;
        airsaffron_export(image, length, n, files + at, due);
        at += due;
    }
    return at;
}

/* The call `which`, `times` times. */
static void run(void) {
    uint8_t *strip = room_at; /* found here, and not in the counted loop */
    airsaffron_answer answer = {refusal, 0, 0};
    for (unsigned long i = 0; i < times && answer.refusal == 0; i++) {
        switch (which) {
        case 0: answer = airsaffron_make(p, k, r, b, data, given, image, length); break;
        case 1: answer = airsaffron_refill(image, length); break;
        case 2: answer = airsaffron_check(image, length); break;
        case 3: strip[0]++, answer = airsaffron_write(image, length, 0, 1, (uint32_t)i, strip, b); break;
        case 4: strip[0]++, answer = airsaffron_write_away(image, length, lost, 0, 1, (uint32_t)i, strip, b); break;
        case 5: answer = airsaffron_rebuild(image, length, lost); break;
        case 6: answer = airsaffron_restore(image, length, lost, column, 1, strip, b); break;
        case 7: answer = airsaffron_export(image, length, 0, files, one); break;
        case 8: answer = airsaffron_import(files, all, image, length); break;
        case 9: answer = airsaffron_show(image, length, lost, column, 1, strip, b); break;
        case 10: answer = airsaffron_read(image, length, shape); break;
        case 11: answer = airsaffron_file_length(image, length, 0); break;
        case 12: answer = airsaffron_files_length(files, all); break;
        case 13: answer = airsaffron_product(p, 3, 5); break;
        case 14: answer = airsaffron_divide(p, 3, 0, 1); break;
        default: answer = nothing(); break;
        }
    }
    refusal = answer.refusal;
}

/* Runs a call on the painted stack; the bytes from the lowest that is no longer paint to the stack's upper end. */
static size_t depth(int call) {
    static ucontext_t here, there;
    size_t low = 0;
    which = call;
    memset(painted, PAINT, sizeof painted);
    getcontext(&there);
    there.uc_stack.ss_sp = painted;
    there.uc_stack.ss_size = sizeof painted;
    there.uc_link = &here;
    makecontext(&there, run, 0);
    swapcontext(&here, &there);
    while (low < sizeof painted && painted[low] == PAINT) low++;
    return sizeof painted - low;
}

int main(int words, char **word) {
    int call = 0;
    if (words != 8) return 2;
    while (call < NOTHING && strcmp(word[1], names[call])) call++;
    if (call == NOTHING) return 2;
    p = strtoul(word[2], 0, 10), k = strtoul(word[3], 0, 10), r = strtoul(word[4], 0, 10), b = strtoul(word[5], 0, 10);
    lost = strtoull(word[6], 0, 0);
    while (lost >> column && !(lost >> column & 1)) column++; /* restore works only for a lost column: the lowest */
    given = k * (p - 1) * b, length = 16 + 4 * k + (k + r) * (p - 1) * b;
    for (size_t i = 0; i < given; i++) data[i] = (uint8_t)(i * 2654435761u >> 13);
    for (size_t i = 0; i < b; i++) room[i] = (uint8_t)(i * 77 + 1);
    refusal = airsaffron_make(p, k, r, b, data, given, image, length).refusal;
    one = airsaffron_file_length(image, length, 0).first, all = put_files(k + r);
    if (strcmp(word[7], "stack")) {
        times = strtoul(word[7], 0, 10), which = call;
        run();
    } else {
        times = 1;
        size_t before = depth(NOTHING);
        printf("%zu\n", depth(call) - before);
    }
    if (refusal != 0) fprintf(stderr, "call: refused %llu\n", (unsigned long long)refusal);
    return refusal != 0;
}
