/* Every function of the header but wairepomuro_read, which examples/roster.c has, in what C and C++ share. Runs the calls on standard input and
 * prints the answers, both in the form of `watch`. Where relays are given as arguments, their stretches of the sheet follow, and what the other
 * functions answer. */
#include <assert.h>
#include <inttypes.h>
#include <stdio.h>
#include <stdlib.h>

#include "wairepomuro.h"

static_assert(sizeof(wairepomuro_relay_number) == sizeof(uint32_t), "a relay's number is more than a number");
static_assert(sizeof(wairepomuro_tablet_number) == sizeof(uint32_t), "a tablet's number is more than a number");

enum { RELAYS = 2 * 256, TABLETS = 2 * 4096, MOVES = 3 * 4096, TALLY = 4, SHEET = 4096 };

static uint32_t scheme;
static uint32_t relays[RELAYS];
static uint32_t tablets[TABLETS];
static uint32_t moves[MOVES];
static uint32_t tally[TALLY];
static uint32_t sheet[SHEET];

#define TABLES scheme, relays, RELAYS, tablets, TABLETS
#define LENT TABLES, moves, MOVES, tally, TALLY

static uint32_t call(char kind, uint32_t number, wairepomuro_reply *reply) {
    wairepomuro_relay_number relay = {number};
    wairepomuro_tablet_number tablet = {number};
    uint32_t limit = 0;
    if ((kind == 'a' || kind == 's') && scanf("%" SCNu32, &limit) != 1) {
        exit(2);
    }
    switch (kind) {
    case 'a':
        return wairepomuro_add(LENT, relay, limit, reply);
    case 'r':
        return wairepomuro_remove(LENT, relay, reply);
    case 's':
        return wairepomuro_set(LENT, relay, limit, reply);
    case 'e':
        return wairepomuro_enrol(LENT, tablet, reply);
    case 'w':
        return wairepomuro_withdraw(LENT, tablet, reply);
    case 'f':
        return wairepomuro_find(TABLES, tally, TALLY, tablet, reply);
    default:
        exit(2);
    }
}

static void answer(uint32_t refusal, const wairepomuro_reply *reply) {
    assert(refusal == reply->refusal);
    printf("%" PRIu32 " %" PRIu32 " %" PRIu32 " %" PRIu32 "\n", refusal, reply->relay, reply->passed, reply->moves);
    for (uint32_t i = 0; i < reply->moves; i++) {
        printf("m %" PRIu32 " %" PRIu32 " %" PRIu32 "\n", moves[3 * i], moves[3 * i + 1], moves[3 * i + 2]);
    }
}

static void stretch(wairepomuro_relay_number relay) {
    size_t start;
    size_t length = wairepomuro_stretch(TABLES, sheet, SHEET, relay, &start);
    printf("%" PRIu32 " from %zu:", relay.number, start);
    for (size_t i = start; i < start + length; i++) {
        printf(" %" PRIu32, sheet[i]);
    }
    printf("\n");
}

int main(int count, char **words) {
    if (scanf("scheme %" SCNu32, &scheme) != 1) {
        return 2;
    }
    printf("scheme %" PRIu32 "\n", scheme);
    char kind;
    uint32_t number;
    while (scanf(" %c %" SCNu32, &kind, &number) == 2) {
        wairepomuro_reply reply;
        uint32_t refusal = call(kind, number, &reply);
        answer(refusal, &reply);
    }
    if (count == 1) {
        return 0;
    }
    printf("check %" PRIu32 "\n", wairepomuro_check(TABLES));
    printf("sheet %" PRIu32 "\n", wairepomuro_sheet(TABLES, sheet, SHEET));
    for (int i = 1; i < count; i++) {
        wairepomuro_relay_number relay = {(uint32_t)strtoul(words[i], NULL, 10)};
        stretch(relay);
    }
    uint32_t limit;
    uint32_t refusal = wairepomuro_balance(5, 4, 10, 4, &limit);
    printf("balance %" PRIu32 " %" PRIu32 "\n", refusal, limit);
    return 0;
}
