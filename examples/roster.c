/* Reads a roster from standard input, enrols the tablet that its one argument names, and prints the reply and the moves, as `watch` does.
 *
 *     cc roster.c $(pkg-config --cflags --libs wairepomuro) -o roster
 *     ./roster 3 < night.roster
 */
#include <inttypes.h>
#include <stdio.h>
#include <stdlib.h>

#include "wairepomuro.h"

enum { RELAY_PLACES = 256, TABLET_PLACES = 4096, LONGEST = 20 + 8 * (RELAY_PLACES + TABLET_PLACES) };

static uint8_t bytes[LONGEST + 1];
static uint32_t relays[2 * RELAY_PLACES];
static uint32_t tablets[2 * TABLET_PLACES];
static uint32_t moves[3 * TABLET_PLACES];

int main(int count, char **words) {
    if (count != 2) {
        fprintf(stderr, "usage: %s TABLET < ROSTER\n", words[0]);
        return 2;
    }
    size_t length = fread(bytes, 1, sizeof bytes, stdin);
    uint32_t scheme;
    uint32_t refusal = wairepomuro_read(bytes, length, relays, 2 * RELAY_PLACES, tablets, 2 * TABLET_PLACES, &scheme);
    if (refusal != 0) {
        printf("roster refused: %" PRIu32 "\n", refusal);
        return 1;
    }
    printf("scheme %" PRIu32 "\n", scheme);

    wairepomuro_tablet_number tablet = {(uint32_t)strtoul(words[1], NULL, 10)};
    uint32_t tally[4] = {0};
    wairepomuro_reply reply;
    wairepomuro_enrol(scheme, relays, 2 * RELAY_PLACES, tablets, 2 * TABLET_PLACES, moves, 3 * TABLET_PLACES, tally, 4, tablet, &reply);
    printf("%" PRIu32 " %" PRIu32 " %" PRIu32 " %" PRIu32 "\n", reply.refusal, reply.relay, reply.passed, reply.moves);
    for (uint32_t i = 0; i < reply.moves; i++) {
        printf("m %" PRIu32 " %" PRIu32 " %" PRIu32 "\n", moves[3 * i], moves[3 * i + 1], moves[3 * i + 2]);
    }
    return reply.refusal != 0;
}
