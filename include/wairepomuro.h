/* Wairepomuro: tablets on relays round a ring, within the relays' limits, by one rule: limit first, then the lower number.
 *
 * The caller lends all memory; nothing is kept between calls, and no function allocates. Every function takes any numbers and slices of any
 * length, checks them itself and always returns. Two things are the caller's to see to: a pointer points to as many numbers as the length
 * beside it says (with length 0 nobody reads it, but it must not be null), and what is lent to be written to overlaps nothing else that is
 * lent to the same call. All of this is proved, function by function, of the code behind this header.
 *
 * Lent slices, in 32-bit numbers:
 *
 *   relays    two to a place: number, limit. At most 256 places.
 *   tablets   two to a place: number, relay. At most 4,096 places.
 *             In both, entries come first and rise strictly by number; every later place is two zeros. Numbers are at least 1, limits at
 *             most 4,096. All zeros is an empty table.
 *   moves     three to a move: tablet, old relay, new relay, by rising tablet. A slice of length n has room for n / 3 moves; what lies behind
 *             the last move stays as it was. The tablet that is enrolled or withdrawn is not in it.
 *   sheet     one to a tablet: all tablet numbers, by rising relay and then rising tablet.
 *   tally     four: accepted enrolments, accepted withdrawals, moves, refusals. Each stops at 4294967295. A slice of another length is left
 *             as it is, and the call does and replies the same.
 *
 * The relay or tablet that a call is about is named by a number of its own kind: (wairepomuro_relay_number){10} in C, and in C++
 * wairepomuro_relay_number{10}. With the other kind, or with a plain number, the call does not compile. Numbers in lent slices and replies are
 * plain. The archive is for x86-64 and the System V calling convention, by which a structure of one 32-bit number is passed as that number is.
 *
 * Scheme 0 puts a number at its own position; scheme 1 at the FNV-1a hash of a tag and the number.
 *
 * A call answers with a refusal number and writes the same number, with the rest of the reply, to *reply. Where it is not 0, relay, passed and
 * moves are 0, and nothing lent has changed but the count of refusals. Where several apply, the lowest is given:
 *
 *   0  done
 *   1  scheme other than 0 or 1
 *   2  lent tables not right: not of the shape above, or a relay beside a tablet is not the rule's
 *   3  a number that may not be zero is zero
 *   4  limit above 4,096; balance numbers out of range
 *   5  relay or tablet not there (remove, set, withdraw, find)
 *   6  relay or tablet there already (add, enrol)
 *   7  no unused place in the lent table (add, enrol)
 *   8  afterwards the limits would sum to fewer than the tablets (remove, set, enrol)
 *   9  move list shorter than the moves (all but find)
 *  10  roster shape wrong
 *  11  roster content wrong
 *  12  lent output unfit: sheet shorter than the tablets; tables that cannot take the roster
 *
 * After an accepted call the tables are what the rule gives for the relays, limits and tablets then current, and the move list names every
 * other tablet whose relay changed, once. */
#ifndef WAIREPOMURO_H
#define WAIREPOMURO_H

#include <stddef.h>
#include <stdint.h>

#ifdef __cplusplus
extern "C" {
#endif

/* The numbers of relays and those of tablets. Relay 10 and tablet 10 may both exist. */
typedef struct {
    uint32_t number;
} wairepomuro_relay_number;

typedef struct {
    uint32_t number;
} wairepomuro_tablet_number;

typedef struct {
    uint32_t refusal;
    uint32_t relay;  /* the relay of the call; of a call on a tablet, the tablet's: of withdraw and find, the one before the call */
    uint32_t passed; /* enrol: the full relays ahead of the first with room, before the call; withdraw, find: the relays ahead of the tablet's own */
    uint32_t moves;  /* how many stand in the move list */
} wairepomuro_reply;

/* Are these right tables under this scheme? 0 if so; else 1 or 2, as every call would say. */
uint32_t wairepomuro_check(uint32_t scheme, const uint32_t *relays, size_t relays_length, const uint32_t *tablets, size_t tablets_length);

/* Puts in a relay with this limit. */
uint32_t wairepomuro_add(uint32_t scheme, uint32_t *relays, size_t relays_length, uint32_t *tablets, size_t tablets_length,
                         uint32_t *moves, size_t moves_length, uint32_t *tally, size_t tally_length,
                         wairepomuro_relay_number relay, uint32_t limit, wairepomuro_reply *reply);

/* Takes out a relay. */
uint32_t wairepomuro_remove(uint32_t scheme, uint32_t *relays, size_t relays_length, uint32_t *tablets, size_t tablets_length,
                            uint32_t *moves, size_t moves_length, uint32_t *tally, size_t tally_length,
                            wairepomuro_relay_number relay, wairepomuro_reply *reply);

/* Changes the limit of a relay. */
uint32_t wairepomuro_set(uint32_t scheme, uint32_t *relays, size_t relays_length, uint32_t *tablets, size_t tablets_length,
                         uint32_t *moves, size_t moves_length, uint32_t *tally, size_t tally_length,
                         wairepomuro_relay_number relay, uint32_t limit, wairepomuro_reply *reply);

/* Puts in a tablet. */
uint32_t wairepomuro_enrol(uint32_t scheme, const uint32_t *relays, size_t relays_length, uint32_t *tablets, size_t tablets_length,
                           uint32_t *moves, size_t moves_length, uint32_t *tally, size_t tally_length,
                           wairepomuro_tablet_number tablet, wairepomuro_reply *reply);

/* Takes out a tablet. */
uint32_t wairepomuro_withdraw(uint32_t scheme, const uint32_t *relays, size_t relays_length, uint32_t *tablets, size_t tablets_length,
                              uint32_t *moves, size_t moves_length, uint32_t *tally, size_t tally_length,
                              wairepomuro_tablet_number tablet, wairepomuro_reply *reply);

/* Finds a tablet. Nothing is written but the reply and, where the call is refused, the tally. */
uint32_t wairepomuro_find(uint32_t scheme, const uint32_t *relays, size_t relays_length, const uint32_t *tablets, size_t tablets_length,
                          uint32_t *tally, size_t tally_length, wairepomuro_tablet_number tablet, wairepomuro_reply *reply);

/* Writes the sheet of these tables to the start of the lent slice; what lies behind it stays. Answers 0, 1, 2, or 12 where the slice is shorter
 * than the tablets; then nothing is written. */
uint32_t wairepomuro_sheet(uint32_t scheme, const uint32_t *relays, size_t relays_length, const uint32_t *tablets, size_t tablets_length,
                           uint32_t *sheet, size_t sheet_length);

/* Where the sheet lists one relay's tablets: answers how many numbers, and writes the index of the first to *start. A relay without tablets has 0
 * numbers, behind those of all relays with lower numbers. Where the scheme is unknown, the tables are not right, the sheet's first numbers are not
 * these tables' sheet, or the relay is not there, both are 0. Always *start plus the answer is at most sheet_length. */
size_t wairepomuro_stretch(uint32_t scheme, const uint32_t *relays, size_t relays_length, const uint32_t *tablets, size_t tablets_length,
                           const uint32_t *sheet, size_t sheet_length, wairepomuro_relay_number relay, size_t *start);

/* Works out the limit that every relay has with balance p/q: p * tablets / (q * relays), rounded up, or 4,096 where that is more. Answers 0; 3
 * where p, q or relays is 0; 4 where p or q is above 1,000, p below q, tablets above 4,096 or relays above 256. *limit is then 0. */
uint32_t wairepomuro_balance(uint32_t p, uint32_t q, uint32_t tablets, uint32_t relays, uint32_t *limit);

/* Reads a roster of any bytes into the lent tables and zeroes every place left over. It is taken only where its places are the rule's under the
 * scheme that its own trailer names; that scheme is written to *scheme. Answers 0, or in this order: 10 where the trailer and the length do not
 * agree or there are more than 256 relays or 4,096 tablets, 1 for a scheme that is not known, 12 where a lent table has an odd length, too few
 * places or too many, 11 where the entries are not right. Then the tables stay as they were, and *scheme is 0. */
uint32_t wairepomuro_read(const uint8_t *bytes, size_t bytes_length, uint32_t *relays, size_t relays_length,
                          uint32_t *tablets, size_t tablets_length, uint32_t *scheme);

#ifdef __cplusplus
}
#endif

#endif
