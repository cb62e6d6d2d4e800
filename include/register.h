/* The job register: a Robin Hood hash table with true deletion, in memory that the caller lends.
 *
 * A register is a head, passed and returned by value, and two arrays: 2M words of 64 bits (slot i has its identifier at
 * 2i and its entry at 2i+1) and M counts of 16 bits (0: an empty slot; else the record's probe count, 1 at its home).
 * M lies from 2 to 32,768 and need not be a power of two. At most M-1 records are live. Identifiers and entries may be
 * any 64-bit numbers, 0 among them.
 *
 * Every call answers on every input: any head, any lengths, any contents. A call whose number is not 0 has written
 * nothing and returns the head that it was given. What the caller owes is what C always asks: a pointer to as many
 * elements as the length beside it says (any pointer but NULL, suitably aligned, where the length is 0), and in one call
 * two arrays that do not overlap. No call keeps a pointer, allocates, locks or does input or output.
 *
 * Keep the head of each answer: it is the register's head from then on.
 *
 * Link with libexports.a, for x86-64 Linux; nothing else is needed.
 */
#ifndef REGISTER_H
#define REGISTER_H

#include <stddef.h>
#include <stdint.h>

#ifdef __cplusplus
extern "C" {
#endif

/* The limits of M, and the two home rules. */
#define REGISTER_LEAST_SLOTS 2
#define REGISTER_MOST_SLOTS 32768
#define REGISTER_RULE_REMAINDER 0 /* a record's home is its identifier's remainder by M; the salt is not used */
#define REGISTER_RULE_HASHED 1    /* 64-bit FNV-1a of the salt and the identifier, its remainder by M */

/* The numbers that come back. */
#define REGISTER_DONE 0
#define REGISTER_BAD_HEAD 1      /* M outside 2 to 32,768, rule above 1, or live above M-1 */
#define REGISTER_BAD_LENGTH 2    /* words not 2M or counts not M */
#define REGISTER_ALREADY_NAMED 3 /* store: the identifier is live; its slot, entry and probes come back */
#define REGISTER_FULL 4          /* store: M-1 records are live */
#define REGISTER_ABSENT 5        /* find, remove, change: the identifier is not live; slot and probes come back */
#define REGISTER_DAMAGED 6       /* the table is not one that the calls could have made */

/* A head of zeros stands for a register that was never cleared: every call but clear answers 1 to it. */
typedef struct {
    size_t slots;  /* M */
    uint64_t salt; /* used by rule 1 */
    size_t live;   /* the number of live records */
    uint8_t rule;  /* 0 or 1 */
} register_head;

/* The fields that a call does not name below are 0. */
typedef struct {
    uint8_t number; /* 0 to 6 */
    size_t slot;    /* where the record stands, was stored, or stood; with 5, where the walk ended */
    uint64_t entry; /* the entry stored, found, removed, or newly set */
    size_t probes;  /* the slots that the walk looked at */
    size_t moved;   /* the records that changed slot */
    register_head head;
} register_answer;

typedef struct {
    uint8_t number;  /* 0, 1 or 2 */
    size_t greatest; /* the greatest count */
    size_t stored;   /* the sum of all counts: the probes of finding each record once */
    size_t absent;   /* stored plus M: the probes of one absent search from each home */
    register_head head;
} register_totals;

/* Zeroes both arrays and returns the head of an empty register of M = slots, with this rule and salt.
 * Numbers: 0; 1, which tests the new slots and rule and not the old head; 2. A refusal hands back the old head. */
register_answer register_clear(register_head old, size_t slots, uint8_t rule, uint64_t salt,
                               uint64_t *words, size_t words_length, uint16_t *counts, size_t counts_length);

/* Looks an identifier up. Writes nothing. With n live records in a table that check accepts, found takes at most n
 * probes and absent at most n+1. There, while live is below M-1, a store of the absent identifier as the next call puts it
 * at the slot that came back with 5, with the same probes. In any table that slot is below M, so it can be prefetched.
 * Numbers: 0 with slot, entry, probes; 1; 2; 5 with slot, probes; 6. */
register_answer register_find(register_head head, const uint64_t *words, size_t words_length,
                              const uint16_t *counts, size_t counts_length, uint64_t identifier);

/* Adds a record. Records behind it move one slot on, up to the next empty slot.
 * Numbers: 0 with slot, entry, probes, moved; 1; 2; 3 with slot, entry, probes; 4; 6. */
register_answer register_store(register_head head, uint64_t *words, size_t words_length,
                               uint16_t *counts, size_t counts_length, uint64_t identifier, uint64_t entry);

/* Takes a record out. Records behind it move one slot back: no mark is left.
 * Numbers: 0 with slot, entry, probes, moved; 1; 2; 5 with slot, probes; 6. */
register_answer register_remove(register_head head, uint64_t *words, size_t words_length,
                                uint16_t *counts, size_t counts_length, uint64_t identifier);

/* Gives a live identifier a new entry. Writes one word.
 * Numbers: 0 with slot, entry, probes; 1; 2; 5 with slot, probes; 6. */
register_answer register_change(register_head head, uint64_t *words, size_t words_length,
                                const uint16_t *counts, size_t counts_length, uint64_t identifier, uint64_t entry);

/* Accepts exactly when the table is the proper arrangement of its records, its empty slots are zero, and as many slots are
 * occupied as the head's live count says. Writes nothing. Numbers: 0; 1; 2; 6. */
register_answer register_check(register_head head, const uint64_t *words, size_t words_length,
                               const uint16_t *counts, size_t counts_length);

/* Sums any table, damaged or not. Writes nothing. Numbers: 0; 1; 2. */
register_totals register_census(register_head head, const uint64_t *words, size_t words_length,
                                const uint16_t *counts, size_t counts_length);

/* 64-bit FNV-1a of a byte string. */
uint64_t register_hash_bytes(const uint8_t *bytes, size_t length);

/* 64-bit FNV-1a of sixteen bytes: the salt and then the identifier, each least significant byte first. */
uint64_t register_hash_key(uint64_t salt, uint64_t identifier);

#ifdef __cplusplus
}
#endif

#endif
