/* Stores five jobs, finds one, changes it, removes another, and prints what comes back. */
#include <inttypes.h>
#include <stdio.h>

#include "register.h"

enum { SLOTS = 8 };

static uint64_t words[2 * SLOTS];
static uint16_t counts[SLOTS];

static register_head shown(const char *call, uint64_t identifier, register_answer a)
{
    printf("%-6s %2" PRIx64 ": number %u, slot %zu, entry %" PRIx64 ", probes %zu, moved %zu, live %zu\n",
           call, identifier, (unsigned)a.number, a.slot, a.entry, a.probes, a.moved, a.head.live);
    return a.head;
}

int main(void)
{
    static const uint64_t jobs[] = {0x10, 0x08, 0x0f, 0x07, 0x01};
    register_head head = {0};

    head = shown("clear", 0, register_clear(head, SLOTS, REGISTER_RULE_REMAINDER, 0, words, 2 * SLOTS, counts, SLOTS));
    for (size_t i = 0; i < sizeof jobs / sizeof jobs[0]; i++)
        head = shown("store", jobs[i], register_store(head, words, 2 * SLOTS, counts, SLOTS, jobs[i], 0xa1 + i));

    head = shown("find", 0x08, register_find(head, words, 2 * SLOTS, counts, SLOTS, 0x08));
    head = shown("change", 0x08, register_change(head, words, 2 * SLOTS, counts, SLOTS, 0x08, 0xb2));
    head = shown("remove", 0x07, register_remove(head, words, 2 * SLOTS, counts, SLOTS, 0x07));
    head = shown("find", 0x07, register_find(head, words, 2 * SLOTS, counts, SLOTS, 0x07));
    head = shown("check", 0, register_check(head, words, 2 * SLOTS, counts, SLOTS));

    register_totals t = register_census(head, words, 2 * SLOTS, counts, SLOTS);
    printf("census: greatest %zu, stored %zu, absent %zu\n", t.greatest, t.stored, t.absent);

    for (size_t i = 0; i < SLOTS; i++)
        printf("slot %zu: count %u, identifier %" PRIx64 ", entry %" PRIx64 "\n",
               i, (unsigned)counts[i], words[2 * i], words[2 * i + 1]);
    return 0;
}
