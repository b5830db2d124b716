/* A trip of the tracker unit, carried through the drawing T (drawings/trip.adl): memory is taken, filled, sent and freed, and each of these is done only after
 * the guard table has taken its event. docs/FIRMWARE.md explains it.
 *
 *     bash .ci/made firmware
 *     gcc -std=c11 -Iinclude -Iexamples -o target/trip examples/trip.c target/staticlib/libfirmware.a && target/trip
 */
#include "adl.h"
#include "trip_table.h"

#include <stdbool.h>
#include <stdio.h>
#include <stdlib.h>

/* What the unit keeps of a run: 64 bytes, blank at its start. They may lie in memory that survives a reset of the processor. */
struct trip {
    uint8_t record[ADL_RECORD_BYTES];
    char *memory;
};

/* Takes an event, and says so. The work that the event stands for is done only where this answers yes. */
static bool take_event(struct trip *trip, uint64_t event, const char *what) {
    uint8_t answer = adl_step(trip_table, sizeof trip_table, trip->record, sizeof trip->record, event);
    if (answer == ADL_DONE) printf("%s: done\n", what);
    else printf("%s: refused %d\n", what, answer);
    return answer == ADL_DONE;
}

static bool may_come(const struct trip *trip, uint64_t event) {
    uint8_t offered[ADL_OFFER_BYTES] = {0};
    adl_offer(trip_table, sizeof trip_table, trip->record, sizeof trip->record, offered, sizeof offered);
    return (offered[event / 8] >> (7 - event % 8)) & 1;
}

static bool is_finished(const struct trip *trip) {
    return adl_finished(trip_table, sizeof trip_table, trip->record, sizeof trip->record) == ADL_FINISHED;
}

static void give_back(struct trip *trip) {
    if (!take_event(trip, trip_free, "free")) return;
    free(trip->memory);
    trip->memory = NULL;
}

/* As far as the link is up the position goes out, else it is dropped; the memory is given back in both cases. */
static void carry(struct trip *trip, int positions, bool link_is_up) {
    if (take_event(trip, trip_take, "take")) trip->memory = calloc(16, 1);
    for (int i = 0; i < positions; i++) {
        if (take_event(trip, trip_fill, "fill") && trip->memory) trip->memory[i % 16] = (char)i;
    }
    take_event(trip, link_is_up ? trip_send : trip_drop, link_is_up ? "send" : "drop");
    printf("fill may come: %s\n", may_come(trip, trip_fill) ? "yes" : "no");
    printf("finished: %s\n", is_finished(trip) ? "yes" : "no");
    give_back(trip);
    /* The slip: an error path that frees once more. The table does not take it, so the memory is not touched. */
    give_back(trip);
    printf("finished: %s\n", is_finished(trip) ? "yes" : "no");
}

int main(void) {
    /* Once, when the table comes into the unit. Each later call checks it again. */
    if (adl_check(trip_table, sizeof trip_table) != ADL_SOUND) return EXIT_FAILURE;
    struct trip first = {0}, second = {0};
    carry(&first, 2, true);
    carry(&second, 0, false);
    return is_finished(&first) && is_finished(&second) ? EXIT_SUCCESS : EXIT_FAILURE;
}
