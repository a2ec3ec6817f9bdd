// The output of `paced` at its end. See paced.h.
#include <stdio.h>

#include "../endurance/wire.h"
#include "paced.h"

static void report_each(void) {
    printf(", \"each\": [");
    for (int place = 0; place < call_count; place++) {
        const struct call *call = &calls[place];
        printf("%s[%u, %u, %u, %u]", place ? ", " : "", call->sent[0], call->taken[1], call->sent[1], call->taken[0]);
    }
    printf("]");
}

void report(void) {
    unsigned drops = 0, lossy = 0;
    double worst = 0;
    for (int place = 0; place < peer_count; place++) drops += drops_of(&peers[place]);
    for (int place = 0; place < call_count; place++)
        for (int side = 0; side < 2; side++) {
            const struct call *call = &calls[place];
            if (call->taken[1 - side] >= call->sent[side]) continue;
            double lost = 1 - (double)call->taken[1 - side] / call->sent[side];
            lossy++;
            if (lost > worst) worst = lost;
        }
    printf("{\"calls\": %d, \"set_up\": %.3f, \"seconds\": %.3f, \"processor\": %.6f", call_count, seen.set_up, seen.sending,
           seen.processor);
#define TELL(name) printf(", \"%s\": %lu", #name, seen.name)
    TELL(sent), TELL(taken), TELL(taken_in_time), TELL(twice), TELL(disordered), TELL(strange), TELL(unsent);
    TELL(turns), TELL(left_out), TELL(cut);
    TELL(trunks_sent), TELL(trunks), TELL(entries), TELL(minis), TELL(voices), TELL(wire_octets);
    printf(", \"drops\": %u, \"lossy_ways\": %u, \"worst_loss\": %.5f", drops, lossy, worst);
    print_latencies(&seen.latencies);
    if (wanted.each) report_each();
    printf("}\n");
}

