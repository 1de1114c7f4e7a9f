/* What the message reader answers, in the words of the host's tool and of the dissector. */
#include "kalebasin.h"
#include <stdio.h>

static void put_words(FILE *to, KalebasinMessageResult r) {
    static const char *const kinds[] = {"", "START", "JOIN", "PROPOSE", "VOTE"};
    if (r.number) {
        fprintf(to, "refused with %u: %s", r.number, kalebasin_cause(r.number));
        return;
    }
    fprintf(to, "%s of round %u from member %u", kinds[r.kind], r.round, r.sender);
    if (r.slot) fprintf(to, " in slot %u", r.slot);
    if (r.kind == KALEBASIN_PROPOSE) fprintf(to, " with the value %llu", (unsigned long long)r.value);
    if (r.kind == KALEBASIN_JOIN && !r.present) fprintf(to, ", which never voted");
    if (r.present) fprintf(to, ", which voted for %llu in round %u", (unsigned long long)r.value, r.voted);
}
