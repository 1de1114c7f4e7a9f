/* Reads lines of bytes in hex and decodes each by the code that an XDR compiler made of xdr/messages.x: as a message, which is printed as the
   program message_cases does, or with the argument `list` as a list of events, which is printed in the rig's notation. */
#include "hex.h"
#include "messages.h"
#include <string.h>

/* Room for the longest list, of 1,000 events of 24 bytes, and some more. */
enum { ROOM = 8 + 24 * 1000 + 100 };

static char line[2 * ROOM + 2], data[ROOM], again[ROOM];

static void show_message(const message *m) {
    static const char *const names[] = {"", "START", "JOIN", "PROPOSE", "VOTE"};
    const message_body *b = &m->body;
    message_head h = b->kind == JOIN ? b->message_body_u.join.head : b->kind == PROPOSE ? b->message_body_u.propose.head : b->message_body_u.start;
    printf("%u %s %u %u ", m->slot, names[b->kind], h.round, h.sender);
    if (b->kind == JOIN && b->message_body_u.join.vote)
        printf("%u %llu ", b->message_body_u.join.vote->voted_round, (unsigned long long)b->message_body_u.join.vote->value);
    if (b->kind == PROPOSE) printf("%llu ", (unsigned long long)b->message_body_u.propose.value);
    printf("\n");
}

/* Events of slot 0 are written without it. */
static void show_slot(slot_number slot) {
    printf(" ");
    if (slot) printf("%u:", slot);
}

static void show_list(const event_list *l) {
    printf("n=%u", l->members);
    for (unsigned i = 0; i < l->events.events_len; i++) {
        const event *e = &l->events.events_val[i];
        const round_start *s = &e->event_u.start;
        const delivery *d = &e->event_u.deliver;
        show_slot(e->kind == ROUND_START ? s->slot : d->slot);
        if (e->kind == ROUND_START) printf("s(%u,%u,%llu)", s->member, s->round, (unsigned long long)s->offer);
        else printf("d(%u,%u)", d->message, d->member);
    }
    printf("\n");
}

/* Whether the bytes are wholly of the type and encode to themselves. */
static int decoded(xdrproc_t type, void *into, size_t n) {
    XDR from, to;
    xdrmem_create(&from, data, (unsigned)n, XDR_DECODE);
    if (!type(&from, into) || xdr_getpos(&from) != n) return 0;
    xdrmem_create(&to, again, ROOM, XDR_ENCODE);
    return type(&to, into) && xdr_getpos(&to) == n && !memcmp(data, again, n);
}

int main(int count, char **arguments) {
    int lists = count > 1 && !strcmp(arguments[1], "list");
    while (fgets(line, sizeof line, stdin)) {
        message m = {0};
        event_list l = {0};
        char *hex = strtok(line, " \n");
        size_t n = hex ? bytes_of(hex, data, ROOM) : 0;
        if (lists && decoded((xdrproc_t)xdr_event_list, &l, n)) show_list(&l);
        else if (lists) printf("no list\n");
        else if (printf("%s ", hex), decoded((xdrproc_t)xdr_message, &m, n)) show_message(&m);
        else printf("no message\n");
        xdr_free((xdrproc_t)xdr_event_list, (char *)&l);
        xdr_free((xdrproc_t)xdr_message, (char *)&m);
    }
    return 0;
}
