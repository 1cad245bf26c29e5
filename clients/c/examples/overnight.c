/* Two bases, eight flights of two days, an hour's delay, and the best pairing before and after it: the
 * session of docs/sessions.md, by calls. Usage: overnight [PROGRAM] < examples/overnight.session */
#include "../crewprice.h"

#include <stdio.h>
#include <stdlib.h>
#include <string.h>

static int fail(const cp_session *session) {
    fprintf(stderr, "overnight: %s\n", cp_error(session));
    exit(1);
}

static void tell(const char *what, const cp_pairing *pairing) {
    printf("%s %s from %s: cost %lld, pay %lld, %lld minutes away\n", what, pairing->walk, pairing->base,
           pairing->cost, pairing->pay, pairing->away);
}

static void tell_best(cp_session *session, const char *what, const char *base) {
    cp_pairing best;
    int found = cp_best(session, base, &best);
    if (found < 0) fail(session);
    if (found > 0)
        tell(what, &best);
    else
        printf("%s no legal pairing\n", what);
}

static void settle(cp_session *session) {
    cp_version version;
    const cp_refused *refused;
    if (cp_settle(session, &version) < 0) fail(session);
    printf("version %llu: %llu flights\n", version.number, version.flights);
    size_t count = cp_refusals(session, &refused);
    for (size_t i = 0; i < count; i++) printf("record %ld is refused by %d\n", refused[i].record, refused[i].reason);
}

int main(int count, char **words) {
    char record[256];
    cp_session *session = cp_open(count > 1 ? words[1] : "crewprice", NULL);
    if (session == NULL) {
        perror("overnight");
        return 1;
    }
    while (fgets(record, sizeof record, stdin) != NULL && strcmp(record, "settle\n") != 0) {
        record[strcspn(record, "\n")] = 0;
        if (cp_send(session, record) < 0) fail(session);
    }
    settle(session);
    tell_best(session, "best:", NULL);
    tell_best(session, "best of ORD:", "ORD");
    const cp_entry *entries;
    long front = cp_front(session, "BOS", "21-22", &entries);
    if (front == -1) fail(session);
    for (long i = 0; i < front; i++)
        printf("front: %s, duty pay less prices %lld, %lld minutes away\n", entries[i].walk, entries[i].vector[0],
               entries[i].vector[6]);
    if (cp_send(session, "retime,13,ORD,2026-06-09T15:10,2026-06-09T16:40") < 0) fail(session);
    settle(session);
    const cp_pairing *pairings;
    long found = cp_pairings(session, 10, 1, NULL, &pairings);
    if (found < 0) fail(session);
    for (long i = 0; i < found; i++) tell("of those that share no flight:", &pairings[i]);
    return cp_close(session);
}
