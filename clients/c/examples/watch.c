/* A planner, a screen and a feed of delays at one engine: three connections to a relay. Usage:
 * watch SOCKET < examples/overnight.session, where `clients/relay/relay --socket SOCKET PROGRAM serve` runs. */
#include "../crewprice.h"

#include <stdio.h>
#include <stdlib.h>
#include <string.h>

static cp_session *connected(const char *path) {
    cp_session *session = cp_connect(path);
    if (session == NULL) {
        perror(path);
        exit(1);
    }
    return session;
}

static void fail(const cp_session *session) {
    fprintf(stderr, "watch: %s\n", cp_error(session));
    exit(1);
}

static void look(cp_session *screen, const char *when) {
    cp_pairing best;
    int found = cp_best(screen, NULL, &best);
    if (found < 0) fail(screen);
    if (found == 0)
        printf("%s: no legal pairing (version %llu)\n", when, cp_seen(screen));
    else
        printf("%s: %s from %s, cost %lld (version %llu)\n", when, best.walk, best.base, best.cost, cp_seen(screen));
}

static void settle(cp_session *planner) {
    cp_version version;
    const cp_refused *refused;
    if (cp_settle(planner, &version) < 0) fail(planner);
    size_t count = cp_refusals(planner, &refused);
    printf("the planner settled version %llu: %llu entries, %zu refused\n", version.number, version.entries, count);
}

int main(int count, char **words) {
    char record[256];
    if (count != 2) {
        fprintf(stderr, "usage: watch SOCKET < examples/overnight.session\n");
        return 2;
    }
    cp_session *planner = connected(words[1]), *screen = connected(words[1]), *feed = connected(words[1]);
    look(screen, "before all");
    while (fgets(record, sizeof record, stdin) != NULL && strcmp(record, "settle\n") != 0) {
        record[strcspn(record, "\n")] = 0;
        if (cp_send(planner, record) < 0) fail(planner);
    }
    settle(planner);
    look(screen, "on the screen");
    /* Each client names the clocks that its flights need. */
    if (cp_send(feed, "zone,ORD,\"CST6CDT,M3.2.0,M11.1.0\"") < 0) fail(feed);
    if (cp_send(feed, "retime,13,ORD,2026-06-09T15:10,2026-06-09T16:40") < 0) fail(feed);
    look(feed, "once the feed has sent a retime");
    settle(planner);
    look(screen, "on the screen");
    return cp_close(feed) + cp_close(screen) + cp_close(planner);
}
