/* Connections to a service by calls: two clients at one engine, what is refused, and relays that end or say
 * something else. Usage: check_service SOCKET, of a relay that has just been started. */
#include "../crewprice.h"

#include <errno.h>
#include <stdio.h>
#include <stdlib.h>
#include <string.h>
#include <sys/socket.h>
#include <sys/un.h>
#include <sys/wait.h>
#include <unistd.h>

static int failed;

static void check(int holds, const char *what) {
    if (holds) return;
    fprintf(stderr, "check_service: %s\n", what);
    failed = 1;
}

static const char *const there_and_back[] = {
    "zone,BOS,\"EST5EDT,M3.2.0,M11.1.0\"",
    "zone,ORD,\"CST6CDT,M3.2.0,M11.1.0\"",
    "base,BOS,0",
    "flight,1,BOS,ORD,2026-06-09T12:00,2026-06-09T13:40,1000",
    "flight,2,ORD,BOS,2026-06-09T14:40,2026-06-09T16:20,1000",
};

static cp_session *connected(const char *path) {
    cp_session *session = cp_connect(path);
    if (session == NULL) {
        perror(path);
        exit(1);
    }
    return session;
}

static void two_clients(const char *path) {
    cp_session *planner = connected(path), *screen = connected(path);
    cp_version version;
    cp_pairing best;
    const cp_pairing *list;
    const cp_entry *entries;
    check(cp_best(screen, NULL, &best) == 0 && cp_seen(screen) == 0, "there is a pairing before the first settle");
    for (size_t i = 0; i < sizeof there_and_back / sizeof *there_and_back; i++) cp_send(planner, there_and_back[i]);
    check(cp_settle(planner, &version) == 0 && version.number == 1 && version.entries == 3 && version.flights == 2, "version 1");
    check(cp_best(screen, "BOS", &best) == 1 && best.cost == 2200 && strcmp(best.walk, "1-2") == 0, "the best of a base");
    check(cp_seen(screen) == 1 && cp_seen(planner) == 1, "the version that an answer is from");
    check(cp_pairings(screen, 10, 0, NULL, &list) == 1 && list[0].cost == 2200, "a list");
    check(cp_front(screen, "BOS", "1-2", &entries) == 1 && entries[0].vector[0] == 800 && entries[0].vector[6] == 350
          && strcmp(entries[0].walk, "1-2") == 0, "a front");
    check(cp_front(screen, "BOS", "2-1", &entries) == -2, "a front of no duty");
    check(cp_send(screen, "price,1,1500") > 0, "an edit of the screen");
    check(cp_best(screen, NULL, &best) == 1 && best.cost == 2200, "an edit that isn't settled");
    check(cp_settle(planner, &version) == 0 && version.number == 2 && version.entries == 4, "version 2");
    check(cp_best(screen, NULL, &best) == 1 && best.cost == 1700 && cp_seen(screen) == 2, "what another settled");
    const char *line = cp_ask(screen, "explain,BOS,1-2");
    check(line != NULL && strcmp(line, "explain BOS legal cost 1700 pay 4200 away 350 by guarantee") == 0, "an explanation");
    line = cp_line(screen);
    check(line != NULL && strncmp(line, "duty 1-2 ", 9) == 0, "its duty");
    check(cp_close(planner) == 0 && cp_close(screen) == 0, "the status");
}

static void refusals(const char *path) {
    cp_session *session = connected(path);
    const cp_refused *list;
    long at_once = cp_send(session, "price,0,5");
    long later = cp_send(session, "price,3,5");
    check(cp_settle(session, NULL) == 0, "a settle");
    check(cp_refusals(session, &list) == 2 && list[0].record == at_once && list[0].reason == 72
          && list[1].record == later && list[1].reason == 24, "what was refused");
    check(cp_ask(session, "audit,1") == NULL && cp_reason(session) == 45, "an audit over its limit");
    for (int i = 0; i < 5000; i++) check(cp_send(session, "price,0,5") > 0, "an edit");
    check(cp_settle(session, NULL) == 0, "a settle after many");
    check(cp_refusals(session, &list) == 5000 && list[4999].reason == 72, "how many were refused");
    check(cp_send(session, "price,1,5\nsettle") == -1, "a record of two lines");
    check(cp_close(session) == 0, "the status");
}

/* A socket in the relay's place, at which the first to come is told a text. */
static pid_t stand(const char *path, const char *text) {
    struct sockaddr_un address = {.sun_family = AF_UNIX};
    strncpy(address.sun_path, path, sizeof address.sun_path - 1);
    unlink(path);
    int listening = socket(AF_UNIX, SOCK_STREAM, 0);
    if (bind(listening, (const struct sockaddr *)&address, sizeof address) < 0 || listen(listening, 1) < 0) exit(1);
    pid_t child = fork();
    if (child == 0) {
        char byte[64];
        int connection = accept(listening, NULL, NULL);
        if (recv(connection, byte, sizeof byte, 0) < 0 || send(connection, text, strlen(text), MSG_NOSIGNAL) < 0) _exit(1);
        _exit(0);
    }
    close(listening);
    return child;
}

static void told(const char *path, const char *text, int reason, const char *what) {
    pid_t child = stand(path, text);
    cp_session *session = connected(path);
    cp_pairing best;
    check(cp_best(session, NULL, &best) == -1 && cp_reason(session) == reason, what);
    check(cp_best(session, NULL, &best) == -1, what);
    cp_close(session);
    waitpid(child, NULL, 0);
}

static void other_relays(const char *path) {
    char beside[200];
    snprintf(beside, sizeof beside, "%s.beside", path);
    told(beside, "at 0 lines 1\nrecord 1 refused 64\n", 64, "a service without room");
    told(beside, "HTTP/1.1 400 Bad Request\n", 0, "a relay that is none");
    told(beside, "at 0 lines 1\nbest no", 0, "half a line");
    told(beside, "", 0, "no answer");
    unlink(beside);
    check(cp_connect(beside) == NULL && errno == ENOENT, "no relay");
}

int main(int count, char **words) {
    if (count != 2) return 2;
    two_clients(words[1]);
    refusals(words[1]);
    other_relays(words[1]);
    return failed;
}
