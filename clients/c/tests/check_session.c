/* Sessions by calls: what is refused, engines that end or say something else, and long runs of refused
 * edits. Usage: check_session PROGRAM */
#include "../crewprice.h"

#include <stdio.h>
#include <stdlib.h>
#include <string.h>

static int failed;

static void check(int holds, const char *what) {
    if (holds) return;
    fprintf(stderr, "check_session: %s\n", what);
    failed = 1;
}

static const char *const there_and_back[] = {
    "zone,BOS,\"EST5EDT,M3.2.0,M11.1.0\"",
    "zone,ORD,\"CST6CDT,M3.2.0,M11.1.0\"",
    "base,BOS,0",
    "flight,1,BOS,ORD,2026-06-09T12:00,2026-06-09T13:40,1000",
    "flight,2,ORD,BOS,2026-06-09T14:40,2026-06-09T16:20,1000",
};

static cp_session *opened(const char *program, const char *const *words) {
    cp_session *session = cp_open(program, words);
    if (session == NULL) exit(1);
    for (size_t i = 0; i < sizeof there_and_back / sizeof *there_and_back; i++) cp_send(session, there_and_back[i]);
    return session;
}

static void a_pairing(const char *program) {
    cp_session *session = opened(program, NULL);
    cp_version version;
    cp_pairing best;
    const cp_pairing *list;
    check(cp_best(session, NULL, &best) == 0, "there is a pairing before the first settle");
    check(cp_settle(session, &version) == 0 && version.number == 1 && version.entries == 3 && version.flights == 2, "version 1");
    check(cp_best(session, "BOS", &best) == 1 && best.cost == 2200 && best.pay == 4200 && best.away == 350, "the best of a base");
    check(strcmp(best.base, "BOS") == 0 && strcmp(best.walk, "1-2") == 0, "its walk");
    check(cp_best(session, "ORD", &best) == 0, "the best of no base");
    check(cp_pairings(session, 10, 0, NULL, &list) == 1 && list[0].cost == 2200, "a list");
    check(cp_pairings(session, 10, 0, "ORD", &list) == 0, "a list of no base");
    check(cp_pairings(session, 0, 0, NULL, &list) == -1 && cp_reason(session) == 72, "a list of none");
    check(cp_close(session) == 0, "the status");
}

static void a_front(const char *program) {
    const char *words[] = {"--away-cap", "14400", NULL};
    cp_session *session = opened(program, words);
    const cp_entry *list;
    check(cp_settle(session, NULL) == 0, "a settle");
    check(cp_front(session, "BOS", "1-2", &list) == 1 && list[0].vector[0] == 800 && list[0].vector[6] == 350
          && list[0].vector[7] == 0 && strcmp(list[0].walk, "1-2") == 0, "a front of long pairings");
    check(cp_front(session, "BOS", "2-1", &list) == -2, "a front of no duty");
    check(cp_close(session) == 0, "the status");
}

static void other_questions(const char *program) {
    cp_session *session = opened(program, NULL);
    check(cp_settle(session, NULL) == 0, "a settle");
    const char *line = cp_ask(session, "audit,10");
    check(line != NULL && strcmp(line, "audit partials 2 pairings 1 cost 2200") == 0, "an audit");
    check(cp_ask(session, "audit,1") == NULL && cp_reason(session) == 45, "an audit over its limit");
    line = cp_ask(session, "explain,BOS,1-2");
    check(line != NULL && strcmp(line, "explain BOS legal cost 2200 pay 4200 away 350 by guarantee") == 0, "an explanation");
    line = cp_line(session);
    check(line != NULL && strcmp(line, "duty 1-2 report 0 release 350 fdp 320 of 840 fly 200 of 540 at 07:00 rest none") == 0,
          "its duty");
    check(cp_close(session) == 0, "the status");
}

static void refusals(const char *program) {
    cp_session *session = opened(program, NULL);
    const cp_refused *list;
    long at_once = cp_send(session, "price,0,5");
    long later = cp_send(session, "price,3,5");
    check(cp_settle(session, NULL) == 0, "a settle");
    check(cp_refusals(session, &list) == 2 && list[0].record == at_once && list[0].reason == 72
          && list[1].record == later && list[1].reason == 24, "what was refused");
    check(cp_refusals(session, &list) == 0, "what was refused is told once");
    for (int i = 0; i < 50000; i++) check(cp_send(session, "price,0,5") > 0, "an edit");
    check(cp_settle(session, NULL) == 0, "a settle after many");
    check(cp_refusals(session, &list) == 50000 && list[49999].reason == 72, "how many were refused");
    check(cp_send(session, "price,1,5\nsettle") == -1, "a record of two lines");
    check(cp_close(session) == 0, "the status");
}

static void engines_that_end(const char *program) {
    const char *words[] = {"--max-duties", "13", NULL};
    cp_session *session = opened(program, words);
    check(cp_settle(session, NULL) == -1 && cp_reason(session) == 0, "an engine that ended");
    check(cp_settle(session, NULL) == -1, "and has ended still");
    check(cp_close(session) == 4, "its status");
    session = cp_open("/nowhere/crewprice", NULL);
    check(session != NULL && cp_settle(session, NULL) == -1, "no engine");
    check(cp_close(session) == 127, "its status");
    session = cp_open("/bin/echo", NULL);
    check(session != NULL && cp_settle(session, NULL) == -1, "another program");
    cp_close(session);
}

int main(int count, char **words) {
    const char *program = count > 1 ? words[1] : "crewprice";
    a_pairing(program);
    a_front(program);
    other_questions(program);
    refusals(program);
    engines_that_end(program);
    return failed;
}
