/* Clients of the pricing engine `crewprice`: flights and dual prices in, legal crew pairings of least
 * reduced cost out; as a session, a process of one's own, or as a connection to a service that several
 * clients share. C99 and POSIX, no other library.
 *
 *     const char *settings[] = {"--sit", "180", NULL};
 *     cp_session *session = cp_open("crewprice", settings);
 *     cp_send(session, "base,BOS,0");
 *     ..
 *     if (cp_settle(session, NULL) < 0) fprintf(stderr, "%s\n", cp_error(session));
 *
 * Edits are sent as their records, and count from the next settle on; questions are of the version that
 * was settled last. docs/sessions.md has all records, lines and refusals. A session is no more than one
 * thread's; several sessions may go side by side. */
#ifndef CREWPRICE_H
#define CREWPRICE_H

#include <stddef.h>

#ifdef __cplusplus
extern "C" {
#endif

typedef struct cp_session cp_session;

/* A legal pairing: its base, its cost and pay in points, the minutes from the first report to the last
 * release, and its walk: duties apart by a space, flights by `-`, one that the crew rides with a `d`. The
 * walk is the session's until its next question. */
typedef struct {
    char base[4];
    long long cost, pay, away;
    const char *walk;
} cp_pairing;

/* An entry of a front: its seven numbers, or eight where pairings may have more than 138 hours. */
typedef struct {
    long long vector[8];
    const char *walk;
} cp_entry;

typedef struct {
    unsigned long long number, entries, flights;
} cp_version;

/* A record that was refused: its number from 1, and the number of the refusal. */
typedef struct {
    long record;
    int reason;
} cp_refused;

/* Starts the engine with these words after `run`, up to a NULL; `words` may be NULL. NULL where there is
 * no memory or no process to be had, with errno. A program that can't be run is told by the first
 * question, which finds that it ended. */
cp_session *cp_open(const char *program, const char *const *words);

/* Connects to a service: the Unix socket of a relay (clients/relay) before `crewprice serve`. What comes
 * back takes the same calls. All clients share one log: an edit counts from the next settle of any of them
 * on, a settle has all edits that this client sent before it, and a question is answered by the version
 * that is published, while others settle too. NULL where there is no memory or no relay, with errno. A
 * relay that has no room is told by the first question, by -1 and cp_reason 64. */
cp_session *cp_connect(const char *path);

/* The number of the version that the last answer is from, 0 before any settle. It never falls; over a
 * connection it rises as others settle too. */
unsigned long long cp_seen(const cp_session *session);

/* Sends a zone or an edit as its record, without a line's end. Its number, from 1, or -1. */
long cp_send(cp_session *session, const char *record);

/* Makes the next version of all edits so far. 0, or -1: cp_reason tells 40 where there are too many legal
 * duties, and then the version before stays. `version` may be NULL. */
int cp_settle(cp_session *session, cp_version *version);

/* The pairing of least cost, of all bases where `base` is NULL. 1, or 0 where there is none, or -1. */
int cp_best(cp_session *session, const char *base, cp_pairing *best);

/* The pairings of least cost, up to `limit`, and where `share` isn't 0 without those that fly a flight
 * which so many before fly; of one base where `base` isn't NULL. How many, or -1. The list is the
 * session's until its next question. */
long cp_pairings(cp_session *session, long limit, long share, const char *base, const cp_pairing **list);

/* The Pareto front of a base and a duty, such as "101d-102". How many entries, or -2 where the code is no
 * base or the duty isn't legal, or -1. */
long cp_front(cp_session *session, const char *base, const char *duty, const cp_entry **list);

/* Any other question as its record, such as "audit,1000" or "explain,BOS,11-13 21-22": the first line of its
 * answer, and where the answer has more lines the next ones, one at each call of cp_line. NULL in place of -1. A
 * line is the session's until the next one. */
const char *cp_ask(cp_session *session, const char *question);
const char *cp_line(cp_session *session);

/* What was refused since it was asked last, in the order of its telling; after a settle all of that
 * settle. The list is the session's until the next call of any function. */
size_t cp_refusals(cp_session *session, const cp_refused **list);

/* After -1: one line that says why, and the number of the refusal where a question was refused, else 0. */
const char *cp_error(const cp_session *session);
int cp_reason(const cp_session *session);

/* Ends the session. The engine's exit status, 0 where all went well, or 128 and the signal that ended it.
 * A connection leaves the service once that has taken all edits: 0, or -1 where it had ended before. */
int cp_close(cp_session *session);

#ifdef __cplusplus
}
#endif
#endif
