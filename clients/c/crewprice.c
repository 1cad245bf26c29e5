#define _POSIX_C_SOURCE 200809L
#include "crewprice.h"

#include <errno.h>
#include <stdarg.h>
#include <stdio.h>
#include <stdlib.h>
#include <string.h>
#include <sys/socket.h>
#include <sys/types.h>
#include <sys/un.h>
#include <sys/wait.h>
#include <unistd.h>

enum { UNREAD = 1500, BUFFER = 1 << 16, TOO_MANY_CLIENTS = 64 };

/* Text that grows: lines one after another, each with a 0 at its end. */
struct text {
    char *bytes;
    size_t length, room;
};

struct cp_session {
    pid_t child; /* 0 of a connection */
    int pipe;
    long sent, unread;
    long left; /* lines of an answer over a connection that weren't read yet */
    unsigned long long seen;
    int reason;
    char error[200];
    char out[BUFFER];
    size_t out_length;
    char in[BUFFER];
    size_t in_begin, in_end;
    struct text lines;
    cp_pairing *pairings;
    cp_entry *entries;
    cp_refused *refused;
    size_t refused_count, refused_room;
    int refused_shown;
};

static int fail(cp_session *s, int reason, const char *form, ...) {
    va_list words;
    va_start(words, form);
    vsnprintf(s->error, sizeof s->error, form, words);
    va_end(words);
    s->reason = reason;
    return -1;
}

static int no_memory(cp_session *s) {
    return fail(s, 0, "out of memory");
}

static int ended(cp_session *s) {
    if (s->child == 0) return fail(s, 0, "the connection ended before its answer");
    return fail(s, 0, "the engine ended before its answer; what it said is on standard error");
}

static int not_understood(cp_session *s, const char *line) {
    return fail(s, 0, "a line that no engine writes: %.120s", line);
}

static int grow(struct text *t, size_t length) {
    if (length <= t->room) return 0;
    size_t room = t->room ? t->room : 4096;
    while (room < length) room *= 2;
    char *bytes = realloc(t->bytes, room);
    if (bytes == NULL) return -1;
    t->bytes = bytes;
    t->room = room;
    return 0;
}

/* Appends the next line that comes to the text of lines; where it begins there, or -1. */
static long long read_any(cp_session *s) {
    size_t begin = s->lines.length;
    for (;;) {
        if (s->in_begin == s->in_end) {
            ssize_t n = recv(s->pipe, s->in, BUFFER, 0);
            if (n < 0 && errno == EINTR) continue;
            if (n <= 0) return ended(s);
            s->in_begin = 0;
            s->in_end = (size_t)n;
        }
        char *from = s->in + s->in_begin;
        char *end = memchr(from, '\n', s->in_end - s->in_begin);
        size_t n = end != NULL ? (size_t)(end - from) : s->in_end - s->in_begin;
        if (grow(&s->lines, s->lines.length + n + 1) < 0) return no_memory(s);
        memcpy(s->lines.bytes + s->lines.length, from, n);
        s->lines.length += n;
        s->in_begin += n + (end != NULL);
        if (end != NULL) {
            s->lines.bytes[s->lines.length++] = 0;
            return (long long)begin;
        }
    }
}

/* The next line of the answer that is on its way, in the same way. Over a connection an answer begins with
 * a line that tells its version and how many lines it has. */
static long long read_line(cp_session *s) {
    if (s->child != 0) return read_any(s);
    while (s->left == 0) {
        long long at = read_any(s);
        if (at < 0) return -1;
        const char *line = s->lines.bytes + at;
        if (sscanf(line, "at %llu lines %ld", &s->seen, &s->left) != 2 || s->left < 0) return not_understood(s, line);
        s->lines.length = (size_t)at;
    }
    s->left--;
    return read_any(s);
}

/* After a write that failed. A relay without room says so, and ends the connection, perhaps before
 * anything was sent. */
static int refused_at_once(cp_session *s) {
    long record;
    int reason;
    if (s->child != 0) return ended(s);
    s->lines.length = 0;
    for (;;) {
        long long at = read_line(s);
        if (at < 0) return -1;
        if (sscanf(s->lines.bytes + at, "record %ld refused %d", &record, &reason) == 2 && reason == TOO_MANY_CLIENTS)
            return fail(s, reason, "the service has no room for another client");
        s->lines.length = (size_t)at;
    }
}

static int flush(cp_session *s) {
    size_t done = 0;
    while (done < s->out_length) {
        ssize_t n = send(s->pipe, s->out + done, s->out_length - done, MSG_NOSIGNAL);
        if (n < 0 && errno == EINTR) continue;
        if (n < 0) return refused_at_once(s);
        done += (size_t)n;
    }
    s->out_length = 0;
    return 0;
}

static int put(cp_session *s, const char *bytes, size_t length) {
    while (length > 0) {
        if (s->out_length == BUFFER && flush(s) < 0) return -1;
        size_t n = BUFFER - s->out_length < length ? BUFFER - s->out_length : length;
        memcpy(s->out + s->out_length, bytes, n);
        s->out_length += n;
        bytes += n;
        length -= n;
    }
    return 0;
}

static int put_record(cp_session *s, const char *record) {
    if (strpbrk(record, "\r\n") != NULL) return fail(s, 0, "a record is one line");
    if (put(s, record, strlen(record)) < 0 || put(s, "\n", 1) < 0) return -1;
    s->sent++;
    return 0;
}

static int keep_refused(cp_session *s, long record, int reason) {
    if (s->refused_shown) {
        s->refused_count = 0;
        s->refused_shown = 0;
    }
    if (s->refused_count == s->refused_room) {
        size_t room = s->refused_room ? 2 * s->refused_room : 16;
        cp_refused *refused = realloc(s->refused, room * sizeof *refused);
        if (refused == NULL) return no_memory(s);
        s->refused = refused;
        s->refused_room = room;
    }
    s->refused[s->refused_count++] = (cp_refused){record, reason};
    return 0;
}

/* Asks a question: where the first line of its answer stands among the lines, or -1. */
static long long ask(cp_session *s, const char *question) {
    s->lines.length = 0;
    s->reason = 0;
    if (put_record(s, question) < 0 || flush(s) < 0) return -1;
    s->unread = 0;
    for (;;) {
        long long at = read_line(s);
        if (at < 0) return -1;
        long record;
        int reason;
        if (sscanf(s->lines.bytes + at, "record %ld refused %d", &record, &reason) != 2) return at;
        if (reason == TOO_MANY_CLIENTS) return fail(s, reason, "the service has no room for another client");
        if (record == s->sent) return fail(s, reason, "record %ld is refused by %d: docs/sessions.md tells why", record, reason);
        if (keep_refused(s, record, reason) < 0) return -1;
        s->lines.length = 0;
    }
}

/* The pairing of a line after its first word. The walk is told by its place, since the lines may move. */
static int read_pairing(cp_session *s, size_t at, const char *kind, cp_pairing *pairing, size_t *walk) {
    const char *line = s->lines.bytes + at;
    size_t skip = strlen(kind);
    int n = -1;
    if (strncmp(line, kind, skip) != 0
        || sscanf(line + skip, " %3[A-Z] cost %lld pay %lld away %lld %n", pairing->base, &pairing->cost,
                  &pairing->pay, &pairing->away, &n) != 4
        || n < 0)
        return not_understood(s, line);
    *walk = at + skip + (size_t)n;
    return 0;
}

static int words_of(const char *text) {
    int count = 1;
    for (; *text != 0; text++) count += *text == ' ';
    return count;
}

static int read_entry(cp_session *s, size_t at, cp_entry *entry, size_t *walk) {
    const char *line = s->lines.bytes + at;
    if (strncmp(line, "entry ", 6) != 0) return not_understood(s, line);
    char *end = s->lines.bytes + at + 6;
    memset(entry->vector, 0, sizeof entry->vector);
    /* The sixth number is that of the duties, which the walk has. */
    int numbers = 7;
    for (int i = 0; i < numbers; i++) {
        char *from = end;
        entry->vector[i] = strtoll(from, &end, 10);
        if (end == from || *end != ' ') return not_understood(s, line);
        end++;
        if (i == 5) numbers = 6 + words_of(end) - (int)entry->vector[5];
        if (numbers < 7 || numbers > 8) return not_understood(s, line);
    }
    *walk = (size_t)(end - s->lines.bytes);
    return 0;
}

static void run(const char *program, const char *const *words, size_t count, int pipe) {
    const char **args = malloc((count + 3) * sizeof *args);
    if (args == NULL) _exit(127);
    args[0] = program;
    args[1] = "run";
    for (size_t i = 0; i < count; i++) args[2 + i] = words[i];
    args[2 + count] = NULL;
    if (dup2(pipe, 0) < 0 || dup2(pipe, 1) < 0) _exit(127);
    execvp(program, (char *const *)args);
    fprintf(stderr, "%s: %s\n", program, strerror(errno));
    _exit(127);
}

cp_session *cp_open(const char *program, const char *const *words) {
    cp_session *s = calloc(1, sizeof *s);
    int ends[2];
    if (s == NULL) return NULL;
    if (socketpair(AF_UNIX, SOCK_STREAM | SOCK_CLOEXEC, 0, ends) < 0) {
        free(s);
        return NULL;
    }
    size_t count = 0;
    while (words != NULL && words[count] != NULL) count++;
    fflush(NULL);
    s->child = fork();
    if (s->child == 0) run(program, words, count, ends[1]);
    close(ends[1]);
    if (s->child < 0) {
        close(ends[0]);
        free(s);
        return NULL;
    }
    s->pipe = ends[0];
    return s;
}

cp_session *cp_connect(const char *path) {
    struct sockaddr_un address = {.sun_family = AF_UNIX};
    if (strlen(path) >= sizeof address.sun_path) {
        errno = ENAMETOOLONG;
        return NULL;
    }
    strcpy(address.sun_path, path);
    cp_session *s = calloc(1, sizeof *s);
    if (s == NULL) return NULL;
    s->pipe = socket(AF_UNIX, SOCK_STREAM | SOCK_CLOEXEC, 0);
    if (s->pipe < 0 || connect(s->pipe, (const struct sockaddr *)&address, sizeof address) < 0) {
        int why = errno;
        if (s->pipe >= 0) close(s->pipe);
        free(s);
        errno = why;
        return NULL;
    }
    return s;
}

unsigned long long cp_seen(const cp_session *s) {
    return s->seen;
}

long cp_send(cp_session *s, const char *record) {
    if (put_record(s, record) < 0) return -1;
    long number = s->sent;
    if (++s->unread >= UNREAD && ask(s, "best") < 0) return -1;
    return number;
}

int cp_settle(cp_session *s, cp_version *version) {
    cp_version made;
    long long at = ask(s, "settle");
    if (at < 0) return -1;
    if (sscanf(s->lines.bytes + at, "version %llu entries %llu flights %llu", &made.number, &made.entries, &made.flights) != 3)
        return not_understood(s, s->lines.bytes + at);
    s->seen = made.number;
    if (version != NULL) *version = made;
    return 0;
}

int cp_best(cp_session *s, const char *base, cp_pairing *best) {
    char question[32];
    snprintf(question, sizeof question, base != NULL ? "best,%.16s" : "best", base);
    long long at = ask(s, question);
    if (at < 0) return -1;
    if (strcmp(s->lines.bytes + at, "best none") == 0) return 0;
    size_t walk;
    if (read_pairing(s, (size_t)at, "best", best, &walk) < 0) return -1;
    best->walk = s->lines.bytes + walk;
    return 1;
}

long cp_pairings(cp_session *s, long limit, long share, const char *base, const cp_pairing **list) {
    char question[96];
    if (base != NULL)
        snprintf(question, sizeof question, "pairings,%ld,%ld,%.16s", limit, share, base);
    else if (share != 0)
        snprintf(question, sizeof question, "pairings,%ld,%ld", limit, share);
    else
        snprintf(question, sizeof question, "pairings,%ld", limit);
    long long at = ask(s, question);
    if (at < 0) return -1;
    long count;
    if (sscanf(s->lines.bytes + at, "pairings %ld", &count) != 1 || count < 0) return not_understood(s, s->lines.bytes + at);
    cp_pairing *pairings = realloc(s->pairings, ((size_t)count + 1) * sizeof *pairings);
    size_t *walks = malloc(((size_t)count + 1) * sizeof *walks);
    if (pairings != NULL) s->pairings = pairings;
    if (pairings == NULL || walks == NULL) {
        free(walks);
        return no_memory(s);
    }
    for (long i = 0; i < count; i++) {
        long long line = read_line(s);
        if (line < 0 || read_pairing(s, (size_t)line, "pairing", &pairings[i], &walks[i]) < 0) {
            free(walks);
            return -1;
        }
    }
    for (long i = 0; i < count; i++) pairings[i].walk = s->lines.bytes + walks[i];
    free(walks);
    *list = pairings;
    return count;
}

long cp_front(cp_session *s, const char *base, const char *duty, const cp_entry **list) {
    char question[128];
    snprintf(question, sizeof question, "front,%.16s,%.96s", base, duty);
    long long at = ask(s, question);
    if (at < 0) return -1;
    const char *line = s->lines.bytes + at;
    const char *last = strrchr(line, ' ');
    if (strncmp(line, "front ", 6) != 0 || last == NULL) return not_understood(s, line);
    if (strcmp(last, " none") == 0) return -2;
    char *end;
    long count = strtol(last + 1, &end, 10);
    if (*end != 0 || end == last + 1 || count < 0) return not_understood(s, line);
    cp_entry *entries = realloc(s->entries, ((size_t)count + 1) * sizeof *entries);
    size_t *walks = malloc(((size_t)count + 1) * sizeof *walks);
    if (entries != NULL) s->entries = entries;
    if (entries == NULL || walks == NULL) {
        free(walks);
        return no_memory(s);
    }
    for (long i = 0; i < count; i++) {
        long long from = read_line(s);
        if (from < 0 || read_entry(s, (size_t)from, &entries[i], &walks[i]) < 0) {
            free(walks);
            return -1;
        }
    }
    for (long i = 0; i < count; i++) entries[i].walk = s->lines.bytes + walks[i];
    free(walks);
    *list = entries;
    return count;
}

const char *cp_ask(cp_session *s, const char *question) {
    long long at = ask(s, question);
    return at < 0 ? NULL : s->lines.bytes + at;
}

const char *cp_line(cp_session *s) {
    s->lines.length = 0;
    long long at = read_line(s);
    return at < 0 ? NULL : s->lines.bytes + at;
}

size_t cp_refusals(cp_session *s, const cp_refused **list) {
    if (s->refused_shown) s->refused_count = 0;
    s->refused_shown = 1;
    *list = s->refused;
    return s->refused_count;
}

const char *cp_error(const cp_session *s) {
    return s->error;
}

int cp_reason(const cp_session *s) {
    return s->reason;
}

static int wait_for(pid_t child) {
    int status = -1;
    while (waitpid(child, &status, 0) < 0 && errno == EINTR) {
    }
    if (WIFEXITED(status)) return WEXITSTATUS(status);
    return WIFSIGNALED(status) ? 128 + WTERMSIG(status) : -1;
}

int cp_close(cp_session *s) {
    if (s == NULL) return -1;
    ssize_t n;
    int sent = flush(s);
    shutdown(s->pipe, SHUT_WR);
    while ((n = recv(s->pipe, s->in, BUFFER, 0)) > 0 || (n < 0 && errno == EINTR)) {
    }
    close(s->pipe);
    int status = s->child == 0 ? (sent < 0 || n < 0 ? -1 : 0) : wait_for(s->child);
    free(s->lines.bytes);
    free(s->pairings);
    free(s->entries);
    free(s->refused);
    free(s);
    return status;
}
