/* What the reports of a session's life cost SQLite in C, without a server and a network.
 *
 *   phases_sqlite BOOK TURN SESSIONS ACCOUNTS
 *
 * BOOK is a book of radacctd. Each report is one transaction with one sync (a log, synchronous =
 * FULL): it reads the session, its plan and the balance of its account, and sets them. So many
 * sessions start, send two Interim-Updates each and stop. TURN is a part of their names. It prints
 * a line for each phase: its name, reports a second, the median and the 99th percentile of a
 * report's time and its processor time, in microseconds. */
#define _GNU_SOURCE
#include <sqlite3.h>
#include <stdint.h>
#include <stdio.h>
#include <stdlib.h>
#include <string.h>
#include <time.h>

enum { GET, GET_PLAN, GET_BALANCE, SET, NEW, NEW_PLAN, SET_BALANCE, BEGIN, COMMIT, TEXTS };

static const char *const texts[TEXTS] = {
    "SELECT client, id, account, class, input, output, seconds, first_seen, last_seen, state, cause,"
    " calling, framed FROM session WHERE client = ?1 AND id = ?2",
    "SELECT plan_class FROM session_plan WHERE client = ?1 AND id = ?2",
    "SELECT balance FROM account WHERE name = ?1",
    "UPDATE session SET account = ?3, class = ?4, input = ?5, output = ?6, seconds = ?7,"
    " first_seen = ?8, last_seen = ?9, state = ?10, cause = ?11, calling = ?12, framed = ?13"
    " WHERE client = ?1 AND id = ?2",
    "INSERT INTO session (client, id, account, class, input, output, seconds, first_seen, last_seen,"
    " state, cause, calling, framed) VALUES (?1, ?2, ?3, ?4, ?5, ?6, ?7, ?8, ?9, ?10, ?11, ?12,"
    " ?13)",
    "INSERT INTO session_plan (client, id, plan_class) VALUES (?1, ?2, ?3)",
    "UPDATE account SET balance = ?2 WHERE name = ?1",
    "BEGIN IMMEDIATE",
    "COMMIT",
};

static sqlite3 *book;
static sqlite3_stmt *made[TEXTS];

static void must(int right, const char *what) {
    if (!right) {
        fprintf(stderr, "phases_sqlite: %s: %s\n", what, sqlite3_errmsg(book));
        exit(1);
    }
}

static int64_t now(clockid_t clock) {
    struct timespec t;
    clock_gettime(clock, &t);
    return t.tv_sec * 1000000000ll + t.tv_nsec;
}

static void octets(sqlite3_stmt *it, int at, const char *value) {
    sqlite3_bind_blob(it, at, value, (int)strlen(value), SQLITE_STATIC);
}

static void name(sqlite3_stmt *it, const char *session) {
    sqlite3_bind_text(it, 1, "ap1", 3, SQLITE_STATIC);
    octets(it, 2, session);
}

static int step(int which) {
    int status = sqlite3_step(made[which]);
    must(status == SQLITE_ROW || status == SQLITE_DONE, texts[which]);
    return status == SQLITE_ROW;
}

/* Reads what a report rests on: whether the session is there, and the balance. */
static int look(const char *session, const char *account, int64_t *balance) {
    name(made[GET], session);
    int there = step(GET);
    sqlite3_reset(made[GET]);
    if (there) {
        name(made[GET_PLAN], session);
        step(GET_PLAN);
        sqlite3_reset(made[GET_PLAN]);
    }
    octets(made[GET_BALANCE], 1, account);
    *balance = step(GET_BALANCE) ? sqlite3_column_int64(made[GET_BALANCE], 0) : 0;
    sqlite3_reset(made[GET_BALANCE]);
    return there;
}

static void set_session(int which, const char *session, const char *account, int64_t total,
                        int state) {
    sqlite3_stmt *it = made[which];
    name(it, session);
    octets(it, 3, account);
    octets(it, 4, "gold");
    sqlite3_bind_int64(it, 5, total);
    sqlite3_bind_int64(it, 6, 0);
    sqlite3_bind_int64(it, 7, total >> 20);
    sqlite3_bind_int64(it, 8, 1700000000);
    sqlite3_bind_int64(it, 9, 1700000600);
    sqlite3_bind_int64(it, 10, state);
    sqlite3_bind_int64(it, 11, 0);
    octets(it, 12, "");
    octets(it, 13, "");
    step(which);
    sqlite3_reset(it);
}

static void report(const char *session, const char *account, int64_t total, int state) {
    int64_t balance;
    int there = look(session, account, &balance);
    step(BEGIN);
    sqlite3_reset(made[BEGIN]);
    set_session(there ? SET : NEW, session, account, total, state);
    if (!there) {
        name(made[NEW_PLAN], session);
        octets(made[NEW_PLAN], 3, "gold");
        step(NEW_PLAN);
        sqlite3_reset(made[NEW_PLAN]);
    }
    octets(made[SET_BALANCE], 1, account);
    sqlite3_bind_int64(made[SET_BALANCE], 2, balance - 10);
    step(SET_BALANCE);
    sqlite3_reset(made[SET_BALANCE]);
    step(COMMIT);
    sqlite3_reset(made[COMMIT]);
}

static int by_size(const void *a, const void *b) {
    int64_t x = *(const int64_t *)a, y = *(const int64_t *)b;
    return (x > y) - (x < y);
}

static void phase(const char *what, const char *turn, long sessions, long accounts, long from,
                  long times, int state) {
    long count = sessions * times;
    int64_t *took = calloc((size_t)count, sizeof *took);
    must(took != NULL, "memory");
    int64_t first = now(CLOCK_MONOTONIC), ran = now(CLOCK_PROCESS_CPUTIME_ID);
    for (long index = 0; index < count; index++) {
        char session[64], account[32];
        long number = index % sessions;
        snprintf(session, sizeof session, "%s-%08lx", turn, number);
        snprintf(account, sizeof account, "a%03ld", number % accounts);
        int64_t begun = now(CLOCK_MONOTONIC);
        report(session, account, 1048577 * (from + index / sessions), state);
        took[index] = now(CLOCK_MONOTONIC) - begun;
    }
    double seconds = (now(CLOCK_MONOTONIC) - first) / 1e9;
    double cost = (now(CLOCK_PROCESS_CPUTIME_ID) - ran) / 1e3 / count;
    qsort(took, (size_t)count, sizeof *took, by_size);
    printf("%s %.0f %.1f %.1f %.1f\n", what, count / seconds, took[count / 2] / 1e3,
           took[count * 99 / 100] / 1e3, cost);
    free(took);
}

int main(int count, char **words) {
    if (count != 5) {
        fprintf(stderr, "phases_sqlite BOOK TURN SESSIONS ACCOUNTS\n");
        return 2;
    }
    must(sqlite3_open(words[1], &book) == SQLITE_OK, words[1]);
    must(sqlite3_exec(book, "PRAGMA journal_mode = WAL; PRAGMA synchronous = FULL", 0, 0, 0)
         == SQLITE_OK, "pragma");
    for (int which = 0; which < TEXTS; which++) {
        must(sqlite3_prepare_v2(book, texts[which], -1, &made[which], 0) == SQLITE_OK,
             texts[which]);
    }
    long sessions = atol(words[3]), accounts = atol(words[4]);
    phase("Start", words[2], sessions, accounts, 0, 1, 0);
    phase("Interim", words[2], sessions, accounts, 1, 2, 0);
    phase("Stop", words[2], sessions, accounts, 3, 1, 2);
    return 0;
}
