/* The SQL statements of payments between purses, as an office over tables executes them, by the C library of SQLite: prepared
   once, foreign keys on. It is what checks/cost-over-tables and checks/rounds compare the office with.

   statements PAIRS PAYMENTS [FILE TOGETHER] makes the tables with PAIRS pairs of purses, in memory or in a new FILE with a log
   that is synced at each commit, and then PAYMENTS payments of 1 by the pairs in turn, eight requests each: two starts, three
   messages that are handled, three that are discarded. TOGETHER requests that write are one transaction, and without it each
   one. At the end it prints how many messages are left in the inboxes, which are none, and what the purses hold. */
#include <sqlite3.h>
#include <stdarg.h>
#include <stdio.h>
#include <stdlib.h>
#include <string.h>

static const char *const TABLES[] = {
    "CREATE TABLE meta (id INTEGER PRIMARY KEY, version INTEGER NOT NULL) STRICT",
    "CREATE TABLE member (name TEXT NOT NULL PRIMARY KEY, granted INTEGER NOT NULL, unspent INTEGER NOT NULL) STRICT",
    "CREATE TABLE token (token TEXT NOT NULL PRIMARY KEY, kind TEXT NOT NULL, name TEXT NOT NULL, UNIQUE (kind, name)) STRICT",
    "CREATE TABLE holder (name TEXT NOT NULL PRIMARY KEY, member TEXT NOT NULL REFERENCES member (name)) STRICT",
    "CREATE TABLE purse (name TEXT NOT NULL PRIMARY KEY, holder TEXT NOT NULL REFERENCES holder (name), balance INTEGER NOT NULL,"
    " next_number INTEGER NOT NULL, status TEXT NOT NULL, details TEXT NOT NULL, log TEXT NOT NULL, line_count INTEGER NOT NULL,"
    " next_message INTEGER NOT NULL) STRICT",
    "CREATE TABLE inbox (purse TEXT NOT NULL, number INTEGER NOT NULL, kind TEXT NOT NULL, details TEXT NOT NULL,"
    " PRIMARY KEY (purse, number)) STRICT",
    "CREATE TABLE line (purse TEXT NOT NULL, number INTEGER NOT NULL, kind TEXT NOT NULL, amount INTEGER NOT NULL,"
    " balance INTEGER NOT NULL, note TEXT NOT NULL, PRIMARY KEY (purse, number)) STRICT",
};

enum {
    BEGIN, COMMIT, NEW_HOLDER, NEW_PURSE, OWN, OWNER, NEXT, NUMBERS, MESSAGE, HAS_MESSAGE,
    SET_PURSE, RAISE_NEXT, ADD_MESSAGE, DROP_MESSAGE, ADD_LINE, STATEMENTS
};

static const char *const TEXTS[STATEMENTS] = {
    [BEGIN] = "BEGIN IMMEDIATE",
    [COMMIT] = "COMMIT",
    [NEW_HOLDER] = "INSERT INTO holder (name, member) VALUES (?1, 'm')",
    [NEW_PURSE] = "INSERT INTO purse (name, holder, balance, next_number, status, details, log, line_count, next_message)"
                  " VALUES (?1, ?2, ?3, 0, 'eaFrom', '', '', 0, 0)",
    [OWN] = "SELECT holder, balance, next_number, status, details, log, line_count FROM purse WHERE name = ?1",
    [OWNER] = "SELECT holder FROM purse WHERE name = ?1",
    [NEXT] = "SELECT next_message FROM purse WHERE name = ?1",
    [NUMBERS] = "SELECT number FROM inbox WHERE purse = ?1",
    [MESSAGE] = "SELECT kind, details FROM inbox WHERE purse = ?1 AND number = ?2",
    [HAS_MESSAGE] = "SELECT number FROM inbox WHERE purse = ?1 AND number = ?2",
    [SET_PURSE] = "UPDATE purse SET balance = ?2, next_number = ?3, status = ?4, details = ?5, log = ?6, line_count = ?7"
                  " WHERE name = ?1",
    [RAISE_NEXT] = "UPDATE purse SET next_message = ?2 WHERE name = ?1 AND next_message = ?3",
    [ADD_MESSAGE] = "INSERT INTO inbox (purse, number, kind, details) VALUES (?1, ?2, ?3, ?4)",
    [DROP_MESSAGE] = "DELETE FROM inbox WHERE purse = ?1 AND number = ?2",
    [ADD_LINE] = "INSERT INTO line (purse, number, kind, amount, balance, note) VALUES (?1, ?2, ?3, ?4, ?5, ?6)",
};

static sqlite3 *books;
static sqlite3_stmt *made[STATEMENTS];

static void check(int is_right) {
    if (!is_right) {
        fprintf(stderr, "%s\n", sqlite3_errmsg(books));
        exit(1);
    }
}

/* Executes a statement with these parameters, 's' a text and 'n' a number, and reads each column of each row. Gives the first
   number of the last row, or 0. */
static sqlite3_int64 ask(int statement, const char *kinds, ...) {
    sqlite3_stmt *s = made[statement];
    sqlite3_int64 found = 0;
    int status;
    va_list given;
    va_start(given, kinds);
    for (int i = 0; kinds[i]; i++) {
        if (kinds[i] == 's') sqlite3_bind_text(s, i + 1, va_arg(given, const char *), -1, SQLITE_STATIC);
        else sqlite3_bind_int64(s, i + 1, va_arg(given, sqlite3_int64));
    }
    va_end(given);
    while ((status = sqlite3_step(s)) == SQLITE_ROW) {
        for (int i = sqlite3_column_count(s) - 1; i >= 0; i--) {
            if (sqlite3_column_type(s, i) == SQLITE_INTEGER) found = sqlite3_column_int64(s, i);
            else sqlite3_column_text(s, i);
        }
    }
    check(status == SQLITE_DONE);
    sqlite3_reset(s);
    return found;
}

/* How many requests are one transaction, and how many wait for its commit. */
static int together = 1, waiting;

static void begin(void) {
    if (!waiting) ask(BEGIN, "");
}

static void commit(void) {
    if (++waiting < together) return;
    ask(COMMIT, "");
    waiting = 0;
}

struct purse {
    char name[32];
    sqlite3_int64 balance, next, lines, next_message;
};

static void set_purse(const struct purse *p, const char *status, const char *details) {
    ask(SET_PURSE, "snnsssn", p->name, p->balance, p->next, status, details, "", p->lines);
}

/* Whether a message to a purse finds a place, which it does here, and its number. */
static sqlite3_int64 place_of(const struct purse *to) {
    sqlite3_int64 number = ask(NEXT, "s", to->name);
    ask(NUMBERS, "s", to->name);
    return number;
}

static void add_message(struct purse *to, sqlite3_int64 number, const char *kind, const char *details) {
    ask(RAISE_NEXT, "snn", to->name, number + 1, number);
    ask(ADD_MESSAGE, "snss", to->name, number, kind, details);
    to->next_message = number + 1;
}

static void add_line(struct purse *p, const char *kind, const char *details) {
    p->lines++;
    ask(ADD_LINE, "snsnns", p->name, p->lines, kind, (sqlite3_int64)1, p->balance, details);
}

static void start(struct purse *p, const char *status, const char *details, struct purse *to) {
    ask(OWN, "s", p->name);
    sqlite3_int64 number = to ? place_of(to) : 0;
    p->next++;
    begin();
    set_purse(p, status, details);
    if (to) add_message(to, number, "req", details);
    commit();
}

/* A message is handled: money moves by so much, and an answer goes to the other purse, if one does. */
static void handle(struct purse *p, sqlite3_int64 message, int moved, const char *status, const char *details, struct purse *to,
                   const char *kind) {
    ask(OWN, "s", p->name);
    ask(MESSAGE, "sn", p->name, message);
    sqlite3_int64 number = to ? place_of(to) : 0;
    p->balance += moved;
    p->lines += moved != 0;
    begin();
    set_purse(p, status, strcmp(status, "epa") ? "" : details);
    p->lines -= moved != 0;
    if (moved) add_line(p, moved < 0 ? "sent" : "received", details);
    if (to) add_message(to, number, kind, details);
    commit();
}

static void discard(struct purse *p, sqlite3_int64 message) {
    ask(OWNER, "s", p->name);
    ask(HAS_MESSAGE, "sn", p->name, message);
    begin();
    ask(DROP_MESSAGE, "sn", p->name, message);
    commit();
}

static void pay(struct purse *p, struct purse *q) {
    char details[128];
    sqlite3_int64 number = q->next_message, first = p->next_message;
    snprintf(details, sizeof details, "%s,%s,1,%lld,%lld", p->name, q->name, (long long)p->next, (long long)q->next);
    start(p, "epr", details, NULL);
    start(q, "epv", details, p);
    handle(p, first, -1, "epa", details, q, "val");
    handle(q, number, 1, "eaTo", details, p, "ack");
    handle(p, first + 1, 0, "eaFrom", details, NULL, NULL);
    discard(p, first);
    discard(p, first + 1);
    discard(q, number);
}

static void new_purse(struct purse *p, const char *side, int pair, sqlite3_int64 balance) {
    char holder[32];
    snprintf(holder, sizeof holder, "%s%d", *side == 'p' ? "a" : "b", pair);
    *p = (struct purse){.balance = balance};
    snprintf(p->name, sizeof p->name, "%s%d", side, pair);
    begin();
    ask(NEW_HOLDER, "s", holder);
    ask(NEW_PURSE, "ssn", p->name, holder, balance);
    commit();
}

static void make_tables(const char *file) {
    check(sqlite3_open(file ? file : ":memory:", &books) == SQLITE_OK);
    if (file) {
        check(sqlite3_exec(books, "PRAGMA journal_mode = WAL", NULL, NULL, NULL) == SQLITE_OK);
        check(sqlite3_exec(books, "PRAGMA synchronous = FULL", NULL, NULL, NULL) == SQLITE_OK);
    }
    check(sqlite3_exec(books, "PRAGMA foreign_keys = ON", NULL, NULL, NULL) == SQLITE_OK);
    for (size_t i = 0; i < sizeof TABLES / sizeof *TABLES; i++) {
        check(sqlite3_exec(books, TABLES[i], NULL, NULL, NULL) == SQLITE_OK);
    }
    check(sqlite3_exec(books, "INSERT INTO member (name, granted, unspent) VALUES ('m', 0, 0)", NULL, NULL, NULL) == SQLITE_OK);
    for (int i = 0; i < STATEMENTS; i++) {
        check(sqlite3_prepare_v2(books, TEXTS[i], -1, &made[i], NULL) == SQLITE_OK);
    }
}

static sqlite3_int64 count(const char *text) {
    sqlite3_stmt *s;
    check(sqlite3_prepare_v2(books, text, -1, &s, NULL) == SQLITE_OK && sqlite3_step(s) == SQLITE_ROW);
    sqlite3_int64 found = sqlite3_column_int64(s, 0);
    sqlite3_finalize(s);
    return found;
}

int main(int words, char **word) {
    int pairs = words > 2 ? atoi(word[1]) : 0, payments = words > 2 ? atoi(word[2]) : 0;
    if (pairs < 1) {
        fprintf(stderr, "statements PAIRS PAYMENTS [FILE TOGETHER]\n");
        return 2;
    }
    struct purse *purses = calloc(2 * (size_t)pairs, sizeof *purses);
    make_tables(words > 3 ? word[3] : NULL);
    if (words > 4) together = atoi(word[4]);
    for (int i = 0; i < pairs; i++) {
        new_purse(&purses[2 * i], "p", i, 1000000);
        new_purse(&purses[2 * i + 1], "q", i, 0);
    }
    for (int i = 0; i < payments; i++) pay(&purses[2 * (i % pairs)], &purses[2 * (i % pairs) + 1]);
    if (waiting) ask(COMMIT, "");
    printf("%lld messages, %lld\n", (long long)count("SELECT count(*) FROM inbox"),
           (long long)count("SELECT sum(balance) FROM purse"));
    return 0;
}
