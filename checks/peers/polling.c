/* A server of payments between purses in one thread, over the C library of SQLite and the tables of a file of the office: what
   checks/beside-a-peer measures `serve` beside.

   polling FILE PORT COUNT listens on 127.0.0.1, says so, and ends after COUNT requests. It polls its connections. All requests
   that are whole at once are one transaction, which is synced (a log, synchronous FULL), and then each is answered and its
   connection closed. It knows the routes of a payment and of a purse, tokens, and the refusals that these meet. It proves nothing,
   keeps no time, and takes what its bodies say by sscanf. */
#define _GNU_SOURCE
#include <fcntl.h>
#include <netinet/in.h>
#include <poll.h>
#include <sqlite3.h>
#include <stdarg.h>
#include <stdio.h>
#include <stdlib.h>
#include <string.h>
#include <sys/socket.h>
#include <unistd.h>

enum { MOST_CLIENTS = 1024, MOST_BYTES = 12288, MOST_ANSWER = 1024, INBOX = 32 };
enum { WHO, PURSE, ROOM, MESSAGE, SET_PURSE, RAISE_NEXT, ADD_MESSAGE, ADD_LINE, DROP_MESSAGE, BEGIN, COMMIT, STATEMENTS };

static const char *const TEXTS[STATEMENTS] = {
    [WHO] = "SELECT name FROM token WHERE token = ?1 AND kind = 'holder'",
    [PURSE] = "SELECT holder, balance, next_number, status, details, log, line_count FROM purse WHERE name = ?1",
    [ROOM] = "SELECT next_message, (SELECT count(*) FROM inbox WHERE purse = ?1) FROM purse WHERE name = ?1",
    [MESSAGE] = "SELECT kind, details FROM inbox WHERE purse = ?1 AND number = ?2",
    [SET_PURSE] = "UPDATE purse SET balance = ?2, next_number = ?3, status = ?4, details = ?5, log = ?6, line_count = ?7"
                  " WHERE name = ?1",
    [RAISE_NEXT] = "UPDATE purse SET next_message = ?2 WHERE name = ?1 AND next_message = ?3",
    [ADD_MESSAGE] = "INSERT INTO inbox (purse, number, kind, details) VALUES (?1, ?2, ?3, ?4)",
    [ADD_LINE] = "INSERT INTO line (purse, number, kind, amount, balance, note) VALUES (?1, ?2, ?3, ?4, ?5, ?6)",
    [DROP_MESSAGE] = "DELETE FROM inbox WHERE purse = ?1 AND number = ?2",
    [BEGIN] = "BEGIN IMMEDIATE",
    [COMMIT] = "COMMIT",
};

struct purse {
    char name[32], holder[32], status[8], details[128], log[2048];
    sqlite3_int64 balance, next, lines;
};

struct client {
    int socket, is_answered;
    size_t came, length;
    char bytes[MOST_BYTES + 1], answer[MOST_ANSWER];
};

static sqlite3 *books;
static sqlite3_stmt *made[STATEMENTS];

static void check(int is_right, const char *what) {
    if (is_right) return;
    if (books) fprintf(stderr, "%s: %s\n", what, sqlite3_errmsg(books));
    else perror(what);
    exit(1);
}

/* Executes a statement with these parameters, 's' a text and 'n' a number. Says whether there is a row, whose columns may be
   read until the statement is executed again. */
static int ask(int statement, const char *kinds, ...) {
    sqlite3_stmt *s = made[statement];
    va_list given;
    sqlite3_reset(s);
    va_start(given, kinds);
    for (int i = 0; kinds[i]; i++) {
        if (kinds[i] == 's') sqlite3_bind_text(s, i + 1, va_arg(given, const char *), -1, SQLITE_TRANSIENT);
        else sqlite3_bind_int64(s, i + 1, va_arg(given, sqlite3_int64));
    }
    va_end(given);
    int status = sqlite3_step(s);
    check(status == SQLITE_ROW || status == SQLITE_DONE, TEXTS[statement]);
    if (status == SQLITE_DONE) sqlite3_reset(s);
    return status == SQLITE_ROW;
}

static void copy_text(char *to, size_t size, int statement, int column) {
    snprintf(to, size, "%s", (const char *)sqlite3_column_text(made[statement], column));
}

static sqlite3_int64 number(int statement, int column) { return sqlite3_column_int64(made[statement], column); }

static int read_purse(const char *name, struct purse *p) {
    if (!ask(PURSE, "s", name)) return 0;
    snprintf(p->name, sizeof p->name, "%s", name);
    copy_text(p->holder, sizeof p->holder, PURSE, 0);
    p->balance = number(PURSE, 1);
    p->next = number(PURSE, 2);
    copy_text(p->status, sizeof p->status, PURSE, 3);
    copy_text(p->details, sizeof p->details, PURSE, 4);
    copy_text(p->log, sizeof p->log, PURSE, 5);
    p->lines = number(PURSE, 6);
    sqlite3_reset(made[PURSE]);
    return 1;
}

static void set_purse(const struct purse *p) {
    ask(SET_PURSE, "snnsssn", p->name, p->balance, p->next, p->status, p->details, p->log, p->lines);
}

static void add_line(struct purse *p, const char *kind, sqlite3_int64 amount, const char *note) {
    p->lines++;
    ask(ADD_LINE, "snsnns", p->name, p->lines, kind, amount, p->balance, note);
}

/* Puts a message into an inbox that is there and has room. */
static void send_message(const char *to, const char *kind, const char *details) {
    if (!ask(ROOM, "s", to)) return;
    sqlite3_int64 next = number(ROOM, 0), count = number(ROOM, 1);
    sqlite3_reset(made[ROOM]);
    if (count >= INBOX) return;
    ask(RAISE_NEXT, "snn", to, next + 1, next);
    ask(ADD_MESSAGE, "snss", to, next, kind, details);
}

static int answer(char *out, const char *status, const char *body) {
    return snprintf(out, MOST_ANSWER,
                    "HTTP/1.1 %s\r\ncontent-type: application/json\r\ncontent-length: %zu\r\nconnection: close\r\n\r\n%s", status,
                    strlen(body), body);
}

static int done(char *out, const char *word) {
    char body[64];
    snprintf(body, sizeof body, "{\"done\":\"%s\"}", word);
    return answer(out, "200 OK", body);
}

static int bad_body(char *out) { return answer(out, "400 Bad Request", "{\"error\":\"bad body\"}"); }

static int show(const struct purse *p, char *out) {
    char body[256];
    snprintf(body, sizeof body, "{\"balance\":%lld,\"next\":%lld,\"purse\":\"%s\",\"status\":\"%s\"}", p->balance, p->next, p->name,
             p->status);
    return answer(out, "200 OK", body);
}

static int start(struct purse *p, int pays, const char *body, char *out) {
    char peer[32], shown[192];
    sqlite3_int64 value, seq;
    if (sscanf(body, "{\"peer\":\"%31[^\"]\",\"value\":%lld,\"seq\":%lld}", peer, &value, &seq) != 3) return bad_body(out);
    if (pays && p->balance < value) return answer(out, "409 Conflict", "{\"error\":\"not enough\"}");
    if (pays) snprintf(p->details, sizeof p->details, "%s,%s,%lld,%lld,%lld", p->name, peer, value, p->next, seq);
    else snprintf(p->details, sizeof p->details, "%s,%s,%lld,%lld,%lld", peer, p->name, value, seq, p->next);
    strcpy(p->status, pays ? "epr" : "epv");
    p->next++;
    set_purse(p);
    if (!pays) send_message(peer, "req", p->details);
    snprintf(shown, sizeof shown, "{\"details\":\"%s\",\"done\":\"started\"}", p->details);
    return answer(out, "200 OK", shown);
}

/* Hands a message to the purse that has its payment under way. */
static int handle(struct purse *p, const char *kind, const char *details, char *out) {
    char payer[32], payee[32];
    sqlite3_int64 value;
    if (strcmp(details, p->details)) return done(out, "ignored");
    if (sscanf(details, "%31[^,],%31[^,],%lld", payer, payee, &value) != 3) return done(out, "ignored");
    if (!strcmp(kind, "req")) {
        p->balance -= value;
        strcpy(p->status, "epa");
        add_line(p, "sent", value, details);
        set_purse(p);
        send_message(payee, "val", details);
        return done(out, "value-sent");
    }
    p->details[0] = 0;
    if (!strcmp(kind, "ack")) {
        strcpy(p->status, "eaFrom");
        set_purse(p);
        return done(out, "finished");
    }
    p->balance += value;
    strcpy(p->status, "eaTo");
    add_line(p, "received", value, details);
    set_purse(p);
    send_message(payer, "ack", details);
    return done(out, "received");
}

static int with_message(struct purse *p, int is_handled, const char *body, char *out) {
    char kind[8], details[128];
    sqlite3_int64 which;
    if (sscanf(body, "{\"number\":%lld}", &which) != 1) return bad_body(out);
    if (!ask(MESSAGE, "sn", p->name, which)) return answer(out, "404 Not Found", "{\"error\":\"no such message\"}");
    copy_text(kind, sizeof kind, MESSAGE, 0);
    copy_text(details, sizeof details, MESSAGE, 1);
    sqlite3_reset(made[MESSAGE]);
    if (is_handled) return handle(p, kind, details, out);
    ask(DROP_MESSAGE, "sn", p->name, which);
    return done(out, "discarded");
}

/* Does a request, and gives how long its answer is. */
static int serve(const char *head, const char *body, char *out) {
    char path[128], token[64] = "", holder[32], name[32], verb[32] = "";
    struct purse p;
    if (sscanf(head, "%*7s %127s", path) != 1) return answer(out, "400 Bad Request", "{\"error\":\"bad head\"}");
    const char *field = strcasestr(head, "purse-token:");
    if (field) sscanf(field + strlen("purse-token:"), " %63s", token);
    if (!ask(WHO, "s", token)) return answer(out, "403 Forbidden", "{\"error\":\"token not known\"}");
    copy_text(holder, sizeof holder, WHO, 0);
    sqlite3_reset(made[WHO]);
    int parts = sscanf(path, "/purses/%31[^/]/%31s", name, verb);
    if (parts < 1 || !read_purse(name, &p) || strcmp(p.holder, holder))
        return answer(out, "404 Not Found", "{\"error\":\"no such purse\"}");
    if (parts == 1) return show(&p, out);
    if (!strcmp(verb, "start-from") || !strcmp(verb, "start-to")) return start(&p, !strcmp(verb, "start-from"), body, out);
    return with_message(&p, !strcmp(verb, "handle"), body, out);
}

static void open_books(const char *path) {
    check(sqlite3_open(path, &books) == SQLITE_OK, path);
    const char *how = "PRAGMA locking_mode=EXCLUSIVE; PRAGMA journal_mode=WAL; PRAGMA synchronous=FULL; PRAGMA foreign_keys=ON";
    check(sqlite3_exec(books, how, NULL, NULL, NULL) == SQLITE_OK, how);
    for (int i = 0; i < STATEMENTS; i++)
        check(sqlite3_prepare_v3(books, TEXTS[i], -1, SQLITE_PREPARE_PERSISTENT, &made[i], NULL) == SQLITE_OK, TEXTS[i]);
}

static int listen_on(int port) {
    struct sockaddr_in here = {.sin_family = AF_INET, .sin_port = htons(port), .sin_addr.s_addr = htonl(INADDR_LOOPBACK)};
    int listener = socket(AF_INET, SOCK_STREAM | SOCK_NONBLOCK, 0), yes = 1;
    setsockopt(listener, SOL_SOCKET, SO_REUSEADDR, &yes, sizeof yes);
    check(!bind(listener, (void *)&here, sizeof here) && !listen(listener, 1024), "listen");
    printf("listening on 127.0.0.1:%d\n", port);
    fflush(stdout);
    return listener;
}

/* Reads what has come of a client. Gives whether its connection goes on. */
static int read_more(struct client *c) {
    ssize_t count = recv(c->socket, c->bytes + c->came, MOST_BYTES - c->came, MSG_DONTWAIT);
    if (count <= 0) return 0;
    if (!c->is_answered) c->came += count;
    c->bytes[c->came] = 0;
    return 1;
}

/* The body of a client's request, behind a head that is ended; or NULL where the request isn't whole. */
static char *body_of(struct client *c) {
    char *end = strstr(c->bytes, "\r\n\r\n"), *field = strcasestr(c->bytes, "content-length:");
    if (!end) return NULL;
    long length = field && field < end ? atol(field + strlen("content-length:")) : 0;
    if (c->bytes + c->came < end + 4 + length) return NULL;
    *end = 0;
    return end + 4;
}

static void drop(struct client **c) {
    close((*c)->socket);
    free(*c);
    *c = NULL;
}

/* Does what the clients that are ready ask for, in one transaction, and answers them. Gives how many that were. */
static int round_of(struct client **clients, const struct pollfd *ready, int count) {
    int asked = 0;
    for (int i = 0; i < count; i++) {
        struct client *c = clients[i];
        char *body;
        if (!ready[i].revents) continue;
        if (!read_more(c)) drop(&clients[i]);
        else if (!c->is_answered && (body = body_of(c))) {
            if (!asked++) ask(BEGIN, "");
            c->length = serve(c->bytes, body, c->answer);
            c->is_answered = 1;
        }
    }
    if (asked) ask(COMMIT, "");
    for (int i = 0; asked && i < count; i++) {
        if (!clients[i] || !clients[i]->length) continue;
        send(clients[i]->socket, clients[i]->answer, clients[i]->length, MSG_NOSIGNAL);
        shutdown(clients[i]->socket, SHUT_WR);
        clients[i]->length = 0;
    }
    return asked;
}

static int take_clients(int listener, struct client **clients, int count) {
    int taken;
    while (count < MOST_CLIENTS && (taken = accept(listener, NULL, NULL)) >= 0) {
        clients[count] = calloc(1, sizeof **clients);
        clients[count++]->socket = taken;
    }
    return count;
}

int main(int count, char **words) {
    static struct client *clients[MOST_CLIENTS];
    static struct pollfd ready[MOST_CLIENTS + 1];
    check(count == 4, "polling FILE PORT COUNT");
    long left = atol(words[3]);
    open_books(words[1]);
    int listener = listen_on(atoi(words[2])), open = 0;
    while (left > 0 || open) {
        ready[0] = (struct pollfd){listener, POLLIN, 0};
        for (int i = 0; i < open; i++) ready[i + 1] = (struct pollfd){clients[i]->socket, POLLIN, 0};
        poll(ready, open + 1, -1);
        left -= round_of(clients, ready + 1, open);
        int stay = 0;
        for (int i = 0; i < open; i++)
            if (clients[i]) clients[stay++] = clients[i];
        open = ready[0].revents ? take_clients(listener, clients, stay) : stay;
    }
    for (int i = 0; i < STATEMENTS; i++) sqlite3_finalize(made[i]);
    return sqlite3_close(books) != SQLITE_OK;
}
