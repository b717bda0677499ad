/* Clients that make payments, each between its own pair of purses, one request a connection: what checks/beside-a-peer asks its
   servers with.

   load PORT CLIENTS PAYMENTS: each client is a thread, and makes so many payments of 1 from p<i> to q<i>, eight requests each,
   over books as payments.py sets them up. It prints how many requests a second were answered, and the milliseconds from the
   connect to the last byte that half of them took at most, 99 of a hundred, and all. The status is 1 where one wasn't answered
   200, or a message was ignored. */
#include <netinet/in.h>
#include <pthread.h>
#include <stdio.h>
#include <stdlib.h>
#include <string.h>
#include <sys/socket.h>
#include <time.h>
#include <unistd.h>

enum { STEPS = 8, MOST_BYTES = 4096 };
static int port, payments;
static double *times;
static int wrong;

static double now(void) {
    struct timespec time;
    clock_gettime(CLOCK_MONOTONIC, &time);
    return time.tv_sec + time.tv_nsec / 1e9;
}

/* Sends a request over a connection of its own, and gives how long what comes is. */
static long ask(const char *text, size_t length, char *out) {
    struct sockaddr_in there = {.sin_family = AF_INET, .sin_port = htons(port), .sin_addr.s_addr = htonl(INADDR_LOOPBACK)};
    int server = socket(AF_INET, SOCK_STREAM, 0);
    long came = 0, count;
    if (!connect(server, (void *)&there, sizeof there) && send(server, text, length, MSG_NOSIGNAL) == (ssize_t)length)
        while ((count = recv(server, out + came, MOST_BYTES - 1 - came, 0)) > 0) came += count;
    close(server);
    out[came] = 0;
    return came;
}

/* The request of one step of a client's payment. */
static size_t request(long client, int payment, int step, char *text) {
    static const char SIDES[STEPS] = "pqpqpppq";
    static const char *const VERBS[STEPS] = {"start-from", "start-to", "handle", "handle", "handle", "discard", "discard", "discard"};
    const int numbers[STEPS] = {0, 0, 2 * payment, payment, 2 * payment + 1, 2 * payment, 2 * payment + 1, payment};
    char body[128], side = SIDES[step];
    if (step < 2) sprintf(body, "{\"peer\":\"%c%ld\",\"value\":1,\"seq\":%d}", side == 'p' ? 'q' : 'p', client, payment);
    else sprintf(body, "{\"number\":%d}", numbers[step]);
    return sprintf(text, "POST /purses/%c%ld/%s HTTP/1.1\r\nhost: office\r\npurse-token: %016x%016lx\r\ncontent-length: %zu\r\n\r\n%s",
                   side, client, VERBS[step], side == 'p' ? 3 : 4, client, strlen(body), body);
}

static void *run(void *word) {
    long client = (long)word;
    char text[1024], out[MOST_BYTES];
    for (int i = 0; i < STEPS * payments; i++) {
        size_t length = request(client, i / STEPS, i % STEPS, text);
        double began = now();
        long came = ask(text, length, out);
        times[client * STEPS * payments + i] = now() - began;
        if (came && !strncmp(out, "HTTP/1.1 200 ", 13) && !strstr(out, "ignored")) continue;
        if (!__sync_fetch_and_add(&wrong, 1)) fprintf(stderr, "%s\nis answered\n%s\n", text, out);
    }
    return NULL;
}

static int by_size(const void *one, const void *other) {
    double a = *(const double *)one, b = *(const double *)other;
    return (a > b) - (a < b);
}

int main(int count, char **words) {
    if (count != 4) return 2;
    port = atoi(words[1]);
    long clients = atol(words[2]), all;
    payments = atoi(words[3]);
    all = clients * STEPS * payments;
    times = calloc(all, sizeof *times);
    pthread_t *threads = calloc(clients, sizeof *threads);
    double began = now();
    for (long i = 0; i < clients; i++)
        if (pthread_create(&threads[i], NULL, run, (void *)i)) return 2;
    for (long i = 0; i < clients; i++) pthread_join(threads[i], NULL);
    double passed = now() - began;
    qsort(times, all, sizeof *times, by_size);
    printf("%.0f %.3f %.3f %.3f\n", all / passed, times[all / 2] * 1e3, times[all * 99 / 100] * 1e3, times[all - 1] * 1e3);
    return wrong != 0;
}
