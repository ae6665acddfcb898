/* Clients of a server that answers lines, as bench/server starts them.
 *
 *     client PORT CLIENTS REQUESTS BATCH CALLS ENDS GREETING REQUEST
 *
 * Each of CLIENTS threads makes REQUESTS requests, or goes on without end if that is 0. It sends GREETING, whose reply is one line. Then
 * it sends BATCH times REQUEST at once, waits for as many replies of ENDS lines each, and so on. After CALLS requests it ends its
 * connection and begins another one. GREETING and REQUEST are given without the last LF.
 *
 * Prints the seconds from the first connection to the last reply, and the median and the 99th percentile of the times from a batch to its
 * last reply, in microseconds. The status is 1 if a server doesn't answer.
 */

#include <arpa/inet.h>
#include <netinet/tcp.h>
#include <pthread.h>
#include <stdio.h>
#include <stdlib.h>
#include <string.h>
#include <sys/socket.h>
#include <time.h>
#include <unistd.h>

static struct sockaddr_in server;
static long clients, requests, batch, calls, ends;
static char *greeting, *sent;
static size_t greeting_size, sent_size;
static pthread_barrier_t start;

static void fail(const char *what) {
    fprintf(stderr, "client: %s\n", what);
    exit(1);
}

static double now(void) {
    struct timespec at;
    clock_gettime(CLOCK_MONOTONIC, &at);
    return at.tv_sec + at.tv_nsec / 1e9;
}

/* Repeats the line, each time with an LF. */
static char *lines(const char *line, long times, size_t *size) {
    size_t length = strlen(line) + 1;
    char *text = malloc(length * times);
    for (long i = 0; i < times; i++) {
        memcpy(text + i * length, line, length - 1);
        text[(i + 1) * length - 1] = '\n';
    }
    *size = length * times;
    return text;
}

static void send_all(int stream, const char *text, size_t size) {
    while (size > 0) {
        ssize_t gone = send(stream, text, size, MSG_NOSIGNAL);
        if (gone <= 0)
            fail("a send failed");
        text += gone;
        size -= gone;
    }
}

/* Waits for this number of lines. The server sends only lines that were asked for. */
static void await(int stream, long wanted) {
    static __thread char page[65536];
    while (wanted > 0) {
        ssize_t come = recv(stream, page, sizeof page, 0);
        if (come <= 0)
            fail("a connection has ended");
        for (char *at = page; (at = memchr(at, '\n', page + come - at)) != NULL; at++)
            wanted--;
    }
}

static int greeted(void) {
    int stream = socket(AF_INET, SOCK_STREAM, 0), yes = 1;
    setsockopt(stream, IPPROTO_TCP, TCP_NODELAY, &yes, sizeof yes);
    if (connect(stream, (struct sockaddr *)&server, sizeof server) != 0)
        fail("can't connect");
    send_all(stream, greeting, greeting_size);
    await(stream, 1);
    return stream;
}

static void *talk(void *kept) {
    double *times = kept;
    int stream = -1;
    pthread_barrier_wait(&start);
    for (long made = 0; requests == 0 || made < requests; made += batch) {
        if (made % calls == 0) {
            if (stream >= 0)
                close(stream);
            stream = greeted();
        }
        double begun = now();
        send_all(stream, sent, sent_size);
        await(stream, batch * ends);
        if (times != NULL)
            times[made / batch] = now() - begun;
    }
    close(stream);
    return NULL;
}

static int order(const void *one, const void *other) {
    double a = *(const double *)one, b = *(const double *)other;
    return (a > b) - (a < b);
}

int main(int count, char **words) {
    if (count != 9)
        fail("usage: client PORT CLIENTS REQUESTS BATCH CALLS ENDS GREETING REQUEST");
    server = (struct sockaddr_in){.sin_family = AF_INET, .sin_port = htons(atoi(words[1])), .sin_addr.s_addr = htonl(INADDR_LOOPBACK)};
    clients = atol(words[2]), requests = atol(words[3]), batch = atol(words[4]), calls = atol(words[5]), ends = atol(words[6]);
    greeting = lines(words[7], 1, &greeting_size);
    sent = lines(words[8], batch, &sent_size);
    if (clients < 1 || batch < 1 || requests % batch != 0 || calls % batch != 0)
        fail("REQUESTS and CALLS have to be multiples of BATCH");
    long each = requests / batch;
    double *times = each > 0 ? malloc(clients * each * sizeof *times) : NULL;
    pthread_t *threads = malloc(clients * sizeof *threads);
    pthread_barrier_init(&start, NULL, clients + 1);
    for (long i = 0; i < clients; i++)
        if (pthread_create(&threads[i], NULL, talk, times == NULL ? NULL : times + i * each) != 0)
            fail("can't start a thread");
    pthread_barrier_wait(&start);
    double begun = now();
    for (long i = 0; i < clients; i++)
        pthread_join(threads[i], NULL);
    double took = now() - begun;
    qsort(times, clients * each, sizeof *times, order);
    printf("%.6f %.2f %.2f\n", took, times[clients * each / 2] * 1e6, times[clients * each * 99 / 100] * 1e6);
}
