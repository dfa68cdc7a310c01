/* Sends datagrams over loopback and waits for their replies, with a number of them in flight; or
 * echoes each datagram, for a comparison with a server.
 *
 *   server_sender echo PORT
 *   server_sender send PORT WINDOW FILE
 *   server_sender pace PORT RATE FILE
 *
 * `send` keeps WINDOW datagrams in flight. `pace` sends RATE a second, whatever is answered. It
 * counts the time to a reply from the moment at which its datagram was due. So one stall of the
 * server shows in all datagrams that it delayed.
 *
 * FILE holds datagrams, each after its size as two octets, the high one first. The second octet of
 * a datagram is its identifier, the number of the datagram modulo 256; a reply has it at the same
 * place. What no reply came for within a second counts as lost and is not sent again. It prints how
 * many were answered and lost, the seconds from the first sending to the last reply, and the
 * median, the 99th percentile and the longest of the times to a reply, in microseconds. */
#define _GNU_SOURCE
#include <arpa/inet.h>
#include <poll.h>
#include <stdint.h>
#include <stdio.h>
#include <stdlib.h>
#include <string.h>
#include <sys/socket.h>
#include <time.h>
#include <unistd.h>

#define LONGEST 4096
#define MOST 2000000
#define PATIENCE 1000000000ll

static int64_t now(void) {
    struct timespec t;
    clock_gettime(CLOCK_MONOTONIC, &t);
    return t.tv_sec * 1000000000ll + t.tv_nsec;
}

static int bound(int port) {
    struct sockaddr_in at = {
        .sin_family = AF_INET, .sin_port = htons(port), .sin_addr.s_addr = htonl(INADDR_LOOPBACK)};
    int s = socket(AF_INET, SOCK_DGRAM, 0);
    if (bind(s, (struct sockaddr *)&at, sizeof at) != 0) {
        perror("bind");
        exit(1);
    }
    return s;
}

static _Noreturn void echo(int port) {
    int s = bound(port);
    static unsigned char octets[LONGEST];
    for (;;) {
        struct sockaddr_in from;
        socklen_t size = sizeof from;
        ssize_t n = recvfrom(s, octets, sizeof octets, 0, (struct sockaddr *)&from, &size);
        if (n >= 20) {
            sendto(s, octets, 20, 0, (struct sockaddr *)&from, size);
        }
    }
}

static int by_size(const void *a, const void *b) {
    int64_t x = *(const int64_t *)a, y = *(const int64_t *)b;
    return (x > y) - (x < y);
}

static int64_t took[MOST];
static int64_t sent_at[256];
static int is_out[256];

/* Takes the replies that are there, waiting for one. */
static long take(int s, long *answered, int64_t *last) {
    unsigned char octets[LONGEST];
    ssize_t n = recv(s, octets, sizeof octets, 0);
    if (n < 2 || !is_out[octets[1]]) {
        return 0;
    }
    *last = now();
    is_out[octets[1]] = 0;
    took[(*answered)++] = *last - sent_at[octets[1]];
    return 1;
}

/* Gives up what was sent too long ago. */
static long give_up(void) {
    long lost = 0;
    int64_t t = now();
    for (int i = 0; i < 256; i++) {
        if (is_out[i] && t - sent_at[i] > PATIENCE) {
            is_out[i] = 0;
            lost++;
        }
    }
    return lost;
}

/* Waits for a reply, or gives up what has waited too long: how many are no longer on their way. */
static long settle(int s, long *answered, long *lost, int64_t *last) {
    if (take(s, answered, last)) {
        return 1;
    }
    long gone = give_up();
    *lost += gone;
    return gone;
}

/* A socket that sends to a port of this machine, and waits so long for what comes back. */
static int sender_to(int port, long microseconds) {
    struct sockaddr_in to = {
        .sin_family = AF_INET, .sin_port = htons(port), .sin_addr.s_addr = htonl(INADDR_LOOPBACK)};
    int s = bound(0);
    struct timeval patience = {.tv_sec = 0, .tv_usec = microseconds};
    setsockopt(s, SOL_SOCKET, SO_RCVTIMEO, &patience, sizeof patience);
    connect(s, (struct sockaddr *)&to, sizeof to);
    return s;
}

/* The size of the next datagram of the file, or 0 at its end. */
static size_t next_of(FILE *file, const char *path, unsigned char *octets) {
    int high = fgetc(file);
    if (high == EOF) {
        return 0;
    }
    size_t size = (size_t)high << 8 | (size_t)fgetc(file);
    if (size > LONGEST || fread(octets, 1, size, file) != size) {
        fprintf(stderr, "%s is cut\n", path);
        exit(1);
    }
    return size;
}

static void tell(long answered, long lost, int64_t first, int64_t last) {
    qsort(took, (size_t)answered, sizeof took[0], by_size);
    int64_t median = answered ? took[answered / 2] : 0;
    int64_t late = answered ? took[answered * 99 / 100] : 0;
    int64_t most = answered ? took[answered - 1] : 0;
    double seconds = (last - first) / 1e9;
    printf("%ld %ld %.6f %.1f %.1f %.1f\n", answered, lost, seconds, median / 1e3, late / 1e3,
           most / 1e3);
}

static FILE *opened(const char *path) {
    FILE *file = fopen(path, "rb");
    if (file == NULL) {
        perror(path);
        exit(1);
    }
    return file;
}

static int send_all(int port, long window, const char *path) {
    FILE *file = opened(path);
    int s = sender_to(port, 200000);
    long answered = 0, lost = 0, out = 0;
    int64_t first = now(), last = first;
    unsigned char octets[LONGEST];
    size_t size;
    while ((size = next_of(file, path, octets)) != 0) {
        while (out >= window || is_out[octets[1]]) {
            out -= settle(s, &answered, &lost, &last);
        }
        sent_at[octets[1]] = now();
        is_out[octets[1]] = 1;
        out++;
        send(s, octets, size, 0);
    }
    while (out > 0) {
        out -= settle(s, &answered, &lost, &last);
    }
    tell(answered, lost, first, last);
    return 0;
}

/* Takes what comes back until a moment. */
static long take_until(int s, int64_t moment, long *answered, int64_t *last) {
    long taken = 0;
    struct pollfd asked = {.fd = s, .events = POLLIN};
    for (;;) {
        int64_t left = moment - now();
        struct timespec patience = {.tv_sec = left / 1000000000ll, .tv_nsec = left % 1000000000ll};
        if (left <= 0 || ppoll(&asked, 1, &patience, NULL) <= 0) {
            return taken;
        }
        taken += take(s, answered, last);
    }
}

static int pace_all(int port, long rate, const char *path) {
    FILE *file = opened(path);
    int s = sender_to(port, 1000);
    long answered = 0, lost = 0, out = 0, sent = 0;
    int64_t first = now(), last = first;
    unsigned char octets[LONGEST];
    size_t size;
    while ((size = next_of(file, path, octets)) != 0) {
        int64_t due = first + sent++ * 1000000000ll / rate;
        out -= take_until(s, due, &answered, &last);
        long gone = give_up();
        out -= gone;
        lost += gone;
        if (is_out[octets[1]]) {
            out--;
            lost++;
        }
        sent_at[octets[1]] = due;
        is_out[octets[1]] = 1;
        out++;
        send(s, octets, size, 0);
    }
    out -= take_until(s, now() + PATIENCE, &answered, &last);
    tell(answered, lost + out, first, last);
    return 0;
}
int main(int count, char **words) {
    if (count == 3 && strcmp(words[1], "echo") == 0) {
        echo(atoi(words[2]));
    }
    if (count == 5 && strcmp(words[1], "send") == 0) {
        return send_all(atoi(words[2]), atol(words[3]), words[4]);
    }
    if (count == 5 && strcmp(words[1], "pace") == 0) {
        return pace_all(atoi(words[2]), atol(words[3]), words[4]);
    }
    fprintf(stderr, "server_sender echo PORT, send PORT WINDOW FILE or pace PORT RATE FILE\n");
    return 2;
}
