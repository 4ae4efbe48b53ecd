// load.c: the clients of bench/load.py, which compiles it and starts it. It speaks to 127.0.0.1 alone.
//
//   load bare FILE COUNT GROWS
//       COUNT (1 to 100,000) appends of 64 bytes to a new file, each with a sync by fdatasync. GROWS 1: at the end of the file, which
//       grows; 0: in a file that had its length before, filled by 4 KiB, as `ringd` fills a node's. The file is removed. Prints
//       `bare NANOSECONDS`, of all appends.
//   load hops FOLDER HOPS COUNT REST
//       COUNT (1 to 10,000) chains of HOPS (1 to 64) commits, one behind the other by one thread, in three files of FOLDER in turn: 30
//       bytes and a sync, then a byte and a sync, as a node commits one input. So it is what an election of so many commits costs where
//       no thread is woken. Before each chain it rests REST microseconds (0 to 1,000,000). The files are removed. Prints `hops
//       NANOSECONDS` for each chain.
//   load stands PORT NODES CLIENTS ROUNDS WHO
//       CLIENTS clients (1 to 64), each in a thread, at each of NODES nodes (1 to 16), node I at port PORT + I - 1. Each asks one
//       line before the clock starts, and then ROUNDS times (1 to 4,000) `stand`, and `who` behind each where WHO is 1, in a group
//       of its own and a greater term each time. Prints `wall NANOSECONDS`, from the first line to the last answer, and for each
//       kind of line `stand` or `who`, the count of answers, and the 50th, 90th and 99th percentile of their times in nanoseconds.
//   load elections PORT NODES COUNT REST
//       COUNT elections (1 to 1,000), one after the other, each of a group of its own and behind a rest of REST microseconds (0 to
//       1,000,000): `stand` at each node, then `latest` at one node after the other, each 0.1 ms behind the answer before, until it is
//       not `none`. Prints for each `election NANOSECONDS LATE POLLS`: the time from the first byte sent to the last leader read, how
//       many nodes answered `no 4 late`, and how often `latest` was asked. It ends before a session has had all the lines that a node
//       takes in one.
//   load years PORT NODES GROUPS TERMS KEEP
//       GROUPS clients (1 to 16), each in a thread, with a group of its own and sessions with all NODES nodes. Each has TERMS (1 to
//       1,000,000) elections, one after the other: `stand` at the next node for the next term, `latest` at one node after the other, each
//       until it tells that term, and at each node `retire` of the terms more than KEEP (0 to 1,000) below. Prints `wall NANOSECONDS`,
//       and of `election`, without its retiring, and of `retire` the count, and the percentiles of their times as above.
//
// Status 1 where a word is wrong, 2 where the system refuses a call or an answer does not come within ten seconds, 3 where an answer is
// none that is expected, which is printed on standard error.
#define _GNU_SOURCE
#include <arpa/inet.h>
#include <errno.h>
#include <fcntl.h>
#include <netinet/tcp.h>
#include <pthread.h>
#include <stdarg.h>
#include <stdint.h>
#include <stdio.h>
#include <stdlib.h>
#include <string.h>
#include <sys/socket.h>
#include <sys/time.h>
#include <time.h>
#include <unistd.h>

enum { LINE = 64, ANSWER = 256, SESSION_LINES = 10000, SECONDS = 10, POLLS = 300 };

static uint64_t now(void) {
    struct timespec t;
    clock_gettime(CLOCK_MONOTONIC, &t);
    return (uint64_t)t.tv_sec * 1000000000u + (uint64_t)t.tv_nsec;
}

static void refused(const char *what) {
    fprintf(stderr, "load: %s: %s\n", what, strerror(errno));
    exit(2);
}

static void unexpected(const char *line, const char *answer) {
    fprintf(stderr, "load: %s: %s\n", line, answer);
    exit(3);
}

// A word that is a number from `least` to `most`.
static int number(const char *word, int least, int most) {
    char *end;
    long value = strtol(word, &end, 10);
    if (*word == 0 || *end != 0 || value < least || value > most) {
        fprintf(stderr, "load: %s is not %d to %d\n", word, least, most);
        exit(1);
    }
    return (int)value;
}

// One write takes a line, one read its answer in nearly all cases: the least that a client can do.
static int connected(int port) {
    int s = socket(AF_INET, SOCK_STREAM, 0), one = 1;
    struct sockaddr_in a = {.sin_family = AF_INET, .sin_port = htons((uint16_t)port), .sin_addr.s_addr = htonl(INADDR_LOOPBACK)};
    struct timeval limit = {.tv_sec = SECONDS};
    if (s < 0 || connect(s, (void *)&a, sizeof a) || setsockopt(s, IPPROTO_TCP, TCP_NODELAY, &one, sizeof one)
        || setsockopt(s, SOL_SOCKET, SO_RCVTIMEO, &limit, sizeof limit) || setsockopt(s, SOL_SOCKET, SO_SNDTIMEO, &limit, sizeof limit))
        refused("connect");
    return s;
}

static void put(int s, const char *line, size_t length) {
    if (write(s, line, length) != (ssize_t)length) refused("write");
}

// Reads one line, whose end is replaced.
static void get(int s, char *answer) {
    size_t length = 0;
    do {
        ssize_t n = read(s, answer + length, ANSWER - 1 - length);
        if (n <= 0) refused("read");
        length += (size_t)n;
    } while (answer[length - 1] != '\n' && length < ANSWER - 1);
    answer[length - 1] = 0;
}

static void bye(int s) {
    char answer[ANSWER];
    put(s, "bye\n", 4);
    get(s, answer);
    if (strcmp(answer, "bye")) unexpected("bye", answer);
    close(s);
}

static int ascending(const void *a, const void *b) {
    uint64_t x = *(const uint64_t *)a, y = *(const uint64_t *)b;
    return (x > y) - (x < y);
}

static const char zeros[4096];

// A new file of this length at least. One large write would make each sync of it dearer on some file systems.
static int filled(const char *path, size_t length) {
    int fd = open(path, O_RDWR | O_CREAT | O_EXCL, 0600);
    if (fd < 0) refused(path);
    for (size_t at = 0; at < length; at += sizeof zeros)
        if (pwrite(fd, zeros, sizeof zeros, (off_t)at) != sizeof zeros) refused(path);
    if (fsync(fd)) refused(path);
    return fd;
}

static void append(int fd, size_t at, size_t length) {
    if (pwrite(fd, zeros, length, (off_t)at) != (ssize_t)length || fdatasync(fd)) refused("append");
}

static void rested(int microseconds) {
    struct timespec pause = {.tv_sec = microseconds / 1000000, .tv_nsec = microseconds % 1000000 * 1000L};
    if (microseconds) nanosleep(&pause, 0);
}

static void bare(const char *path, int count, int grows) {
    enum { APPEND = 64 };
    int fd = filled(path, grows ? 0 : (size_t)count * APPEND);
    uint64_t start = now();
    for (int i = 0; i < count; i++) append(fd, (size_t)i * APPEND, APPEND);
    printf("bare %llu\n", (unsigned long long)(now() - start));
    close(fd);
    unlink(path);
}

static void chains(const char *folder, int hops, int count, int rest) {
    enum { FILES = 3, INPUT = 30, SPACE = 1 << 20 };
    char path[ANSWER];
    int fds[FILES];
    size_t at[FILES] = {0};
    for (int i = 0; i < FILES; i++) {
        if (snprintf(path, sizeof path, "%s/hops-%d", folder, i) >= (int)sizeof path) refused(folder);
        fds[i] = filled(path, SPACE);
        unlink(path);
    }
    for (int c = 0; c < count; c++) {
        rested(rest);
        uint64_t start = now();
        for (int h = 0; h < hops; h++) {
            int i = h % FILES;
            append(fds[i], at[i] + 1, INPUT);
            append(fds[i], at[i], 1);
            at[i] = (at[i] + 1 + INPUT) % (SPACE / 2);
        }
        printf("hops %llu\n", (unsigned long long)(now() - start));
    }
}

static int rounds, asks;
static pthread_barrier_t ready, ended;

typedef struct {
    int port, node, place;
    pthread_t thread;
    uint64_t *stands, *whos;
} Client;

static void *client(void *p) {
    Client *me = p;
    char (*stand)[LINE] = calloc((size_t)rounds, LINE), (*who)[LINE] = calloc((size_t)rounds, LINE), answer[ANSWER];
    if (!stand || !who) refused("memory");
    for (int i = 0; i < rounds; i++) {
        snprintf(stand[i], LINE, "stand n%dc%d %d 10\n", me->node, me->place, i + 1);
        snprintf(who[i], LINE, "who n%dc%d %d\n", me->node, me->place, i + 1);
    }
    int s = connected(me->port);
    put(s, "latest warm\n", 12);
    get(s, answer);
    if (strcmp(answer, "none")) unexpected("latest warm", answer);
    pthread_barrier_wait(&ready);
    for (int i = 0; i < rounds; i++) {
        size_t length = strlen(stand[i]);
        uint64_t start = now();
        put(s, stand[i], length);
        get(s, answer);
        me->stands[i] = now() - start;
        if (strcmp(answer, "stood")) unexpected(stand[i], answer);
        if (!asks) continue;
        length = strlen(who[i]);
        start = now();
        put(s, who[i], length);
        get(s, answer);
        me->whos[i] = now() - start;
        if (strcmp(answer, "none") && strncmp(answer, "leader ", 7)) unexpected(who[i], answer);
    }
    pthread_barrier_wait(&ended);
    bye(s);
    free(stand);
    free(who);
    return p;
}

static void print_times(const char *name, uint64_t *times, size_t count) {
    qsort(times, count, sizeof *times, ascending);
    printf("%s %zu %llu %llu %llu\n", name, count, (unsigned long long)times[count / 2], (unsigned long long)times[count * 9 / 10],
        (unsigned long long)times[count * 99 / 100]);
}

static void stands(int port, int nodes, int clients) {
    size_t count = (size_t)nodes * (size_t)clients, all = count * (size_t)rounds;
    uint64_t *stand_times = calloc(all, sizeof *stand_times), *who_times = calloc(all, sizeof *who_times);
    Client *list = calloc(count, sizeof *list);
    if (!stand_times || !who_times || !list) refused("memory");
    pthread_barrier_init(&ready, 0, (unsigned)count + 1);
    pthread_barrier_init(&ended, 0, (unsigned)count + 1);
    for (size_t i = 0; i < count; i++) {
        int node = (int)(i / (size_t)clients);
        list[i] = (Client){.port = port + node, .node = node + 1, .place = (int)(i % (size_t)clients) + 1,
            .stands = stand_times + i * (size_t)rounds, .whos = who_times + i * (size_t)rounds};
        if ((errno = pthread_create(&list[i].thread, 0, client, &list[i]))) refused("thread");
    }
    pthread_barrier_wait(&ready);
    uint64_t start = now();
    pthread_barrier_wait(&ended);
    printf("wall %llu\n", (unsigned long long)(now() - start));
    for (size_t i = 0; i < count; i++) pthread_join(list[i].thread, 0);
    print_times("stand", stand_times, all);
    if (asks) print_times("who", who_times, all);
}

static void elections(int port, int nodes, int count, int rest) {
    int s[16], lines[16] = {0};
    char line[LINE], answer[ANSWER];
    for (int n = 0; n < nodes; n++) s[n] = connected(port + n);
    for (int e = 0; e < count; e++) {
        int late = 0, polls = 0;
        for (int n = 0; n < nodes; n++)
            if (lines[n] > SESSION_LINES - 1000) count = e;
        if (count == e) break;
        rested(rest);
        char stand[16][LINE];
        // the greatest bid moves round the ring
        for (int n = 0; n < nodes; n++) snprintf(stand[n], LINE, "stand e%d 1 %d\n", e, 10 + (n + e) % nodes);
        snprintf(line, LINE, "latest e%d\n", e);
        size_t length = strlen(line);
        uint64_t start = now();
        for (int n = 0; n < nodes; n++) put(s[n], stand[n], strlen(stand[n]));
        for (int n = 0; n < nodes; n++) {
            get(s[n], answer);
            lines[n]++;
            if (!strcmp(answer, "no 4 late")) late++;
            else if (strcmp(answer, "stood")) unexpected(stand[n], answer);
        }
        for (int n = 0; n < nodes; n++)
            for (;;) {
                put(s[n], line, length);
                get(s[n], answer);
                polls++;
                lines[n]++;
                if (!strncmp(answer, "term 1 leader ", 14)) break;
                if (strcmp(answer, "none")) unexpected(line, answer);
                if (now() - start > SECONDS * 1000000000ull) unexpected(line, "not elected");
                rested(polls > POLLS ? 5000 : 100);
            }
        printf("election %llu %d %d\n", (unsigned long long)(now() - start), late, polls);
    }
    for (int n = 0; n < nodes; n++) bye(s[n]);
}

typedef struct {
    int port, nodes, number, terms, keep, s[16], lines[16];
    pthread_t thread;
    uint64_t *elections, *retires;
} Elector;

// The answer of a node, over a session that has lines left.
static void ask(Elector *me, int node, const char *line, char *answer) {
    if (me->s[node] && me->lines[node] == SESSION_LINES - 1) {
        bye(me->s[node]);
        me->s[node] = 0;
    }
    if (!me->s[node]) {
        me->s[node] = connected(me->port + node);
        me->lines[node] = 0;
    }
    put(me->s[node], line, strlen(line));
    get(me->s[node], answer);
    me->lines[node]++;
}

static void elect(Elector *me, int term) {
    char line[LINE], answer[ANSWER];
    int told = 0, polls = 0;
    struct timespec pause = {.tv_nsec = 1000000};
    uint64_t start = now();
    snprintf(line, LINE, "stand years%d %d 10\n", me->number, term);
    ask(me, term % me->nodes, line, answer);
    if (strcmp(answer, "stood")) unexpected(line, answer);
    snprintf(line, LINE, "latest years%d\n", me->number);
    for (int n = 0; n < me->nodes; n++)
        while (ask(me, n, line, answer), sscanf(answer, "term %d ", &told) != 1 || told < term) {
            if (now() - start > SECONDS * 1000000000ull) unexpected(line, "not elected");
            if (++polls > POLLS) nanosleep(&pause, 0);
        }
    me->elections[term - 1] = now() - start;
}

static void *elector(void *p) {
    Elector *me = p;
    char line[LINE], answer[ANSWER];
    for (int term = 1; term <= me->terms; term++) {
        elect(me, term);
        snprintf(line, LINE, "retire years%d %d\n", me->number, term - me->keep);
        uint64_t start = now();
        for (int n = 0; n < me->nodes && term > me->keep; n++) {
            ask(me, n, line, answer);
            if (strcmp(answer, "retired")) unexpected(line, answer);
            uint64_t end = now();
            me->retires[(size_t)(term - 1) * (size_t)me->nodes + (size_t)n] = end - start;
            start = end;
        }
    }
    for (int n = 0; n < me->nodes; n++) bye(me->s[n]);
    return p;
}

static void years(int port, int nodes, int groups, int terms, int keep) {
    size_t all = (size_t)groups * (size_t)terms, kept = (size_t)groups * (size_t)(keep < terms ? keep : terms);
    uint64_t *elections = calloc(all, sizeof *elections), *retires = calloc(all * (size_t)nodes, sizeof *retires);
    Elector list[16];
    if (!elections || !retires) refused("memory");
    uint64_t start = now();
    for (int g = 0; g < groups; g++) {
        size_t first = (size_t)g * (size_t)terms;
        list[g] = (Elector){.port = port, .nodes = nodes, .number = g + 1, .terms = terms, .keep = keep,
            .elections = elections + first, .retires = retires + first * (size_t)nodes};
        if ((errno = pthread_create(&list[g].thread, 0, elector, &list[g]))) refused("thread");
    }
    for (int g = 0; g < groups; g++) pthread_join(list[g].thread, 0);
    printf("wall %llu\n", (unsigned long long)(now() - start));
    print_times("election", elections, all);
    if (all == kept) return;
    // Those of the first terms, which nothing was retired behind, are 0.
    qsort(retires, all * (size_t)nodes, sizeof *retires, ascending);
    print_times("retire", retires + kept * (size_t)nodes, (all - kept) * (size_t)nodes);
}

int main(int argc, char **argv) {
    if (argc == 5 && !strcmp(argv[1], "bare")) {
        bare(argv[2], number(argv[3], 1, 100000), number(argv[4], 0, 1));
    } else if (argc == 7 && !strcmp(argv[1], "stands")) {
        int port = number(argv[2], 1, 65535), nodes = number(argv[3], 1, 16), clients = number(argv[4], 1, 64);
        rounds = number(argv[5], 1, 4000);
        asks = number(argv[6], 0, 1);
        stands(port, nodes, clients);
    } else if (argc == 6 && !strcmp(argv[1], "hops")) {
        chains(argv[2], number(argv[3], 1, 64), number(argv[4], 1, 10000), number(argv[5], 0, 1000000));
    } else if (argc == 6 && !strcmp(argv[1], "elections")) {
        elections(number(argv[2], 1, 65535), number(argv[3], 2, 16), number(argv[4], 1, 1000), number(argv[5], 0, 1000000));
    } else if (argc == 7 && !strcmp(argv[1], "years")) {
        int port = number(argv[2], 1, 65535), nodes = number(argv[3], 2, 16), groups = number(argv[4], 1, 16);
        years(port, nodes, groups, number(argv[5], 1, 1000000), number(argv[6], 0, 1000));
    } else {
        fprintf(stderr, "usage: load bare FILE COUNT GROWS | hops FOLDER HOPS COUNT REST | stands PORT NODES CLIENTS ROUNDS WHO"
            " | elections PORT NODES COUNT REST | years PORT NODES GROUPS TERMS KEEP\n");
        return 1;
    }
    return 0;
}
