/* Drives a site that is served over loopback: driver PORT LINES PROGRAM COUNT LINE [COUNT LINE], where tills connect at
   PORT, dispensers at PORT + 1 and the owner at PORT + 2. Loads PROGRAM for presets, opens point 1, and then COUNT connections
   send LINE so often, each waiting for its answer; a second group of connections sends its own line beside them. Prints for
   each group lines per second and within how long half, 99 of 100 and 999 of 1,000 answers come. */
#include <arpa/inet.h>
#include <netinet/in.h>
#include <netinet/tcp.h>
#include <pthread.h>
#include <stdint.h>
#include <stdio.h>
#include <stdlib.h>
#include <string.h>
#include <sys/socket.h>
#include <time.h>
#include <unistd.h>

static size_t lines;
static pthread_barrier_t gate;

static void fail(const char *what) {
    perror(what);
    exit(1);
}

static int connect_to(int port) {
    struct sockaddr_in at = {.sin_family = AF_INET, .sin_port = htons(port), .sin_addr.s_addr = htonl(INADDR_LOOPBACK)};
    struct timeval patience = {.tv_sec = 30};
    int one = 1, s = socket(AF_INET, SOCK_STREAM, 0);
    if (s < 0 || connect(s, (struct sockaddr *)&at, sizeof at) < 0) fail("connect");
    setsockopt(s, IPPROTO_TCP, TCP_NODELAY, &one, sizeof one);
    setsockopt(s, SOL_SOCKET, SO_RCVTIMEO, &patience, sizeof patience);
    return s;
}

/* Sends a line and reads one line of answer. */
static void ask(int s, const char *text, char answer[128]) {
    size_t length = strlen(text), have = 0;
    if (send(s, text, length, 0) != (ssize_t)length) fail("send");
    do {
        ssize_t n = recv(s, answer + have, 127 - have, 0);
        if (n <= 0) fail("recv");
        have += n;
    } while (answer[have - 1] != '\n' && have < 127);
    answer[have] = 0;
}

static uint64_t nanos(void) {
    struct timespec t;
    clock_gettime(CLOCK_MONOTONIC, &t);
    return t.tv_sec * 1000000000ull + t.tv_nsec;
}

struct group {
    char line[128];
    int count;
    uint64_t *times;
    uint64_t ended;
};

struct peer {
    int socket;
    struct group *group;
    uint64_t *times;
    pthread_t thread;
};

static void *drive(void *arg) {
    struct peer *peer = arg;
    char answer[128];
    pthread_barrier_wait(&gate);
    for (size_t i = 0; i < lines; i++) {
        uint64_t before = nanos();
        ask(peer->socket, peer->group->line, answer);
        peer->times[i] = nanos() - before;
        if (!strstr(answer, " granted ") && !strstr(answer, " point ") && !strstr(answer, " unpaid ")) {
            fprintf(stderr, "an answer that was not looked for: %s", answer);
            exit(1);
        }
    }
    uint64_t now = nanos(), seen = __atomic_load_n(&peer->group->ended, __ATOMIC_SEQ_CST);
    while (seen < now && !__atomic_compare_exchange_n(&peer->group->ended, &seen, now, 0, __ATOMIC_SEQ_CST, __ATOMIC_SEQ_CST)) {
    }
    close(peer->socket);
    return NULL;
}

static int by_time(const void *a, const void *b) {
    uint64_t x = *(const uint64_t *)a, y = *(const uint64_t *)b;
    return x < y ? -1 : x > y;
}

static void tell(struct group *group, uint64_t began) {
    size_t all = group->count * lines;
    double seconds = (group->ended - began) / 1e9;
    qsort(group->times, all, sizeof *group->times, by_time);
    group->line[strlen(group->line) - 1] = 0;
    printf("%-22s %d connection%s %8.0f lines/s   p50 %6.1f us   p99 %6.1f us   p99.9 %6.1f us\n", group->line,
           group->count, group->count == 1 ? " " : "s", all / seconds, group->times[all / 2] / 1e3,
           group->times[all * 99 / 100] / 1e3, group->times[all / 1000 * 999 + all % 1000 * 999 / 1000] / 1e3);
}

int main(int argc, char **argv) {
    if (argc != 6 && argc != 8) return 2;
    int port = atoi(argv[1]), groups = (argc - 4) / 2, count = 0;
    static char load[9000], answer[128];
    struct group group[2];
    lines = strtoul(argv[2], NULL, 10);
    for (int g = 0; g < groups; g++) {
        group[g].count = atoi(argv[4 + 2 * g]);
        snprintf(group[g].line, sizeof group[g].line, "%s\n", argv[5 + 2 * g]);
        group[g].times = malloc(group[g].count * lines * sizeof *group[g].times);
        if (!group[g].times) fail("malloc");
        group[g].ended = 0;
        count += group[g].count;
    }
    struct peer *peers = malloc(count * sizeof *peers);
    if (!peers) fail("malloc");
    int owner = connect_to(port + 2), dispenser = connect_to(port + 1);
    snprintf(load, sizeof load, "load 1 0 %s\n", argv[3]);
    ask(owner, load, answer);
    pthread_barrier_init(&gate, NULL, count + 1);
    for (int g = 0, i = 0; g < groups; g++) {
        for (int k = 0; k < group[g].count; k++, i++) {
            peers[i] = (struct peer){connect_to(port), &group[g], group[g].times + k * lines};
            if (i == 0) ask(peers[0].socket, "till 1 open 1\n", answer);
            if (pthread_create(&peers[i].thread, NULL, drive, &peers[i])) fail("pthread_create");
        }
    }
    pthread_barrier_wait(&gate);
    uint64_t began = nanos();
    for (int i = 0; i < count; i++) pthread_join(peers[i].thread, NULL);
    close(owner);
    close(dispenser);
    for (int g = 0; g < groups; g++) tell(&group[g], began);
    return 0;
}
