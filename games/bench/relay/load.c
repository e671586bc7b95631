/* Loads a relay, or is one: what games/bench/relay/measure compares c8relay with.

   load plain PORT                 a relay over UDP in plain C, by the rules of docs/FORMATS.md but cookies, until it is killed
   load udp PORT PID SECONDS       250 rooms of four members, each of whom sends to the next one
   load joins PORT PID SECONDS     the same members say their JOINs
   load web PORT PID SECONDS       400 rooms of two members, each with a WebSocket

   The last three print how many packets came back, and how many nanoseconds of processor time the process PID took for them. They fail
   if a member gets what is not for it. */
#define _GNU_SOURCE
#include <arpa/inet.h>
#include <errno.h>
#include <fcntl.h>
#include <netinet/tcp.h>
#include <poll.h>
#include <sched.h>
#include <stdint.h>
#include <stdio.h>
#include <stdlib.h>
#include <string.h>
#include <sys/epoll.h>
#include <sys/resource.h>
#include <sys/socket.h>
#include <time.h>
#include <unistd.h>

enum { JOIN = 40, ANSWER = 24, HEADER = 24, SHORTEST = 48, LONGEST = 198, NAME = 16, COOKIE = 8, SEATS = 6 };
enum { PROVE = 2, JOINED = 3 };
enum { DATAGRAM = 100, FRAME = DATAGRAM + 2, BURST = 128, SEATS_OF_HOST = 32, FILES = 4096, BATCH = 64, MOST_TIMES = 500, SLOTS = 1 << 17 };

static const uint64_t SILENCE = 3000000, COST = 1000, AHEAD = 127000; /* microseconds */

static void fail(const char *why) {
    fprintf(stderr, "load: %s: %s\n", why, strerror(errno));
    exit(1);
}

static uint64_t nanos(clockid_t clock) {
    struct timespec now;
    if (clock_gettime(clock, &now)) fail("clock");
    return (uint64_t)now.tv_sec * 1000000000 + (uint64_t)now.tv_nsec;
}

static struct sockaddr_in address_of(uint32_t host, int port) {
    return (struct sockaddr_in){.sin_family = AF_INET, .sin_port = htons((uint16_t)port), .sin_addr.s_addr = htonl(host)};
}

/* ---- the relay in plain C */

struct member {
    uint64_t address, heard, full_at;
    uint8_t name[NAME], lane, seat, used;
};

static struct member members[SLOTS]; /* by address and lane */
static struct member *places[SLOTS]; /* by name, lane and seat */

static uint64_t mixed(uint64_t word) {
    word = (word ^ word >> 32) * 0xd6e8feb86659fd93;
    word = (word ^ word >> 32) * 0xd6e8feb86659fd93;
    return word ^ word >> 32;
}

static struct member *member_of(uint64_t address, uint8_t lane) {
    for (uint64_t at = mixed(address ^ (uint64_t)lane << 48);; at++) {
        struct member *it = &members[at % SLOTS];
        if (!it->used || (it->address == address && it->lane == lane)) return it;
    }
}

static struct member **place_of(const uint8_t *name, uint8_t lane, uint8_t seat) {
    uint64_t word;
    memcpy(&word, name, 8);
    for (uint64_t at = mixed(word ^ (uint64_t)lane << 8 ^ seat);; at++) {
        struct member **it = &places[at % SLOTS];
        if (!*it || (!memcmp((*it)->name, name, NAME) && (*it)->lane == lane && (*it)->seat == seat)) return it;
    }
}

static int is_seat(uint8_t seat) { return seat >= 1 && seat <= SEATS; }

/* The address to which a sealed packet goes; 0 if it is dropped. */
static uint64_t routed(uint64_t now, uint64_t from, const uint8_t *packet) {
    if (packet[3] < 1 || packet[3] > 8 || !is_seat(packet[12]) || !is_seat(packet[13]) || packet[12] == packet[13]) return 0;
    struct member *mine = member_of(from, packet[3] > 6);
    if (!mine->used || mine->seat != packet[12]) return 0;
    mine->heard = now;
    struct member *other = *place_of(mine->name, mine->lane, packet[13]);
    if (!other || now - other->heard >= SILENCE) return 0;
    uint64_t begins = mine->full_at > now ? mine->full_at : now;
    if (begins > now + AHEAD) return 0;
    mine->full_at = begins + COST;
    return other->address;
}

static void join(uint64_t now, uint64_t from, const uint8_t *packet, uint8_t *answer) {
    struct member *it = member_of(from, packet[5]);
    *it = (struct member){.address = from, .heard = now, .lane = packet[5], .seat = packet[4], .used = 1};
    memcpy(it->name, packet + 8, NAME);
    *place_of(it->name, it->lane, it->seat) = it;
    memcpy(answer, (uint8_t[ANSWER]){0x43, 0x52, 1, JOINED}, ANSWER);
}

static void serve(int fd, uint64_t now, const uint8_t *packet, ssize_t size, const struct sockaddr_in *sender) {
    uint64_t from = (uint64_t)sender->sin_addr.s_addr << 16 | sender->sin_port;
    uint8_t answer[ANSWER];
    if (size == JOIN && !memcmp(packet, (uint8_t[]){0x43, 0x52, 1, 1}, 4) && is_seat(packet[4]) && packet[5] < 2) {
        join(now, from, packet, answer);
        sendto(fd, answer, ANSWER, 0, (const struct sockaddr *)sender, sizeof *sender);
    } else if (size >= SHORTEST && size <= LONGEST && packet[0] == 0x43 && packet[1] == 0x38) {
        uint64_t to = routed(now, from, packet);
        struct sockaddr_in target = {.sin_family = AF_INET, .sin_port = (uint16_t)to, .sin_addr.s_addr = (uint32_t)(to >> 16)};
        if (to) sendto(fd, packet, (size_t)size, 0, (struct sockaddr *)&target, sizeof target);
    }
}

static void plain(int port) {
    int fd = socket(AF_INET, SOCK_DGRAM | SOCK_NONBLOCK, 0);
    struct sockaddr_in own = address_of(INADDR_LOOPBACK, port), sender;
    if (bind(fd, (struct sockaddr *)&own, sizeof own)) fail("bind");
    printf("relay on 127.0.0.1:%d in plain C\n", port);
    fflush(stdout);
    for (struct pollfd ready = {fd, POLLIN, 0};;) {
        poll(&ready, 1, 1000);
        for (ssize_t size = 0; size >= 0;) {
            uint64_t now = nanos(CLOCK_MONOTONIC) / 1000;
            for (int count = 0; count < BATCH && size >= 0; count++) {
                uint8_t packet[LONGEST + 1];
                socklen_t length = sizeof sender;
                size = recvfrom(fd, packet, sizeof packet, 0, (struct sockaddr *)&sender, &length);
                if (size >= 0) serve(fd, now, packet, size, &sender);
            }
        }
    }
}

/* ---- the load */

struct load {
    int count, seats, is_web, poll;
    int *fds;
    uint8_t (*cookies)[16];
    clockid_t clock; /* the processor time of the relay */
};

static void ask(uint8_t *packet, const struct load *load, int member, const uint8_t *cookie) {
    memset(packet, 0, JOIN);
    memcpy(packet, (uint8_t[]){0x43, 0x52, 1, 1}, 4);
    packet[4] = (uint8_t)(member % load->seats + 1);
    int room = member / load->seats;
    uint64_t word = mixed((uint64_t)room + 1);
    memcpy(packet + 8, &word, 8);
    memcpy(packet + 16, &room, sizeof room);
    memcpy(packet + 24, cookie, 16);
}

/* The frame of a packet, with a mask of zeros. */
static int framed(uint8_t *frame, const uint8_t *packet, int size) {
    memcpy(frame, (uint8_t[]){0x82, (uint8_t)(0x80 | size), 0, 0, 0, 0}, 6);
    memcpy(frame + 6, packet, (size_t)size);
    return size + 6;
}

static void say(const struct load *load, int member, const uint8_t *packet, int size) {
    uint8_t frame[LONGEST + 6];
    if (load->is_web) size = framed(frame, packet, size);
    if (send(load->fds[member], load->is_web ? frame : packet, (size_t)size, 0) != size) fail("send");
}

static void upgrade(int fd) {
    static const char request[] = "GET /relay HTTP/1.1\r\nHost: x\r\nConnection: Upgrade\r\nUpgrade: websocket\r\n"
                                  "Sec-WebSocket-Version: 13\r\nSec-WebSocket-Key: dGhlIHNhbXBsZSBub25jZQ==\r\n\r\n";
    char answer[1024];
    if (send(fd, request, sizeof request - 1, 0) < 0 || recv(fd, answer, sizeof answer, 0) < 12 || memcmp(answer, "HTTP/1.1 101", 12)) fail("upgrade");
}

static void sit(const struct load *load, int member) {
    uint8_t packet[JOIN], answer[256] = {0};
    int first = load->is_web ? 2 : 0; /* the head of a frame */
    /* a relay answers few strangers in a batch, so some JOINs are lost */
    for (int times = 0; times < MOST_TIMES && answer[first + 3] != JOINED; times++) {
        ask(packet, load, member, answer + first + COOKIE);
        say(load, member, packet, JOIN);
        recv(load->fds[member], answer, sizeof answer, 0);
    }
    if (answer[first + 3] != JOINED) fail("no seat");
    memcpy(load->cookies[member], answer + first + COOKIE, 16);
}

/* A socket of a member. Some share a host, since a relay gives a host some seats alone. */
static int opened(const struct load *load, int port, int member) {
    int fd = socket(AF_INET, load->is_web ? SOCK_STREAM : SOCK_DGRAM, 0), one = 1;
    struct sockaddr_in own = address_of(0x7f010001 + (uint32_t)(member / SEATS_OF_HOST), 0), relay = address_of(INADDR_LOOPBACK, port);
    struct timeval patience = {0, load->is_web ? 1000000 : 5000};
    setsockopt(fd, SOL_SOCKET, SO_RCVTIMEO, &patience, sizeof patience);
    if (bind(fd, (struct sockaddr *)&own, sizeof own) || connect(fd, (struct sockaddr *)&relay, sizeof relay)) fail("connect");
    if (load->is_web && setsockopt(fd, IPPROTO_TCP, TCP_NODELAY, &one, sizeof one)) fail("setsockopt");
    return fd;
}

static void begin(struct load *load, int port) {
    load->poll = epoll_create1(0);
    load->fds = calloc((size_t)load->count, sizeof *load->fds);
    load->cookies = calloc((size_t)load->count, sizeof *load->cookies);
    for (int member = 0; member < load->count; member++) {
        int fd = load->fds[member] = opened(load, port, member);
        if (load->is_web) upgrade(fd);
        sit(load, member);
        fcntl(fd, F_SETFL, O_NONBLOCK);
        struct epoll_event event = {.events = EPOLLIN, .data.u32 = (uint32_t)member};
        epoll_ctl(load->poll, EPOLL_CTL_ADD, fd, &event);
    }
}

static int next_of(const struct load *load, int member) {
    return member / load->seats * load->seats + (member + 1) % load->seats;
}

/* Of the packets that a member gets, each has to be from the one before it. Returns how many came. */
static int heard(const struct load *load, int member, int is_join) {
    uint8_t bytes[FRAME * 64];
    int count = 0, size = load->is_web ? FRAME : is_join ? ANSWER : DATAGRAM, first = load->is_web ? 2 : 0;
    for (ssize_t came; (came = recv(load->fds[member], bytes, load->is_web ? sizeof bytes : LONGEST, 0)) > 0;) {
        if (came % size) fail("a part of a packet");
        for (uint8_t *it = bytes + first; it < bytes + came; it += size, count++) {
            int from = it[22] << 8 | it[23];
            if (is_join ? it[3] != JOINED : next_of(load, from) != member) fail("a wrong packet");
        }
    }
    return count;
}

static long listen_for(const struct load *load, int waits, int is_join) {
    struct epoll_event events[256];
    long came = 0;
    uint64_t until = nanos(CLOCK_MONOTONIC) + 200000000; /* what is lost is not waited for */
    while (came < waits && nanos(CLOCK_MONOTONIC) < until) {
        int ready = epoll_wait(load->poll, events, 256, 5);
        for (int at = 0; at < ready; at++) came += heard(load, (int)events[at].data.u32, is_join);
    }
    return came;
}

static void run(struct load *load, double seconds, int is_join) {
    uint8_t packet[DATAGRAM] = {0x43, 0x38, 1, 3};
    uint8_t (*joins)[JOIN] = calloc((size_t)load->count, sizeof *joins);
    for (int member = 0; member < load->count; member++) ask(joins[member], load, member, load->cookies[member]);
    long came = 0, sent = 0;
    int member = 0, burst = load->is_web ? load->count : BURST;
    uint64_t before = nanos(load->clock), until = nanos(CLOCK_MONOTONIC) + (uint64_t)(seconds * 1e9);
    while (nanos(CLOCK_MONOTONIC) < until) {
        for (int count = 0; count < burst; count++, member = (member + 1) % load->count) {
            packet[12] = (uint8_t)(member % load->seats + 1);
            packet[13] = (uint8_t)(next_of(load, member) % load->seats + 1);
            packet[22] = (uint8_t)(member >> 8);
            packet[23] = (uint8_t)member;
            say(load, member, is_join ? joins[member] : packet, is_join ? JOIN : DATAGRAM);
        }
        sent += burst;
        came += listen_for(load, burst, is_join);
    }
    /* seats that were silent too long in between, on a machine that is busy elsewhere, spoil the run */
    if (came < sent / 100 * 98) fail("too much was lost");
    printf("came %ld nanos %llu\n", came, (unsigned long long)(nanos(load->clock) - before));
}

/* Puts this program and the relay onto one processor. So each burst is there when the relay gets its turn, and none of them is woken for
   every packet, which would cost more than the packets. */
static void share(pid_t relay) {
    cpu_set_t one;
    struct sched_param none = {0};
    CPU_ZERO(&one);
    CPU_SET((size_t)sched_getcpu(), &one);
    pid_t both[] = {0, relay};
    for (int it = 0; it < 2; it++)
        if (sched_setaffinity(both[it], sizeof one, &one) || sched_setscheduler(both[it], SCHED_BATCH, &none)) fail("one processor");
}

int main(int count, char **words) {
    if (count == 3 && !strcmp(words[1], "plain")) plain(atoi(words[2]));
    if (count != 5) return 2;
    int is_web = !strcmp(words[1], "web"), is_join = !strcmp(words[1], "joins");
    struct load load = {.count = is_web ? 800 : 1000, .seats = is_web ? 2 : 4, .is_web = is_web};
    struct rlimit files = {FILES, FILES};
    setrlimit(RLIMIT_NOFILE, &files);
    if (clock_getcpuclockid(atoi(words[3]), &load.clock)) fail("clock of the relay");
    share(atoi(words[3]));
    begin(&load, atoi(words[2]));
    run(&load, atof(words[4]), is_join);
    return 0;
}
