// A link that delays, loses, doubles and reorders, in place of the kernel's netem, which not every machine has. A star: it stands between the interfaces to-1,
// to-2 .. of its network namespace, and passes each frame on to all the others, or to the one that it is for, each copy with a fate of its own.
//
//     relay COUNT DELAY DOUBLED LOST SEED [CLEAN]
//
// A copy waits 0 to DELAY ms, and so may overtake others; DOUBLED of 1,000 are sent twice, LOST of 1,000 not at all. Frames from and to interface CLEAN are
// passed on at once: who watches stands there. Machine n has the hardware address 02:00:00:00:00:n.
//
// It prints 'relaying', and for each copy that left more than LATE ms after its frame came, by the kernel's time, 'late TIME FROM TO MS', where TIME is
// milliseconds since 1970: the machine was too busy to meet the delay. On SIGTERM it tells what it did, and ends.
#define _GNU_SOURCE
#include <net/if.h>
#include <netinet/in.h>
#include <linux/if_ether.h>
#include <linux/if_packet.h>
#include <linux/virtio_net.h>
#include <poll.h>
#include <signal.h>
#include <stdint.h>
#include <stdio.h>
#include <stdlib.h>
#include <string.h>
#include <sys/socket.h>
#include <time.h>

// Each frame has the kernel's note before it, by which a checksum that is still to be filled in stays so.
enum { MOST_PORTS = 250, NOTE = sizeof(struct virtio_net_hdr), MOST_FRAME = 2048, LATE = 124 };
static const int64_t MS = 1000000;

struct copy {
    int64_t due, came;
    uint64_t number; // of the frame, in order of arrival
    int from, to;
    size_t length;
    uint8_t *frame;
};

static int count, clean, sockets[MOST_PORTS + 1];
static uint64_t delay, doubled, lost_of_1000, seed;
static uint64_t frames, copies, twice, lost, overtaken, failed, over_100, late, longest;
static uint64_t newest[MOST_PORTS + 1][MOST_PORTS + 1]; // the number of the newest frame that went from one to another
static volatile sig_atomic_t asked_to_stop;

static void stop(int signal) { (void)signal; asked_to_stop = 1; }

static int64_t now(void) {
    struct timespec t;
    clock_gettime(CLOCK_REALTIME, &t);
    return (int64_t)t.tv_sec * 1000 * MS + t.tv_nsec;
}

static uint64_t below(uint64_t bound) {
    seed ^= seed << 13, seed ^= seed >> 7, seed ^= seed << 17;
    return seed % bound;
}

// ---- what waits, the first due on top

static struct copy *heap;
static size_t waiting, room;

static void add(struct copy c) {
    if (waiting == room) heap = realloc(heap, (room = room ? 2 * room : 1024) * sizeof *heap);
    if (!heap) abort();
    size_t at = waiting++;
    for (; at && heap[(at - 1) / 2].due > c.due; at = (at - 1) / 2) heap[at] = heap[(at - 1) / 2];
    heap[at] = c;
}

static struct copy take(void) {
    struct copy first = heap[0], last = heap[--waiting];
    size_t at = 0, next;
    while ((next = 2 * at + 1) < waiting) {
        if (next + 1 < waiting && heap[next + 1].due < heap[next].due) next++;
        if (last.due <= heap[next].due) break;
        heap[at] = heap[next];
        at = next;
    }
    heap[at] = last;
    return first;
}

// ---- frames

// Sends a copy. Where an interface is down it is lost, as on a cable that is not plugged in.
static void pass_on(struct copy c) {
    if (send(sockets[c.to], c.frame, c.length, MSG_DONTWAIT) < 0) failed++;
    int64_t took = now() - c.came;
    copies++;
    if (c.number < newest[c.from][c.to]) overtaken++;
    else newest[c.from][c.to] = c.number;
    if (c.from == clean || c.to == clean) return;
    if (took > 100 * MS) over_100++;
    if ((uint64_t)took > longest) longest = took;
    if (took > LATE * MS) {
        late++;
        printf("late %lld %d %d %lld\n", (long long)(c.came / MS), c.from, c.to, (long long)(took / MS));
    }
}

static void send_later(struct copy c) {
    uint8_t *kept = malloc(c.length);
    if (!kept) abort();
    c.frame = memcpy(kept, c.frame, c.length);
    c.due = c.came + (delay ? (int64_t)below(delay * MS + 1) : 0);
    add(c);
}

static void relay_to(struct copy c, int to) {
    c.to = to;
    if (c.from == clean || to == clean) { pass_on(c); return; }
    if (below(1000) < lost_of_1000) { lost++; return; }
    send_later(c);
    if (below(1000) < doubled) twice++, send_later(c);
}

// The machine that a frame is for, or 0 for all.
static int destination(const uint8_t *frame) {
    static const uint8_t own[5] = { 2 };
    return memcmp(frame + NOTE, own, sizeof own) || frame[NOTE + 5] > count ? 0 : frame[NOTE + 5];
}

static void relay(struct copy c) {
    c.number = ++frames;
    int to = destination(c.frame);
    for (int each = 1; each <= count; each++)
        if (each != c.from && (!to || to == each)) relay_to(c, each);
}

// When a frame came, by the kernel.
static int64_t time_of(struct msghdr *message) {
    for (struct cmsghdr *c = CMSG_FIRSTHDR(message); c; c = CMSG_NXTHDR(message, c))
        if (c->cmsg_level == SOL_SOCKET && c->cmsg_type == SCM_TIMESTAMPNS) {
            struct timespec t;
            memcpy(&t, CMSG_DATA(c), sizeof t);
            return (int64_t)t.tv_sec * 1000 * MS + t.tv_nsec;
        }
    return now();
}

// Takes what is there at an interface.
static void hear(int from) {
    static uint8_t frame[MOST_FRAME], control[256];
    for (;;) {
        struct iovec part = { frame, sizeof frame };
        struct msghdr message = { .msg_iov = &part, .msg_iovlen = 1, .msg_control = control, .msg_controllen = sizeof control };
        ssize_t length = recvmsg(sockets[from], &message, MSG_DONTWAIT);
        if (length < 0) return; // nothing more, or the interface went down
        if (length >= NOTE + ETH_HLEN) relay((struct copy){ .came = time_of(&message), .from = from, .frame = frame, .length = length });
    }
}

static int open_port(int number) {
    char name[IFNAMSIZ];
    snprintf(name, sizeof name, "to-%d", number);
    struct sockaddr_ll address = { .sll_family = AF_PACKET, .sll_protocol = htons(ETH_P_ALL), .sll_ifindex = if_nametoindex(name) };
    int yes = 1, bytes = 4 << 20, s = socket(AF_PACKET, SOCK_RAW, 0);
    int ok = s >= 0 && address.sll_ifindex && !setsockopt(s, SOL_PACKET, PACKET_IGNORE_OUTGOING, &yes, sizeof yes)
        && !setsockopt(s, SOL_PACKET, PACKET_VNET_HDR, &yes, sizeof yes) && !setsockopt(s, SOL_SOCKET, SO_TIMESTAMPNS, &yes, sizeof yes)
        && !bind(s, (struct sockaddr *)&address, sizeof address);
    if (!ok) { perror(name); exit(1); }
    setsockopt(s, SOL_SOCKET, SO_RCVBUF, &bytes, sizeof bytes);
    return s;
}

static void run(void) {
    struct pollfd ports[MOST_PORTS];
    for (int i = 0; i < count; i++) ports[i] = (struct pollfd){ .fd = sockets[i + 1], .events = POLLIN };
    while (!asked_to_stop) {
        int64_t until = waiting ? heap[0].due - now() : 1000 * MS;
        struct timespec wait = { until > 0 ? until / (1000 * MS) : 0, until > 0 ? until % (1000 * MS) : 0 };
        if (ppoll(ports, count, &wait, NULL) > 0)
            for (int i = 0; i < count; i++)
                if (ports[i].revents) hear(i + 1);
        for (int64_t at = now(); waiting && heap[0].due <= at;) {
            struct copy c = take();
            pass_on(c);
            free(c.frame);
        }
    }
}

int main(int arguments, char **argument) {
    if (arguments < 6) { fprintf(stderr, "usage: relay COUNT DELAY DOUBLED LOST SEED [CLEAN]\n"); return 2; }
    count = atoi(argument[1]), delay = atoi(argument[2]), doubled = atoi(argument[3]), lost_of_1000 = atoi(argument[4]);
    seed = 0x9E3779B97F4A7C15u ^ strtoull(argument[5], NULL, 10), clean = arguments > 6 ? atoi(argument[6]) : 0;
    if (count < 1 || count > MOST_PORTS) return 2;
    signal(SIGTERM, stop);
    setvbuf(stdout, NULL, _IOLBF, 0);
    for (int number = 1; number <= count; number++) sockets[number] = open_port(number);
    printf("relaying\n");
    run();
    printf("relay: %llu frames, %llu copies passed on, %llu lost, %llu doubled, %llu overtaken by a later one, %llu to a link that was down; "
           "longest delay %llu ms, %llu over 100 ms, %llu over %d ms\n", (unsigned long long)frames, (unsigned long long)copies, (unsigned long long)lost,
           (unsigned long long)twice, (unsigned long long)overtaken, (unsigned long long)failed, (unsigned long long)(longest / MS),
           (unsigned long long)over_100, (unsigned long long)late, LATE);
    return 0;
}
