// Claims booth._voice._tcp.local and dock.local on a link and answers for them, until a line is typed or standard input ends: a whole program to begin from.
//   cc serve.c $(pkg-config --cflags --libs kurgashel) -o serve && ./serve 10.0.0.7 255.255.255.0
// The address is this machine's, used by no other responder on it, with its subnet mask. For Linux. Built and run by tests/examples.sh.
#include <arpa/inet.h>
#include <kurgashel.h>
#include <poll.h>
#include <stdio.h>
#include <stdlib.h>
#include <string.h>
#include <sys/random.h>
#include <time.h>

static uint8_t state[KURGASHEL_STATE_BYTES], out[KURGASHEL_OUT_BYTES], reply[KURGASHEL_OUT_BYTES], packet[9000];
static struct sockaddr_in own = { .sin_family = AF_INET }, group = { .sin_family = AF_INET }, mask;
static int to_us, to_all; // sockets that hear what is sent to this address alone, and what is sent to the group

static long check(long answer, const char *what) { return answer >= 0 ? answer : (perror(what), exit(1), answer); }
static void set(int socket, int level, int option, int value) { check(setsockopt(socket, level, option, &value, sizeof value), "socket option"); }
static int open_at(const struct sockaddr_in *address) {
    int opened = (int)check(socket(AF_INET, SOCK_DGRAM, 0), "socket");
    set(opened, SOL_SOCKET, SO_REUSEADDR, 1); // other programs, such as Avahi, have the port too
    check(bind(opened, (const struct sockaddr *)address, sizeof *address), "bind");
    return opened;
}
static void send_to(const struct sockaddr_in *address, const uint8_t *bytes, size_t length) {
    if (length && sendto(to_us, bytes, length, 0, (const struct sockaddr *)address, sizeof *address) < 0) perror("send");
}
static uint64_t now(void) { // milliseconds of a clock that never goes back
    struct timespec time;
    check(clock_gettime(CLOCK_MONOTONIC, &time), "clock");
    return (uint64_t)time.tv_sec * 1000 + (uint64_t)time.tv_nsec / 1000000;
}
static uint64_t draw(uint64_t least, uint64_t most) {
    uint64_t number;
    check(getrandom(&number, sizeof number, 0), "random number");
    return least + number % (most - least + 1);
}
static void take_packet(int socket) {
    struct sockaddr_in from;
    ssize_t length = recvfrom(socket, packet, sizeof packet, 0, (struct sockaddr *)&from, &(socklen_t){ sizeof from });
    bool is_near = !((from.sin_addr.s_addr ^ own.sin_addr.s_addr) & mask.sin_addr.s_addr);
    if (length < 0 || !(is_near || (socket == to_all && from.sin_port == group.sin_port))) return; // it may be from beyond the link (RFC 6762 section 11)
    struct kurgashel_answer answer = kurgashel_receive(state, sizeof state, now(), (const uint8_t *)&from.sin_addr, 4, ntohs(from.sin_port), draw(20, 120),
        draw(400, 500), packet, (size_t)length, out, sizeof out, reply, sizeof reply); // if it is refused, nothing has changed, and both lengths are 0
    send_to(&group, out, answer.length);
    send_to(&from, reply, answer.unicast_length);
}
int main(int arguments, char **argument) {
    if (arguments != 3 || !inet_aton(argument[1], &own.sin_addr) || !inet_aton(argument[2], &mask.sin_addr))
        return fputs("usage: serve ADDRESS MASK\n", stderr), 2;
    inet_aton("224.0.0.251", &group.sin_addr);
    own.sin_port = group.sin_port = htons(KURGASHEL_PORT);
    to_us = open_at(&own); // what it sends leaves by the interface of its address, multicasts too, and through no router
    set(to_us, SOL_SOCKET, SO_DONTROUTE, 1);
    set(to_us, IPPROTO_IP, IP_TTL, 255);
    set(to_us, IPPROTO_IP, IP_MULTICAST_TTL, 255);
    to_all = open_at(&group);
    set(to_all, IPPROTO_IP, IP_MULTICAST_ALL, 0); // it hears what it joins itself, whatever other programs join
    check(setsockopt(to_all, IPPROTO_IP, IP_ADD_MEMBERSHIP, &(struct ip_mreq){ group.sin_addr, own.sin_addr }, sizeof(struct ip_mreq)), "join");
    struct kurgashel_setup setup = { .instance = "booth", .instance_length = 5, .service = "_voice", .service_length = 6, .protocol = "_tcp", .host = "dock",
        .host_length = 4, .domain = "local", .port = { 4000 >> 8, 4000 & 255 }, .txt = "\6room=3", .txt_length = { 0, 7 } };
    memcpy(setup.a, &own.sin_addr, sizeof setup.a);
    if (kurgashel_start(state, sizeof state, (const uint8_t *)&setup, sizeof setup, now(), draw(0, 250)).refusal) return 1;
    static const char *const words[] = { "waiting", "probing", "deferred", "held", "lost" }; // lost for good: start again with another name
    struct pollfd ready[] = { { to_us, POLLIN, 0 }, { to_all, POLLIN, 0 }, { 0, POLLIN, 0 } };
    for (int told = -1, claims; !ready[2].revents; told = claims) {
        for (int k = 0; k < 2; k++)
            if (ready[k].revents) take_packet(ready[k].fd);
        struct kurgashel_answer answer;
        do send_to(&group, out, (answer = kurgashel_tick(state, sizeof state, now(), out, sizeof out)).length); while (answer.more);
        claims = 10 * kurgashel_claim(state, sizeof state, KURGASHEL_INSTANCE) + kurgashel_claim(state, sizeof state, KURGASHEL_HOST);
        if (claims != told) printf("instance %s, host %s\n", words[claims / 10], words[claims % 10]);
        struct kurgashel_due next = kurgashel_due(state, sizeof state);
        uint64_t time = now();
        poll(ready, 3, !next.due ? -1 : next.time <= time ? 0 : (int)(next.time - time));
    }
    send_to(&group, out, kurgashel_stop(state, sizeof state, now(), out, sizeof out).length);
    return 0;
}
