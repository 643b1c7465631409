/* Callers at doors in a row, in one thread: each sends so many vouchers over a link of its own, one after another, and waits for the
   answer before the next. It ends with 1 at an answer that accepts nothing.

       callers PORT CALLS KEY FUND,DEPT,OBJECT..        a caller for each account; prints the seconds */
#define _GNU_SOURCE
#include <arpa/inet.h>
#include <netinet/tcp.h>
#include <stdio.h>
#include <stdlib.h>
#include <string.h>
#include <sys/epoll.h>
#include <time.h>
#include <unistd.h>

struct caller { int link; long sent; size_t held; char answer[4096]; };

static const char *key;
static char **accounts;
static long calls;

static int ask(struct caller *it, int number) {
    char body[512], text[768];
    int fund, dept, object, size;
    sscanf(accounts[number], "%d,%d,%d", &fund, &dept, &object);
    size = snprintf(body, sizeof body,
        "{\"call\":\"voucher\",\"desk\":4,\"key\":\"%s-%d-%ld\",\"on\":\"2025-07-05\",\"vendor\":77,"
        "\"items\":[{\"fund\":%d,\"dept\":%d,\"object\":%d,\"amount\":1}]}", key, number, it->sent, fund, dept, object);
    size = snprintf(text, sizeof text, "POST /calls HTTP/1.1\r\nHost: a\r\nContent-Length: %d\r\n\r\n%s", size, body);
    it->held = 0;
    it->sent++;
    return write(it->link, text, size) == size;
}

/* 1: a whole answer that accepts, 0: more is to come, -1: anything else. */
static int heard(struct caller *it) {
    char *end, *length;
    ssize_t got = read(it->link, it->answer + it->held, sizeof it->answer - 1 - it->held);
    if (got <= 0) return -1;
    it->held += got;
    it->answer[it->held] = 0;
    end = strstr(it->answer, "\r\n\r\n");
    if (!end) return 0;
    length = strcasestr(it->answer, "content-length: ");
    if (!length || length > end) return -1;
    if (it->held < (size_t) (end + 4 - it->answer) + strtoul(length + 16, 0, 10)) return 0;
    return strstr(end, "\"ok\"") ? 1 : -1;
}

static int linked(int port) {
    struct sockaddr_in place = {.sin_family = AF_INET, .sin_port = htons(port), .sin_addr.s_addr = htonl(INADDR_LOOPBACK)};
    int link = socket(AF_INET, SOCK_STREAM, 0), on = 1;
    setsockopt(link, IPPROTO_TCP, TCP_NODELAY, &on, sizeof on);
    return connect(link, (struct sockaddr *) &place, sizeof place) ? -1 : link;
}

int main(int count, char **words) {
    int doors = count - 4, left = doors, queue = epoll_create1(0);
    struct caller *all = calloc(doors > 0 ? doors : 1, sizeof *all);
    struct timespec start, end;
    if (doors < 1) return 1;
    calls = atol(words[2]), key = words[3], accounts = words + 4;
    for (int door = 0; door < doors; door++) {
        struct epoll_event event = {.events = EPOLLIN, .data.u32 = door};
        all[door].link = linked(atoi(words[1]) + door);
        if (all[door].link < 0 || epoll_ctl(queue, EPOLL_CTL_ADD, all[door].link, &event)) return 1;
    }
    clock_gettime(CLOCK_MONOTONIC, &start);
    for (int door = 0; door < doors; door++) if (!ask(&all[door], door)) return 1;
    while (left) {
        struct epoll_event events[16];
        int ready = epoll_wait(queue, events, 16, 30000);
        if (ready <= 0) return 1;
        for (int at = 0; at < ready; at++) {
            int door = events[at].data.u32, is = heard(&all[door]);
            if (is < 0) {
                fprintf(stderr, "not accepted: %s\n", all[door].answer);
                return 1;
            }
            if (is && all[door].sent == calls) left--;
            else if (is && !ask(&all[door], door)) return 1;
        }
    }
    clock_gettime(CLOCK_MONOTONIC, &end);
    printf("%.9f\n", end.tv_sec - start.tv_sec + (end.tv_nsec - start.tv_nsec) / 1e9);
    return 0;
}
