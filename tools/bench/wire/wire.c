// Players and a relay for the figures of matches over connections: what is measured is the referee, so both are quick.
//
//   wire relay PORT                       two connections; what one sends is sent to both, until one closes
//   wire play PORT MATCHES MOVES [HALL]   MATCHES pairs of players on one port; in each pair they move in turn, at once.
//                                         With HALL they say first which match they join. Prints the microseconds that
//                                         the moves took.
//   wire late PORT TURN EARLY MOVES       one pair; each move is sent EARLY microseconds before TURN milliseconds are over
//                                         since the move before it was sent. Prints how many moves were heard, and how
//                                         many microseconds the last one was sent later than that.
//
// A move of the first player is `M0 2 0 3`, one of the second `M0 4 0 5`, as in the game of wire.py.
#include <arpa/inet.h>
#include <errno.h>
#include <netinet/tcp.h>
#include <poll.h>
#include <sched.h>
#include <stdio.h>
#include <stdlib.h>
#include <string.h>
#include <sys/socket.h>
#include <time.h>
#include <unistd.h>

enum { MOST = 64, EARLIER = 1000 }; // matches, and the microseconds by which a sleep ends before what it waits for

static long now_us(void) {
  struct timespec t;
  clock_gettime(CLOCK_MONOTONIC, &t);
  return t.tv_sec * 1000000L + t.tv_nsec / 1000;
}

static void fail(const char *what) {
  perror(what);
  exit(1);
}

static struct sockaddr_in here(int port) {
  struct sockaddr_in a = {.sin_family = AF_INET, .sin_port = htons(port)};
  a.sin_addr.s_addr = htonl(INADDR_LOOPBACK);
  return a;
}

static void quick(int fd) {
  int one = 1;
  setsockopt(fd, IPPROTO_TCP, TCP_NODELAY, &one, sizeof one);
}

static int dial(int port) {
  struct sockaddr_in a = here(port);
  int fd = socket(AF_INET, SOCK_STREAM, 0);
  if (fd < 0 || connect(fd, (struct sockaddr *)&a, sizeof a)) fail("connect");
  quick(fd);
  return fd;
}

static void put(int fd, const char *bytes, size_t count) {
  if (write(fd, bytes, count) != (ssize_t)count) fail("write");
}

static int relay(int port) {
  struct sockaddr_in a = here(port);
  int one = 1, listener = socket(AF_INET, SOCK_STREAM, 0);
  setsockopt(listener, SOL_SOCKET, SO_REUSEADDR, &one, sizeof one);
  if (bind(listener, (struct sockaddr *)&a, sizeof a) || listen(listener, 2)) fail("listen");
  puts("listening");
  fflush(stdout);
  struct pollfd ends[2];
  for (int i = 0; i < 2; i++) {
    ends[i].fd = accept(listener, 0, 0);
    ends[i].events = POLLIN;
    quick(ends[i].fd);
  }
  for (int i = 0; i < 2; i++) put(ends[i].fd, "M0 1", 5);
  for (;;) {
    if (poll(ends, 2, -1) < 0) fail("poll");
    for (int i = 0; i < 2; i++)
      if (ends[i].revents) {
        char bytes[4096];
        ssize_t count = read(ends[i].fd, bytes, sizeof bytes);
        if (count <= 0) return 0;
        for (int j = 0; j < 2; j++) put(ends[j].fd, bytes, count);
      }
  }
}

// A player's end: how many `M` messages it has heard whole, and whether the last one was an `E`.
struct end {
  int fd;
  long heard;
  int begins, is_move, over;
};

static void hear(struct end *end) {
  char bytes[65536];
  ssize_t count = read(end->fd, bytes, sizeof bytes);
  if (count <= 0) {
    end->over = 1;
    return;
  }
  for (ssize_t i = 0; i < count; i++) {
    if (end->begins) {
      end->is_move = bytes[i] == 'M';
      if (bytes[i] == 'E') end->over = 1;
    }
    end->begins = bytes[i] == 0;
    if (end->begins && end->is_move) end->heard++;
  }
}

static void say(struct end *pair, long moves) {
  if (moves % 2 == 0)
    put(pair[0].fd, "M0 2 0 3", 9);
  else
    put(pair[1].fd, "M0 4 0 5", 9);
}

static void begin(struct end *pair, int port, int match) {
  for (int i = 0; i < 2; i++) {
    pair[i] = (struct end){.fd = dial(port), .begins = 1};
    if (match) {
      char join[16];
      int count = snprintf(join, sizeof join, "H%d", match);
      put(pair[i].fd, join, count + 1);
    }
    usleep(20000);
  }
}

static int play(int port, int matches, long moves, int hall) {
  static struct end ends[2 * MOST];
  struct pollfd polls[2 * MOST];
  static long said[MOST];
  for (int k = 0; k < matches; k++) begin(ends + 2 * k, port, hall ? k + 1 : 0);
  for (int i = 0; i < 2 * matches; i++) polls[i] = (struct pollfd){.fd = ends[i].fd, .events = POLLIN};
  long start = 0;
  int left = matches;
  while (left > 0) {
    if (poll(polls, 2 * matches, 60000) <= 0) fail("poll");
    if (!start) start = now_us();
    for (int i = 0; i < 2 * matches; i++)
      if (polls[i].revents) hear(ends + i);
    for (int k = 0; k < matches; k++) {
      struct end *pair = ends + 2 * k;
      if (said[k] < 0) continue;
      if (pair[0].over || pair[1].over) return 2;
      // the keeper's move is the first one heard; a move is said once both have heard the one before it
      if (pair[0].heard < said[k] + 1 || pair[1].heard < said[k] + 1) continue;
      if (said[k] == moves) {
        said[k] = -1;
        left--;
      } else {
        say(pair, said[k]++);
      }
    }
  }
  printf("%ld\n", now_us() - start);
  return 0;
}

static int late(int port, long turn, long early, long moves) {
  struct end pair[2];
  // (what is to be on time comes before other work of the machine, if the system allows it)
  sched_setscheduler(0, SCHED_FIFO, &(struct sched_param){.sched_priority = 1});
  begin(pair, port, 1);
  long said = 0, sent_at = 0, delay = 0;
  for (;;) {
    struct pollfd polls[2] = {{pair[0].fd, POLLIN, 0}, {pair[1].fd, POLLIN, 0}};
    if (poll(polls, 2, 60000) <= 0) fail("poll");
    for (int i = 0; i < 2; i++)
      if (polls[i].revents) hear(pair + i);
    if (pair[0].over || pair[1].over || (said == moves && pair[0].heard > moves)) break;
    if (said == moves || pair[said % 2].heard < said + 1) continue;
    // (when the first turn began isn't known: so its move is sent at once)
    long until = said ? sent_at + turn * 1000 - early : now_us();
    while (now_us() + EARLIER < until) usleep(until - now_us() - EARLIER);
    while (now_us() < until) {}
    sent_at = now_us();
    say(pair, said++);
    delay = now_us() - until;
  }
  printf("%ld %ld\n", pair[0].heard - 1, delay);
  return 0;
}

int main(int argc, char **argv) {
  if (argc >= 3 && !strcmp(argv[1], "relay")) return relay(atoi(argv[2]));
  if (argc >= 5 && !strcmp(argv[1], "play")) return play(atoi(argv[2]), atoi(argv[3]), atol(argv[4]), argc > 5);
  if (argc >= 6 && !strcmp(argv[1], "late")) return late(atoi(argv[2]), atol(argv[3]), atol(argv[4]), atol(argv[5]));
  return 64;
}
