/* whole_table.c: the peers of whole_table.py, which builds it: sources and sinks of one BGP speaker, all in one process on loopback.
 *
 *     whole_table ADDRESS:PORT HOLD MOST        (MOST: how many prefixes there are at most, of all sources together)
 *
 * Lines come on standard input, and each is answered by one on standard output. Sessions have numbers from 0 to 63.
 *
 *     open N source|sink ADDRESS AS SECONDS     connects from there; answered once the session is up ("ok"), or isn't within this time.
 *                                               The OPEN has capabilities 65 and 1 (IPv4 unicast)
 *     deaf N 0|1                                reads no more of this session, or again; KEEPALIVEs are sent all the same
 *     send N FILE                               the file's octets are written next, as fast as they are taken
 *     close N                                   closes the connection
 *     mark                                      a step begins: its clock, counts and gaps start at 0
 *     want SECONDS COUNT TAG                    answered once each sink that isn't deaf holds COUNT prefixes, with TAG over 0 all of them
 *                                               with a path that ends with this AS, and all is written: "done" or "late", and the figures
 *
 * Figures, of all sinks together: UPDATEs, octets of these UPDATEs, prefixes announced and withdrawn in them; seconds from `mark` until
 * the answer, and the longest time in which one sink that isn't deaf was told nothing, be it KEEPALIVEs. A session that is lost ends
 * the step: "lost N CAUSE". Status 2 where the speaker sends what is no BGP.
 */
#define _GNU_SOURCE
#include <arpa/inet.h>
#include <errno.h>
#include <fcntl.h>
#include <netinet/tcp.h>
#include <poll.h>
#include <stdint.h>
#include <stdio.h>
#include <stdlib.h>
#include <string.h>
#include <sys/mman.h>
#include <sys/socket.h>
#include <sys/stat.h>
#include <time.h>
#include <unistd.h>

enum { SESSIONS = 64, FILES = 64, READ = 262144 };

struct file {
  const uint8_t *octets;
  size_t length;
};

struct session {
  int is_open, is_sink, is_deaf, is_up, descriptor;
  uint32_t as;
  struct sockaddr_in from;
  uint8_t *in;
  size_t had;
  struct file queue[FILES];
  int queued;
  size_t written; /* of the first file of the queue */
  double lived;   /* when it wrote last */
  uint32_t *tags; /* of a sink: of each prefix the last AS of its path, 0 where it isn't held */
  size_t held, tagged;
  uint64_t updates, octets, announced, withdrawn;
  double heard, gap;
};

static struct session sessions[SESSIONS];
static struct sockaddr_in speaker;
static unsigned hold;
static size_t most, known; /* prefixes */
static uint64_t *keys;
static uint32_t *places;
static size_t slots;
static uint32_t wanted_tag;
static double marked;
static char lost[256];
static uint8_t keepalive[19];

static double now(void) {
  struct timespec it;
  clock_gettime(CLOCK_MONOTONIC, &it);
  return it.tv_sec + it.tv_nsec * 1e-9;
}

static void die(const char *cause) {
  printf("broken %s (%s)\n", cause, strerror(errno));
  exit(2);
}

static void lose(int number, const char *cause) {
  if (!lost[0]) snprintf(lost, sizeof lost, "lost %d %s", number, cause);
  close(sessions[number].descriptor);
  sessions[number].is_open = sessions[number].is_up = 0;
}

/* ---------------------------------------------------------------- Prefixes */

static size_t place_of(uint32_t address, unsigned length) {
  uint64_t key = (uint64_t)address << 8 | (length + 1);
  size_t at = (key * 0x9E3779B97F4A7C15ull >> 20) & (slots - 1);
  while (keys[at] && keys[at] != key) at = (at + 1) & (slots - 1);
  if (!keys[at]) {
    if (known == most) die("more prefixes than there are");
    keys[at] = key;
    places[at] = known++;
  }
  return places[at];
}

static void put(struct session *it, size_t place, uint32_t tag) {
  uint32_t old = it->tags[place];
  if (old == tag) return;
  it->held += (tag != 0) - (old != 0);
  it->tagged += (tag != 0 && tag == wanted_tag) - (old != 0 && old == wanted_tag);
  it->tags[place] = tag;
}

static void prefixes(struct session *it, const uint8_t *from, const uint8_t *to, uint32_t tag) {
  while (from < to) {
    unsigned length = *from++, octets = (length + 7) / 8;
    if (length > 32 || from + octets > to) die("the speaker told a bad prefix");
    uint32_t address = 0;
    for (unsigned at = 0; at < 4; at++) address = address << 8 | (at < octets ? from[at] : 0);
    from += octets;
    if (tag) it->announced++;
    else it->withdrawn++;
    if (it->is_sink) put(it, place_of(address, length), tag);
  }
}

/* The last AS of the path, at least 1. */
static uint32_t tag_of(const uint8_t *from, const uint8_t *to) {
  while (from + 3 <= to) {
    unsigned flags = from[0], code = from[1], length = from[2], head = 3;
    if (flags & 16) {
      if (from + 4 > to) die("the speaker told bad attributes");
      length = from[2] << 8 | from[3];
      head = 4;
    }
    if (from + head + length > to) die("the speaker told bad attributes");
    if (code == 2 && length >= 6) {
      const uint8_t *end = from + head + length - 4;
      uint32_t as = (uint32_t)end[0] << 24 | end[1] << 16 | end[2] << 8 | end[3];
      return as ? as : 1;
    }
    from += head + length;
  }
  return 1;
}

/* ---------------------------------------------------------------- Sessions */

static void write_now(int number, const uint8_t *octets, size_t length) {
  struct session *it = &sessions[number];
  while (length) {
    ssize_t sent = send(it->descriptor, octets, length, MSG_NOSIGNAL);
    if (sent < 0 && errno == EINTR) continue;
    if (sent < 0 && errno == EAGAIN) {
      struct pollfd room = {it->descriptor, POLLOUT, 0};
      poll(&room, 1, 100);
      continue;
    }
    if (sent < 0) {
      lose(number, "can't be written to");
      return;
    }
    octets += sent;
    length -= sent;
  }
  it->lived = now();
}

static void take(int number, const uint8_t *message, size_t length) {
  struct session *it = &sessions[number];
  char cause[64];
  if (message[18] == 1) write_now(number, keepalive, 19);
  if (message[18] == 4) it->is_up = 1;
  if (message[18] == 3 && length >= 21) {
    snprintf(cause, sizeof cause, "NOTIFICATION %d/%d", message[19], message[20]);
    lose(number, cause);
  }
  if (message[18] != 2) return;
  if (length < 23) die("the speaker told a bad UPDATE");
  size_t gone = message[19] << 8 | message[20];
  if (23 + gone > length) die("the speaker told a bad UPDATE");
  size_t attributes = message[21 + gone] << 8 | message[22 + gone];
  if (23 + gone + attributes > length) die("the speaker told a bad UPDATE");
  const uint8_t *first = message + 23 + gone;
  if (length == 23) return; /* End-of-RIB */
  it->updates++;
  it->octets += length;
  prefixes(it, message + 21, message + 21 + gone, 0);
  if (first + attributes < message + length) prefixes(it, first + attributes, message + length, tag_of(first, first + attributes));
}

/* Reads once; 0 where there is nothing. */
static int hear(int number) {
  struct session *it = &sessions[number];
  ssize_t came = recv(it->descriptor, it->in + it->had, READ - it->had, MSG_DONTWAIT);
  if (came < 0 && (errno == EAGAIN || errno == EINTR)) return 0;
  if (came <= 0) {
    lose(number, came ? strerror(errno) : "the speaker closed");
    return 0;
  }
  double time = now();
  if (time - it->heard > it->gap) it->gap = time - it->heard;
  it->heard = time;
  it->had += came;
  size_t at = 0;
  while (it->is_open && it->had - at >= 19) {
    size_t length = it->in[at + 16] << 8 | it->in[at + 17];
    if (length < 19 || length > 4096) die("the speaker sent a bad length");
    if (it->had - at < length) break;
    take(number, it->in + at, length);
    at += length;
  }
  memmove(it->in, it->in + at, it->had - at);
  it->had -= at;
  return 1;
}

static void write_queue(int number) {
  struct session *it = &sessions[number];
  struct file *first = &it->queue[0];
  size_t left = first->length - it->written;
  ssize_t sent = send(it->descriptor, first->octets + it->written, left > 1 << 20 ? 1 << 20 : left, MSG_DONTWAIT | MSG_NOSIGNAL);
  if (sent < 0 && errno != EAGAIN && errno != EINTR) {
    lose(number, "can't be written to");
    return;
  }
  if (sent <= 0) return;
  it->lived = now();
  it->written += sent;
  if (it->written < first->length) return;
  munmap((void *)first->octets, first->length);
  memmove(&it->queue[0], &it->queue[1], (it->queued - 1) * sizeof it->queue[0]);
  it->queued--;
  it->written = 0;
}

/* Waits for this long at most, or until a line may be read, and does what sessions have to do. */
static void turn(int milliseconds, int with_lines) {
  struct pollfd polled[SESSIONS + 1];
  int numbers[SESSIONS + 1], count = 0;
  if (with_lines) polled[count] = (struct pollfd){0, POLLIN, 0}, numbers[count++] = -1;
  for (int number = 0; number < SESSIONS; number++) {
    struct session *it = &sessions[number];
    if (!it->is_open) continue;
    if (!it->queued && it->is_up && now() - it->lived > hold / 6.0) write_now(number, keepalive, 19);
    if (!it->is_open) continue;
    polled[count] = (struct pollfd){it->descriptor, (it->is_deaf ? 0 : POLLIN) | (it->queued ? POLLOUT : 0), 0};
    numbers[count++] = number;
  }
  poll(polled, count, milliseconds);
  for (int at = 0; at < count; at++) {
    int number = numbers[at];
    if (number < 0) continue;
    struct session *it = &sessions[number];
    if (it->is_open && it->queued && polled[at].revents & POLLOUT) write_queue(number);
    if (it->is_open && it->is_deaf && polled[at].revents & (POLLHUP | POLLERR)) lose(number, "the speaker closed");
    if (it->is_deaf || !(polled[at].revents & (POLLIN | POLLHUP | POLLERR))) continue;
    for (int again = 0; again < 8 && it->is_open && hear(number); again++) {}
  }
}

/* ---------------------------------------------------------------- Lines */

static int is_up_within(int number, double seconds) {
  struct session *it = &sessions[number];
  double ends = now() + seconds;
  while (now() < ends) {
    it->descriptor = socket(AF_INET, SOCK_STREAM, 0);
    int one = 1;
    setsockopt(it->descriptor, SOL_SOCKET, SO_REUSEADDR, &one, sizeof one);
    if (bind(it->descriptor, (void *)&it->from, sizeof it->from)) die("an address can't be had");
    it->had = it->is_up = it->is_deaf = it->queued = 0;
    if (connect(it->descriptor, (void *)&speaker, sizeof speaker) == 0) {
      setsockopt(it->descriptor, IPPROTO_TCP, TCP_NODELAY, &one, sizeof one);
      uint32_t as = it->as, id = 0x0A000001 + number;
      unsigned two = as > 65535 ? 23456 : as;
      uint8_t opening[43] = {[16] = 0, 43, 1, 4, two >> 8, two, hold >> 8, hold, id >> 24, id >> 16, id >> 8, id, 14,
                             2, 12, 65, 4, as >> 24, as >> 16, as >> 8, as, 1, 4, 0, 1, 0, 1};
      memset(opening, 255, 16);
      it->is_open = 1;
      it->lived = it->heard = now();
      write_now(number, opening, sizeof opening);
      while (it->is_open && !it->is_up && now() < ends) turn(100, 0);
      if (it->is_open && it->is_up) return 1;
      if (it->is_open) close(it->descriptor);
      it->is_open = 0;
      if (now() < ends) lost[0] = 0;
    } else {
      close(it->descriptor);
    }
    usleep(200000);
  }
  return 0;
}

static void open_one(int number, const char *kind, const char *address, uint32_t as, double seconds) {
  struct session *it = &sessions[number];
  it->from = (struct sockaddr_in){.sin_family = AF_INET};
  if (inet_pton(AF_INET, address, &it->from.sin_addr) != 1 || ntohl(it->from.sin_addr.s_addr) >> 24 != 127) die("no address of loopback");
  it->as = as;
  it->is_sink = !strcmp(kind, "sink");
  if (!it->in) it->in = malloc(READ);
  if (it->is_sink && !it->tags) it->tags = calloc(most, sizeof it->tags[0]);
  if (is_up_within(number, seconds)) printf("ok\n");
  else printf("%s\n", lost[0] ? lost : "late");
}

static void send_file(int number, const char *path) {
  struct session *it = &sessions[number];
  struct stat size;
  int file = open(path, O_RDONLY);
  if (file < 0 || fstat(file, &size) || it->queued == FILES) die(path);
  if (size.st_size) {
    const uint8_t *octets = mmap(0, size.st_size, PROT_READ, MAP_PRIVATE | MAP_POPULATE, file, 0);
    if (octets == MAP_FAILED) die(path);
    it->queue[it->queued++] = (struct file){octets, size.st_size};
  }
  close(file);
}

static void mark(void) {
  marked = now();
  for (int number = 0; number < SESSIONS; number++) {
    struct session *it = &sessions[number];
    it->updates = it->octets = it->announced = it->withdrawn = 0;
    it->heard = marked;
    it->gap = 0;
  }
}

static int is_as_wanted(size_t count) {
  for (int number = 0; number < SESSIONS; number++) {
    struct session *it = &sessions[number];
    if (!it->is_open) continue;
    if (it->queued) return 0;
    if (it->is_sink && !it->is_deaf && (it->held != count || (wanted_tag && it->tagged != count))) return 0;
  }
  return 1;
}

static void want(double seconds, size_t count, uint32_t tag) {
  wanted_tag = tag;
  for (int number = 0; number < SESSIONS; number++) {
    struct session *it = &sessions[number];
    if (!it->tags) continue;
    it->tagged = 0;
    for (size_t place = 0; place < known; place++) it->tagged += tag && it->tags[place] == tag;
  }
  double ends = now() + seconds;
  while (!lost[0] && !is_as_wanted(count) && now() < ends) turn(100, 0);
  double time = now(), gap = 0;
  uint64_t updates = 0, octets = 0, announced = 0, withdrawn = 0;
  size_t least = (size_t)-1, greatest = 0;
  for (int number = 0; number < SESSIONS; number++) {
    struct session *it = &sessions[number];
    if (!it->tags || !it->is_open) continue;
    updates += it->updates, octets += it->octets, announced += it->announced, withdrawn += it->withdrawn;
    if (it->is_deaf) continue;
    if (time - it->heard > it->gap) it->gap = time - it->heard;
    if (it->gap > gap) gap = it->gap;
    if (it->held < least) least = it->held;
    if (it->held > greatest) greatest = it->held;
  }
  if (lost[0]) printf("%s", lost);
  else printf("%s", is_as_wanted(count) ? "done" : "late");
  printf(" wall=%.6f gap=%.6f updates=%lu octets=%lu announced=%lu withdrawn=%lu least=%zd greatest=%zu\n", time - marked, gap, (unsigned long)updates,
         (unsigned long)octets, (unsigned long)announced, (unsigned long)withdrawn, (ssize_t)least, greatest);
}

static void obey(const char *line) {
  int number, flag;
  char kind[16], text[4096];
  unsigned as, tag;
  double seconds;
  size_t count;
  if (sscanf(line, "open %d %15s %63s %u %lf", &number, kind, text, &as, &seconds) == 5 && number >= 0 && number < SESSIONS) {
    open_one(number, kind, text, as, seconds);
  } else if (sscanf(line, "deaf %d %d", &number, &flag) == 2 && number >= 0 && number < SESSIONS) {
    sessions[number].is_deaf = flag;
    sessions[number].heard = now();
    printf("ok\n");
  } else if (sscanf(line, "send %d %4095[^\n]", &number, text) == 2 && number >= 0 && number < SESSIONS) {
    send_file(number, text);
    printf("ok\n");
  } else if (sscanf(line, "close %d", &number) == 1 && number >= 0 && number < SESSIONS) {
    if (sessions[number].is_open) close(sessions[number].descriptor);
    sessions[number].is_open = sessions[number].is_up = sessions[number].queued = 0;
    printf("ok\n");
  } else if (!strncmp(line, "mark", 4)) {
    mark();
    printf("ok\n");
  } else if (sscanf(line, "want %lf %zu %u", &seconds, &count, &tag) == 3) {
    want(seconds, count, tag);
  } else {
    errno = 0;
    die("no such line");
  }
  fflush(stdout);
}

int main(int count, char **words) {
  char address[64];
  unsigned port;
  if (count != 4 || sscanf(words[1], "%63[^:]:%u", address, &port) != 2) return 2;
  speaker = (struct sockaddr_in){.sin_family = AF_INET, .sin_port = htons(port)};
  if (inet_pton(AF_INET, address, &speaker.sin_addr) != 1 || ntohl(speaker.sin_addr.s_addr) >> 24 != 127) return 2;
  hold = atoi(words[2]);
  most = strtoul(words[3], 0, 10);
  for (slots = 1024; slots < most * 2; slots *= 2) {}
  keys = calloc(slots, sizeof keys[0]);
  places = calloc(slots, sizeof places[0]);
  memset(keepalive, 255, 16);
  keepalive[16] = 0, keepalive[17] = 19, keepalive[18] = 4;
  static char lines[65536];
  size_t had = 0;
  for (;;) {
    struct pollfd ready = {0, POLLIN, 0};
    turn(100, 1);
    if (poll(&ready, 1, 0) <= 0) continue;
    ssize_t came = read(0, lines + had, sizeof lines - 1 - had);
    if (came <= 0) return 0;
    had += came;
    lines[had] = 0;
    char *end, *line = lines;
    while ((end = memchr(line, '\n', lines + had - line))) {
      *end = 0;
      obey(line);
      line = end + 1;
    }
    had -= line - lines;
    memmove(lines, line, had);
  }
}
