// Sends datagrams of one kind, as many a second as it is told, and says at the end how many it really sent. See tools/flood.
#define _GNU_SOURCE
#include <arpa/inet.h>
#include <signal.h>
#include <stdint.h>
#include <stdio.h>
#include <stdlib.h>
#include <string.h>
#include <sys/socket.h>
#include <time.h>
#include <unistd.h>

static volatile sig_atomic_t stopped = 0;
static uint64_t drawn = 88172645463325252u;

static void stop(int number) {
  (void)number;
  stopped = 1;
}

static uint32_t draw(void) {
  drawn ^= drawn << 13;
  drawn ^= drawn >> 7;
  drawn ^= drawn << 17;
  return (uint32_t)(drawn >> 16);
}

static void put(unsigned char *at, uint32_t number) {
  for (int index = 0; index < 4; index++) at[index] = (unsigned char)(number >> (8 * index));
}

// The first eight bytes of a frame.
static void front(unsigned char *at, uint32_t length, unsigned char flags, unsigned char kind) {
  put(at, length);
  at[4] = 0;
  at[5] = flags;
  at[6] = kind;
  at[7] = 0;
}

// A DATA frame of 64 bytes at some offset of a term.
static size_t data_frame(unsigned char *at, uint32_t session, uint32_t stream) {
  const uint32_t words[] = {(draw() % 16384) * 64, session, stream, 7, 0, 0};
  front(at, 64, 0xc0, 1);
  for (int index = 0; index < 6; index++) put(at + 8 + 4 * index, words[index]);
  for (int index = 32; index < 64; index++) at[index] = (unsigned char)draw();
  return 64;
}

// A status message of some place, with a window of 128 KiB and some receiver's id.
static size_t status(unsigned char *at, uint32_t session, uint32_t stream) {
  const uint32_t words[] = {session, stream, 7, (draw() % 16384) * 64, 131072, draw(), draw()};
  front(at, 36, 0, 3);
  for (int index = 0; index < 7; index++) put(at + 8 + 4 * index, words[index]);
  return 36;
}

// A negative acknowledgement of some place, for half a MiB.
static size_t nak(unsigned char *at, uint32_t session, uint32_t stream) {
  const uint32_t words[] = {session, stream, 7, (draw() % 8192) * 64, 524288};
  front(at, 28, 0, 2);
  for (int index = 0; index < 5; index++) put(at + 8 + 4 * index, words[index]);
  return 28;
}

static size_t bytes(unsigned char *at) {
  size_t length = 1 + draw() % 1400;
  for (size_t index = 0; index < length; index += 4) put(at + index, draw());
  return length;
}

static size_t make(const char *kind, unsigned char *at, uint32_t session, uint32_t stream) {
  if (strcmp(kind, "frames") == 0) return data_frame(at, session, stream);
  if (strcmp(kind, "status") == 0) return status(at, session, stream);
  if (strcmp(kind, "naks") == 0) return nak(at, session, stream);
  if (strcmp(kind, "bytes") == 0) return bytes(at);
  fprintf(stderr, "no such kind: %s\n", kind);
  exit(2);
}

// An address of IPv4: HOST:PORT, or a port of any.
static struct sockaddr_in address(const char *text) {
  struct sockaddr_in found = {.sin_family = AF_INET, .sin_addr.s_addr = htonl(INADDR_ANY)};
  char host[64] = "0.0.0.0";
  const char *colon = strrchr(text, ':');
  if (colon != NULL && colon - text < 64) {
    memcpy(host, text, (size_t)(colon - text));
    host[colon - text] = 0;
  }
  if (inet_pton(AF_INET, host, &found.sin_addr) != 1) {
    fprintf(stderr, "no address: %s\n", text);
    exit(2);
  }
  found.sin_port = htons((uint16_t)atoi(colon != NULL ? colon + 1 : text));
  return found;
}

static double now(void) {
  struct timespec time;
  clock_gettime(CLOCK_MONOTONIC, &time);
  return (double)time.tv_sec + (double)time.tv_nsec / 1e9;
}

int main(int count, char **words) {
  if (count < 6 || count > 8) {
    fprintf(stderr, "usage: flood bytes|frames|status|naks FROM HOST:PORT RATE SECONDS [SESSION [STREAM]]\n");
    return 2;
  }
  struct sockaddr_in from = address(words[2]), to = address(words[3]);
  double rate = atof(words[4]), seconds = atof(words[5]);
  uint32_t session = count > 6 ? (uint32_t)atol(words[6]) : 5, stream = count > 7 ? (uint32_t)atol(words[7]) : 1001;
  int near = socket(AF_INET, SOCK_DGRAM, 0);
  if (near < 0 || bind(near, (struct sockaddr *)&from, sizeof from) != 0) {
    perror("flood");
    return 1;
  }
  signal(SIGTERM, stop);
  signal(SIGINT, stop);
  static unsigned char datagram[2048];
  uint64_t sent = 0, given = 0;
  double began = now(), passed = 0;
  while (!stopped && passed < seconds) {
    for (uint64_t due = (uint64_t)(passed * rate); given < due && !stopped; given++) {
      size_t length = make(words[1], datagram, session, stream);
      if (sendto(near, datagram, length, MSG_DONTWAIT, (struct sockaddr *)&to, sizeof to) >= 0) sent++;
    }
    usleep(500);
    passed = now() - began;
  }
  printf("%llu sent in %.3f s, %.0f a second\n", (unsigned long long)sent, passed, (double)sent / passed);
  return 0;
}
