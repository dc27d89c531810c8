// The six calls of an append by a plain loop, to hold the journal's against.
//
//   cc -O2 -o six_calls six_calls.c && ./six_calls FILE N BYTES
//
// Prints the appends a second.
#include "six_calls.h"

#include <fcntl.h>
#include <string.h>
#include <time.h>

int main(int argc, char **argv) {
  if (argc != 4) return 2;
  long number = atol(argv[2]);
  uint32_t length = (uint32_t)atol(argv[3]);
  int file = open(argv[1], O_RDWR | O_CREAT | O_TRUNC, 0644);
  must(file >= 0, "open");
  uint8_t *payload = malloc(length);
  must(payload != NULL, "malloc");
  memset(payload, 'x', length);
  uint8_t closed_gate = 0;
  off_t end = 17;
  must(pwrite(file, &closed_gate, 1, end) == 1, "pwrite");
  must(fsync(file) == 0, "fsync");
  struct timespec from, to;
  clock_gettime(CLOCK_MONOTONIC, &from);
  for (long i = 0; i < number; i++) end = append(file, end, payload, length);
  clock_gettime(CLOCK_MONOTONIC, &to);
  double seconds = (double)(to.tv_sec - from.tv_sec) + (double)(to.tv_nsec - from.tv_nsec) / 1e9;
  printf("%.0f appends a second\n", (double)number / seconds);
  return 0;
}
