// The six calls of an append: write the length and the number, write the payload, write a closed gate, sync, open the
// gate, sync.
#include <stdint.h>
#include <stdio.h>
#include <stdlib.h>
#include <unistd.h>

static void must(int holds, const char *what) {
  if (!holds) {
    perror(what);
    exit(1);
  }
}

// Appends a payload behind the closed gate at `end`, and gives the place of the next one.
static off_t append(int file, off_t end, const uint8_t *payload, uint32_t length) {
  uint8_t open_gate = 1, closed_gate = 0;
  uint8_t numbers[12] = {length >> 24, length >> 16, length >> 8, length};
  must(pwrite(file, numbers, 12, end + 1) == 12, "pwrite");
  must(pwrite(file, payload, length, end + 13) == (ssize_t)length, "pwrite");
  must(pwrite(file, &closed_gate, 1, end + 13 + length) == 1, "pwrite");
  must(fsync(file) == 0, "fsync");
  must(pwrite(file, &open_gate, 1, end) == 1, "pwrite");
  must(fsync(file) == 0, "fsync");
  return end + 13 + length;
}
