// A server that looks at nothing: between reading a request and answering it, it makes the six calls of an append, and no more.
// What it reaches is what any server of so many workers could reach here that appends one entry after the other. Several
// workers take turns at the file as the store does: once to append, and for the first request of a connection once more
// before, to look who asks.
//
//   cc -O2 -D_GNU_SOURCE -pthread -o bare_server bare_server.c && ./bare_server FILE PORT CONNECTIONS BYTES [WORKERS]
//
// CONNECTIONS is for each worker.
#include "six_calls.h"

#include <arpa/inet.h>
#include <fcntl.h>
#include <netinet/in.h>
#include <netinet/tcp.h>
#include <pthread.h>
#include <string.h>
#include <sys/socket.h>

enum { ROOM = 1 << 16 };

static int file, door;
static long connections;
static off_t end = 17;
static uint32_t length;
static uint8_t *payload;
static pthread_mutex_t turn = PTHREAD_MUTEX_INITIALIZER;

// Answers each whole request of the link until it ends.
static void serve(int link) {
  static __thread char come[ROOM];
  static const char answer[] = "HTTP/1.1 204 No Content\r\nX-Experience-API-Version: 1.0.3\r\n\r\n";
  size_t held = 0;
  int is_known = 0;
  for (;;) {
    come[held] = 0;
    char *behind = strstr(come, "\r\n\r\n");
    char *field = behind == NULL ? NULL : strcasestr(come, "\r\nContent-Length:");
    size_t whole = behind == NULL ? 0 : (size_t)(behind + 4 - come) + (field == NULL ? 0 : (size_t)atol(field + 17));
    if (behind == NULL || held < whole) {
      must(held < ROOM - 1, "room for a request");
      ssize_t more = read(link, come + held, ROOM - 1 - held);
      must(more >= 0, "read");
      if (more == 0) return;
      held += (size_t)more;
      continue;
    }
    if (!is_known) {
      pthread_mutex_lock(&turn);
      pthread_mutex_unlock(&turn);
      is_known = 1;
    }
    pthread_mutex_lock(&turn);
    end = append(file, end, payload, length);
    pthread_mutex_unlock(&turn);
    must(write(link, answer, sizeof answer - 1) == (ssize_t)(sizeof answer - 1), "write");
    memmove(come, come + whole, held - whole);
    held -= whole;
  }
}

static void *work(void *nothing) {
  int on = 1;
  for (long i = connections; i > 0; i--) {
    int link = accept(door, NULL, NULL);
    must(link >= 0, "accept");
    setsockopt(link, IPPROTO_TCP, TCP_NODELAY, &on, sizeof on);
    serve(link);
    close(link);
  }
  return nothing;
}

int main(int argc, char **argv) {
  if (argc != 5 && argc != 6) return 2;
  connections = atol(argv[3]);
  length = (uint32_t)atol(argv[4]);
  payload = malloc(length);
  must(payload != NULL, "malloc");
  memset(payload, 'x', length);
  file = open(argv[1], O_RDWR | O_CREAT | O_TRUNC, 0644);
  must(file >= 0, "open");
  door = socket(AF_INET, SOCK_STREAM, 0);
  must(door >= 0, "socket");
  int on = 1;
  setsockopt(door, SOL_SOCKET, SO_REUSEADDR, &on, sizeof on);
  struct sockaddr_in address = {.sin_family = AF_INET, .sin_port = htons((uint16_t)atoi(argv[2]))};
  address.sin_addr.s_addr = htonl(INADDR_LOOPBACK);
  must(bind(door, (struct sockaddr *)&address, sizeof address) == 0, "bind");
  must(listen(door, 64) == 0, "listen");
  pthread_t others[16];
  long more = argc == 6 ? atol(argv[5]) - 1 : 0;
  if (more < 0 || more > 15) return 2;
  for (long i = 0; i < more; i++) must(pthread_create(&others[i], NULL, work, NULL) == 0, "pthread_create");
  work(NULL);
  for (long i = 0; i < more; i++) pthread_join(others[i], NULL);
  return 0;
}
