// Sends requests over kept-alive connections and prints how many are answered a second: PUTs of new statements, POSTs of new
// statements in batches of 100, GETs of those by their ids, or GETs of a file from another server, to hold the others
// against. Of batches it prints how many statements are answered a second.
//
//   cc -O2 -D_GNU_SOURCE -o requests requests.c
//   ./requests PORT put FIRST N TOKEN AHEAD [CLIENTS]    statements FIRST .. FIRST + N - 1, wants 204
//   ./requests PORT post FIRST N TOKEN AHEAD [CLIENTS]   N batches, statements FIRST .. FIRST + 100 * N - 1, wants 200
//   ./requests PORT get HELD N TOKEN AHEAD [CLIENTS]     N statements, their numbers below HELD by turns, wants 200
//   ./requests PORT path PATH N TOKEN AHEAD [CLIENTS]    GETs of that path from the store, wants 200
//   ./requests PORT file PATH N TOKEN AHEAD [CLIENTS]    the same from another server, wants 200
//
// AHEAD requests are on their way at a time: with 1 each waits for the answer to the one before. All are written before the
// clock starts. A connection is closed behind 1,000 requests, as the store does. CLIENTS processes, 1 if it isn't said, do
// this at once, each with N requests and with connections of its own; what they put or post goes on from one to the next.
#include <arpa/inet.h>
#include <netinet/in.h>
#include <netinet/tcp.h>
#include <stdio.h>
#include <stdlib.h>
#include <string.h>
#include <sys/socket.h>
#include <sys/wait.h>
#include <time.h>
#include <unistd.h>

enum { PER_CONNECTION = 1000, BATCH = 100, ROOM = 1 << 18 };

static void must(int holds, const char *what) {
  if (!holds) {
    perror(what);
    exit(1);
  }
}

static int connected(int port) {
  int link = socket(AF_INET, SOCK_STREAM, 0);
  must(link >= 0, "socket");
  int on = 1;
  setsockopt(link, IPPROTO_TCP, TCP_NODELAY, &on, sizeof on);
  struct sockaddr_in address = {.sin_family = AF_INET, .sin_port = htons((uint16_t)port)};
  address.sin_addr.s_addr = htonl(INADDR_LOOPBACK);
  must(connect(link, (struct sockaddr *)&address, sizeof address) == 0, "connect");
  return link;
}

// What has come and isn't looked at yet.
static char come[ROOM];
static size_t from = 0, upto = 0;

static void read_more(int link) {
  if (from > 0) {
    memmove(come, come + from, upto - from);
    upto -= from;
    from = 0;
  }
  must(upto < ROOM - 1, "room for a response");
  ssize_t more = read(link, come + upto, ROOM - 1 - upto);
  must(more > 0, "read");
  upto += (size_t)more;
}

// Takes one response off the link and says its status.
static int answered(int link) {
  char *end;
  while (come[upto] = 0, (end = strstr(come + from, "\r\n\r\n")) == NULL) read_more(link);
  int status = atoi(come + from + 9);
  *end = 0;
  char *length = strcasestr(come + from, "\r\nContent-Length:");
  size_t whole = (size_t)(end + 4 - (come + from)) + (length != NULL ? (size_t)atol(length + 17) : 0);
  while (upto - from < whole) read_more(link);
  from += whole;
  return status;
}

static int statement_of(char *into, size_t room, long number) {
  return snprintf(into, room,
                  "{\"id\":\"%08lx-1111-4111-8111-111111111111\","
                  "\"actor\":{\"name\":\"Learner %ld\",\"mbox\":\"mailto:learner-%ld@example.org\"},"
                  "\"verb\":{\"id\":\"http://adlnet.gov/expapi/verbs/completed\",\"display\":{\"en-US\":\"completed\"}},"
                  "\"object\":{\"id\":\"http://example.org/courses/%ld\",\"definition\":{\"type\":"
                  "\"http://adlnet.gov/expapi/activities/course\",\"name\":{\"en-US\":\"A course of many lessons\"},"
                  "\"description\":{\"en-US\":\"What is learned here, told in a sentence or two of plain words.\"}}},"
                  "\"result\":{\"score\":{\"scaled\":0.85,\"raw\":85,\"min\":0,\"max\":100},\"success\":true,"
                  "\"completion\":true,\"duration\":\"PT31M14.5S\"},\"timestamp\":\"2023-11-14T22:13:20.000Z\"}",
                  number, number, number % 997, number % 31);
}

static int batch_of(char *into, size_t room, long first) {
  size_t length = 0;
  for (long i = 0; i < BATCH; i++) {
    into[length++] = i == 0 ? '[' : ',';
    length += (size_t)statement_of(into + length, room - length, first + i);
  }
  into[length++] = ']';
  into[length] = 0;
  return (int)length;
}

// The base64 of a name is not needed: the store takes the token as it stands.
static int request_of(char *into, const char *mode, const char *path, long number, const char *token) {
  char id[37];
  snprintf(id, sizeof id, "%08lx-1111-4111-8111-111111111111", number);
  if (strcmp(mode, "file") == 0)
    return snprintf(into, ROOM, "GET %s HTTP/1.1\r\nHost: a\r\n\r\n", path);
  const char *fields = "Host: a\r\nX-Experience-API-Version: 1.0.3\r\nAuthorization: Basic ";
  if (strcmp(mode, "path") == 0) return snprintf(into, ROOM, "GET %s HTTP/1.1\r\n%s%s\r\n\r\n", path, fields, token);
  if (strcmp(mode, "get") == 0)
    return snprintf(into, ROOM, "GET /xapi/statements?statementId=%s HTTP/1.1\r\n%s%s\r\n\r\n", id, fields, token);
  static char body[ROOM / 2];
  int many = strcmp(mode, "post") == 0;
  int length = many ? batch_of(body, sizeof body, number) : statement_of(body, sizeof body, number);
  return snprintf(into, ROOM,
                  "%s /xapi/statements%s%s HTTP/1.1\r\n%s%s\r\nContent-Type: application/json\r\n"
                  "Content-Length: %d\r\n\r\n%s",
                  many ? "POST" : "PUT", many ? "" : "?statementId=", many ? "" : id, fields, token, length, body);
}

struct request {
  char *text;
  int length;
};

static void sent(int link, const struct request *request) {
  for (int done = 0; done < request->length;) {
    ssize_t more = write(link, request->text + done, (size_t)(request->length - done));
    must(more > 0, "write");
    done += (int)more;
  }
}

// Those of one connection, at most so many on their way at a time.
static void all_sent(int port, const struct request *requests, long number, long ahead, int wanted) {
  int link = connected(port);
  from = upto = 0;
  long next = 0;
  for (long i = 0; i < number; i++) {
    while (next < number && next < i + ahead) sent(link, &requests[next++]);
    int status = answered(link);
    if (status != wanted) {
      fprintf(stderr, "request %ld: %d\n", i, status);
      exit(1);
    }
  }
  close(link);
}

// What is asked for: the words behind the port.
struct task {
  const char *mode, *path, *token;
  long first, number, ahead;
};

static struct request *prepared(const struct task *task, long client) {
  long each = strcmp(task->mode, "post") == 0 ? BATCH : 1;
  struct request *requests = calloc((size_t)task->number, sizeof *requests);
  static char text[ROOM];
  must(requests != NULL, "calloc");
  for (long i = 0; i < task->number; i++) {
    long at = client * task->number + i;
    long statement = strcmp(task->mode, "get") == 0 ? (at * 7919) % task->first : task->first + at * each;
    requests[i].length = request_of(text, task->mode, task->path, statement, task->token);
    requests[i].text = memcpy(malloc((size_t)requests[i].length), text, (size_t)requests[i].length);
  }
  return requests;
}

// One client: says that it is ready, waits for the start, and sends all.
static void run(int port, const struct task *task, long client, int ready, int start) {
  struct request *requests = prepared(task, client);
  int wanted = strcmp(task->mode, "put") == 0 ? 204 : 200;
  char mark = 0;
  must(write(ready, &mark, 1) == 1, "ready");
  must(read(start, &mark, 1) == 0, "start");
  for (long i = 0; i < task->number; i += PER_CONNECTION) {
    long left = task->number - i;
    all_sent(port, requests + i, left < PER_CONNECTION ? left : PER_CONNECTION, task->ahead, wanted);
  }
}

int main(int argc, char **argv) {
  if (argc != 7 && argc != 8) return 2;
  struct task task = {argv[2], argv[3], argv[5], atol(argv[3]), atol(argv[4]), atol(argv[6])};
  long clients = argc == 8 ? atol(argv[7]) : 1;
  int ready[2], start[2];
  must(pipe(ready) == 0 && pipe(start) == 0, "pipe");
  for (long client = 0; client < clients; client++) {
    pid_t child = fork();
    must(child >= 0, "fork");
    if (child == 0) {
      close(start[1]);
      run(atoi(argv[1]), &task, client, ready[1], start[0]);
      _exit(0);
    }
  }
  close(ready[1]);
  char mark;
  for (long client = 0; client < clients; client++) must(read(ready[0], &mark, 1) == 1, "ready");
  struct timespec began, ended;
  clock_gettime(CLOCK_MONOTONIC, &began);
  close(start[1]);
  int status, failed = 0;
  while (wait(&status) > 0) failed |= status != 0;
  clock_gettime(CLOCK_MONOTONIC, &ended);
  if (failed) return 1;
  double seconds = (double)(ended.tv_sec - began.tv_sec) + (double)(ended.tv_nsec - began.tv_nsec) / 1e9;
  printf("%.0f\n", (double)(clients * task.number * (strcmp(task.mode, "post") == 0 ? BATCH : 1)) / seconds);
  return 0;
}
