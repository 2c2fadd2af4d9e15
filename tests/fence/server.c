/* server PORT FILE MICROSECONDS: a plain server in C with the durability of a counter, to be compared with. It serves one connection after another, as the counter does, appends the body of each message to FILE, syncs it, waits so long, and answers 200. */
#include <arpa/inet.h>
#include <fcntl.h>
#include <netinet/in.h>
#include <netinet/tcp.h>
#include <stdio.h>
#include <stdlib.h>
#include <string.h>
#include <sys/socket.h>
#include <unistd.h>

static char text[1 << 18];

/* Reads a message. Returns where its body begins; 0 if it doesn't come whole. */
static char *message(int s, size_t *have) {
  for (*have = 0; *have < sizeof text - 1;) {
    ssize_t n = read(s, text + *have, sizeof text - 1 - *have);
    if (n <= 0) return 0;
    text[*have += n] = 0;
    char *end = strstr(text, "\r\n\r\n"), *length = strcasestr(text, "\r\nContent-Length:");
    if (end && *have >= (size_t)(end + 4 - text) + (length && length < end ? atol(length + 17) : 0)) return end + 4;
  }
  return 0;
}

int main(int n, char **words) {
  static const char reply[] = "HTTP/1.1 200 OK\r\nContent-Type: application/json\r\nContent-Length: 2\r\nConnection: close\r\n\r\n{}";
  struct sockaddr_in at = {.sin_family = AF_INET, .sin_addr.s_addr = htonl(INADDR_LOOPBACK)};
  int one = 1, ear = socket(AF_INET, SOCK_STREAM, 0), file;
  if (n != 4 || (file = open(words[2], O_CREAT | O_WRONLY | O_APPEND, 0600)) < 0) return 2;
  at.sin_port = htons(atoi(words[1]));
  setsockopt(ear, SOL_SOCKET, SO_REUSEADDR, &one, sizeof one);
  if (bind(ear, (void *)&at, sizeof at) || listen(ear, 128)) return 3;
  for (int s; (s = accept(ear, 0, 0)) >= 0; close(s)) {
    size_t have;
    char *body = message(s, &have);
    if (!body) continue;
    if (write(file, body, text + have - body) < 0 || fdatasync(file)) return 3;
    usleep(atoi(words[3]));
    setsockopt(s, IPPROTO_TCP, TCP_NODELAY, &one, sizeof one);
    if (write(s, reply, sizeof reply - 1) < 0) continue;
    shutdown(s, SHUT_WR);
  }
  return 3;
}
