/* Sends one request of HTTP so many times to a port of the loopback, a connection each, and prints the seconds of each
   on a line.
   usage: http_client PORT COUNT < REQUEST */
#include <arpa/inet.h>
#include <netinet/in.h>
#include <stdio.h>
#include <stdlib.h>
#include <string.h>
#include <sys/socket.h>
#include <time.h>
#include <unistd.h>

static double now(void) {
    struct timespec t;
    clock_gettime(CLOCK_MONOTONIC, &t);
    return t.tv_sec + t.tv_nsec / 1e9;
}

static void fail(const char *what) {
    perror(what);
    exit(1);
}

/* Sends the request and reads all that is answered: whether the status is 200. */
static int ask(int port, const char *request, size_t length) {
    struct sockaddr_in to = {.sin_family = AF_INET, .sin_port = htons(port), .sin_addr.s_addr = htonl(INADDR_LOOPBACK)};
    char answer[4096], rest[4096];
    size_t have = 0;
    ssize_t n;
    int stream = socket(AF_INET, SOCK_STREAM, 0);
    if (stream < 0 || connect(stream, (struct sockaddr *)&to, sizeof to) < 0)
        fail("connect");
    if (send(stream, request, length, 0) != (ssize_t)length)
        fail("send");
    while (have < sizeof answer - 1 && (n = recv(stream, answer + have, sizeof answer - 1 - have, 0)) > 0)
        have += n;
    while (recv(stream, rest, sizeof rest, 0) > 0)
        ;
    close(stream);
    answer[have] = 0;
    return strncmp(answer, "HTTP/1.", 7) == 0 && strncmp(answer + 8, " 200 ", 5) == 0;
}

int main(int argc, char **argv) {
    static char request[65536];
    if (argc != 3)
        return 2;
    int port = atoi(argv[1]), count = atoi(argv[2]);
    size_t length = fread(request, 1, sizeof request, stdin);
    double *taken = malloc(count * sizeof *taken);
    for (int i = 0; i < count; i++) {
        double start = now();
        if (!ask(port, request, length)) {
            fprintf(stderr, "not answered by 200\n");
            return 1;
        }
        taken[i] = now() - start;
    }
    for (int i = 0; i < count; i++)
        printf("%.9f\n", taken[i]);
    return 0;
}
