/* Load client: one request after another, each with a connection of its own.
 *
 *   cc -O2 -o load load.c
 *   load PORT[,PORT..] KIND COUNT FIRST [MODULO | FILE[,FILE..]]
 *
 * Each request is sent to each server in turn before the next one is, beginning
 * with another server each time, so that what else the machine does falls on
 * all alike.
 *
 * KIND     what is sent, of the number n = FIRST, FIRST + 1, ..
 *   captive   GET /captive of device n modulo MODULO
 *   report    POST /gateway/reports for session 1 + n modulo MODULO, 1000 + n bytes
 *   sessions  GET /gateway/sessions
 *   issue     POST /desk/batches, one code, batch x<n>
 *   issue500  the same with 500 codes
 *   print     GET /desk/batches/x<n>/print; the codes are appended to FILE
 *   sale      POST /desk/sales of the code in line n of FILE
 *   redeem    POST /portal/redeem of the same, by device n
 *
 * For each port it prints one line of JSON: the kind, the errors, and the
 * tenth percentile and the median of the times in microseconds. An answer that
 * is not 200 with a body of the declared length is an error; the first goes to
 * standard error.
 */
#define _GNU_SOURCE
#include <arpa/inet.h>
#include <netinet/in.h>
#include <netinet/tcp.h>
#include <stdint.h>
#include <stdio.h>
#include <stdlib.h>
#include <string.h>
#include <sys/socket.h>
#include <time.h>
#include <unistd.h>

#define SERVERS 8
#define ROOM (8l << 20) /* of an answer */
#define DESK "Portal-Token: desk-token"
#define GATE "Portal-Token: gate-token"

struct server {
    int port;
    long errors;
    char **codes; /* the lines of its file */
    long code_count;
    FILE *sink; /* where the codes of print files go */
    uint64_t *times;
};

static struct server servers[SERVERS];
static int server_count;
static const char *kind;
static long modulo = 1;
static char answer[ROOM];

static int is(const char *name) { return !strcmp(kind, name); }

static void die(const char *what) {
    fprintf(stderr, "load: %s\n", what);
    exit(2);
}

static uint64_t now_ns(void) {
    struct timespec t;
    clock_gettime(CLOCK_MONOTONIC, &t);
    return (uint64_t)t.tv_sec * 1000000000u + (uint64_t)t.tv_nsec;
}

static int by_size(const void *a, const void *b) {
    uint64_t x = *(const uint64_t *)a, y = *(const uint64_t *)b;
    return x < y ? -1 : x > y;
}

static int get(char *out, const char *path, const char *head) {
    return sprintf(out, "GET %s HTTP/1.1\r\nHost: api\r\n%s\r\n\r\n", path, head);
}

static int post(char *out, const char *path, const char *head, const char *body) {
    return sprintf(out, "POST %s HTTP/1.1\r\nHost: api\r\n%s\r\nContent-Length: %zu\r\n\r\n%s", path, head,
                   strlen(body), body);
}

static void device(char *out, long n) {
    sprintf(out, "Portal-Device: 02:00:%02lx:%02lx:%02lx:%02lx", (n >> 24) & 255, (n >> 16) & 255,
            (n >> 8) & 255, n & 255);
}

/* Writes the request of the number n to that server; gives its length. */
static int build(char *out, const struct server *server, long n) {
    char text[256], head[64];
    if (is("captive")) {
        device(head, n % modulo);
        return get(out, "/captive", head);
    }
    if (is("sessions")) return get(out, "/gateway/sessions", GATE);
    if (is("report")) {
        sprintf(text, "{\"session\":%ld,\"bytes\":%ld}", 1 + n % modulo, 1000 + n);
        return post(out, "/gateway/reports", GATE, text);
    }
    if (is("issue") || is("issue500")) {
        sprintf(text, "{\"batch\":\"x%ld\",\"plan\":\"year\",\"count\":%d}", n, is("issue") ? 1 : 500);
        return post(out, "/desk/batches", DESK, text);
    }
    if (is("print")) {
        sprintf(text, "/desk/batches/x%ld/print", n);
        return get(out, text, DESK);
    }
    if (n >= server->code_count) die("there are fewer codes");
    sprintf(text, "{\"code\":\"%s\"}", server->codes[n]);
    if (is("sale")) return post(out, "/desk/sales", DESK, text);
    device(head, n);
    return post(out, "/portal/redeem", head, text);
}

/* Sends a request and reads the answer to its end; gives its length, or -1. */
static long talk(int port, const char *request, long length) {
    struct sockaddr_in at = {.sin_family = AF_INET, .sin_port = htons((uint16_t)port)};
    struct timeval limit = {60, 0};
    int c = socket(AF_INET, SOCK_STREAM, 0), one = 1;
    long got = 0, n = -1;
    at.sin_addr.s_addr = htonl(INADDR_LOOPBACK);
    setsockopt(c, IPPROTO_TCP, TCP_NODELAY, &one, sizeof one);
    setsockopt(c, SOL_SOCKET, SO_RCVTIMEO, &limit, sizeof limit);
    if (!connect(c, (struct sockaddr *)&at, sizeof at) &&
        send(c, request, (size_t)length, MSG_NOSIGNAL) == length)
        while (got < ROOM - 1 && (n = read(c, answer + got, (size_t)(ROOM - 1 - got))) > 0) got += n;
    close(c);
    answer[got] = 0;
    return n ? -1 : got;
}

/* Where the body begins, or null: not 200, or cut off. */
static char *body_of(long length) {
    if (length < 13 || strncmp(answer, "HTTP/1.1 200 ", 13)) return 0;
    char *end = strstr(answer, "\r\n\r\n"), *said = strcasestr(answer, "content-length:");
    if (!end || !said || said > end || atol(said + 15) != length - (end + 4 - answer)) return 0;
    return end + 4;
}

static void keep_codes(FILE *sink, const char *body) {
    for (const char *line = strchr(body, '\n'); line && line[1]; line = strchr(line + 1, '\n'))
        fprintf(sink, "%.*s\n", (int)strcspn(line + 1, ","), line + 1);
}

static void ask(struct server *server, long n, uint64_t *took) {
    char request[1024];
    int length = build(request, server, n);
    uint64_t begun = now_ns();
    long got = talk(server->port, request, length);
    *took = now_ns() - begun;
    char *body = body_of(got);
    if (!body && !server->errors++)
        fprintf(stderr, "load: port %d, %s %ld: %.300s\n", server->port, kind, n, answer);
    if (body && server->sink) keep_codes(server->sink, body);
}

static void read_codes(struct server *server, const char *path) {
    FILE *file = fopen(path, "r");
    char line[64];
    if (!file) die(path);
    for (long room = 0; fgets(line, sizeof line, file); server->code_count++) {
        if (server->code_count == room)
            server->codes = realloc(server->codes, sizeof(char *) * (size_t)(room += 65536));
        if (!server->codes) die("memory");
        line[strcspn(line, "\n")] = 0;
        server->codes[server->code_count] = strdup(line);
    }
    fclose(file);
}

/* The last argument: a number, or a file for each server. */
static void read_last(char *word) {
    if (is("captive") || is("report")) {
        if ((modulo = atol(word)) < 1) die("the modulo is less than 1");
        return;
    }
    char *path = strtok(word, ",");
    for (int s = 0; s < server_count && path; s++, path = strtok(0, ",")) {
        if (!is("print")) read_codes(&servers[s], path);
        else if (!(servers[s].sink = fopen(path, "a"))) die(path);
    }
}

int main(int argc, char **argv) {
    if (argc < 5) die("load PORT[,PORT..] KIND COUNT FIRST [MODULO | FILE[,FILE..]]");
    long count = atol(argv[3]), first = atol(argv[4]), errors = 0;
    kind = argv[2];
    for (char *p = strtok(argv[1], ","); p && server_count < SERVERS; p = strtok(0, ",")) {
        servers[server_count].port = atoi(p);
        servers[server_count++].times = calloc((size_t)count, sizeof(uint64_t));
    }
    if (count < 1 || !server_count) die("nothing to do");
    if (argc > 5) read_last(argv[5]);
    for (long i = 0; i < count; i++)
        for (int k = 0; k < server_count; k++) {
            struct server *server = &servers[(i + k) % server_count];
            ask(server, first + i, &server->times[i]);
        }
    for (int s = 0; s < server_count; s++) {
        uint64_t *times = servers[s].times;
        qsort(times, (size_t)count, sizeof *times, by_size);
        printf("{\"kind\":\"%s\",\"errors\":%ld,\"p10\":%.1f,\"median\":%.1f}\n", kind, servers[s].errors,
               (double)times[(count - 1) / 10] / 1e3, (double)times[(count - 1) / 2] / 1e3);
        if (servers[s].sink) fclose(servers[s].sink);
        errors += servers[s].errors;
    }
    return errors > 0;
}
