/* tls_clients PEER CLIENTS SECONDS PORT [CA CERT]: each client, a thread with a connection of its own to 127.0.0.1, takes and releases
 * one lock, again and again, without a pause: of `wozgirt`, or of `etcd` by its JSON gateway. With CA and CERT (a certificate and its
 * key in one file) it speaks TLS, by OpenSSL, else TCP. Prints hand-overs a second and how long an acquire takes, from when each client
 * was granted the lock once. A fault ends it: this program is for bench/tls.py. */
#include <arpa/inet.h>
#include <netinet/tcp.h>
#include <openssl/ssl.h>
#include <pthread.h>
#include <stdatomic.h>
#include <stdint.h>
#include <stdio.h>
#include <stdlib.h>
#include <string.h>
#include <time.h>
#include <unistd.h>

enum { ROOM = 4096, REST = 256, MOST = 1 << 20 };

struct client {
    pthread_t thread;
    int socket, number;
    SSL *tls;
    char text[ROOM];
    size_t length;
    uint32_t *times, count;
};

static atomic_int away, is_measured, is_over;
static int port, is_etcd;
static SSL_CTX *context;

static void fail(const char *what)
{
    fprintf(stderr, "tls_clients: %s\n", what);
    exit(1);
}

static double now(void)
{
    struct timespec time;
    clock_gettime(CLOCK_MONOTONIC, &time);
    return (double)time.tv_sec + (double)time.tv_nsec / 1e9;
}

static void open_client(struct client *it)
{
    const int yes = 1;
    struct sockaddr_in address = {.sin_family = AF_INET, .sin_port = htons((uint16_t)port)};
    address.sin_addr.s_addr = htonl(INADDR_LOOPBACK);
    it->socket = socket(AF_INET, SOCK_STREAM, 0);
    if (connect(it->socket, (struct sockaddr *)&address, sizeof address) != 0)
        fail("no connection");
    setsockopt(it->socket, IPPROTO_TCP, TCP_NODELAY, &yes, sizeof yes);
    if (context && (!(it->tls = SSL_new(context)) || !SSL_set_fd(it->tls, it->socket) || SSL_connect(it->tls) != 1))
        fail("no TLS");
}

static void say(struct client *it, const char *text, size_t length)
{
    long sent = it->tls ? SSL_write(it->tls, text, (int)length) : write(it->socket, text, length);
    if (sent != (long)length)
        fail("nothing is taken");
}

static void read_more(struct client *it)
{
    size_t room = ROOM - 1 - it->length;
    long got = it->tls ? SSL_read(it->tls, it->text + it->length, (int)room) : read(it->socket, it->text + it->length, room);
    if (got <= 0)
        fail("the connection is over");
    it->length += (size_t)got;
    it->text[it->length] = '\0';
}

/* Reads until there is this text; where it is. */
static char *hear(struct client *it, const char *text)
{
    char *found;
    while (!(found = strstr(it->text, text)))
        read_more(it);
    return found;
}

static void drop(struct client *it, const char *until)
{
    it->length -= (size_t)(until - it->text);
    memmove(it->text, until, it->length + 1);
}

/* Asks, and keeps what follows the word in the line of the answer that has it. */
static void ask_wozgirt(struct client *it, const char *line, const char *word, char *rest)
{
    say(it, line, strlen(line));
    while (!strchr(hear(it, word), '\n'))
        read_more(it);
    char *found = strstr(it->text, word) + strlen(word), *end = strchr(found, '\n');
    if (rest)
        snprintf(rest, REST, "%.*s", (int)(end - found), found);
    drop(it, end + 1);
}

/* Posts, and keeps what the field of the answer has. */
static void ask_etcd(struct client *it, const char *path, const char *body, const char *field, char *rest)
{
    char text[ROOM];
    int length = snprintf(text, sizeof text, "POST /v3/%s HTTP/1.1\r\nHost: x\r\nContent-Type: application/json\r\nContent-Length: %d\r\n\r\n%s",
                          path, (int)strlen(body), body);
    say(it, text, (size_t)length);
    size_t whole = (size_t)(hear(it, "\r\n\r\n") + 4 - it->text);
    char *size = strstr(it->text, "Content-Length: "), *found;
    if (size)
        whole += strtoul(size + strlen("Content-Length: "), NULL, 10);
    else
        whole = (size_t)(hear(it, "\r\n0\r\n\r\n") + 7 - it->text);
    while (it->length < whole)
        read_more(it);
    if (field && !(found = strstr(it->text, field)))
        fail(it->text);
    if (field)
        snprintf(rest, REST, "%.*s", (int)strcspn(found + strlen(field), "\""), found + strlen(field));
    drop(it, it->text + whole);
}

static void work_once(struct client *it, const char *lease, double *took)
{
    char value[REST], line[1024];
    double begun = now();
    if (is_etcd) {
        snprintf(line, sizeof line, "{\"name\":\"bG9jaw==\",\"lease\":\"%s\"}", lease);
        ask_etcd(it, "lock/lock", line, "\"key\":\"", value);
        *took = now() - begun;
        snprintf(line, sizeof line, "{\"key\":\"%s\"}", value);
        ask_etcd(it, "lock/unlock", line, NULL, NULL);
    } else {
        ask_wozgirt(it, "acquire a 7\n", "granted a ", value);
        *took = now() - begun;
        snprintf(line, sizeof line, "release a %s\n", value);
        ask_wozgirt(it, line, "released a", NULL);
    }
}

static void *work(void *given)
{
    struct client *it = given;
    char lease[REST] = "";
    int is_new = 1;
    double took;
    open_client(it);
    if (is_etcd)
        ask_etcd(it, "lease/grant", "{\"TTL\":600}", "\"ID\":\"", lease);
    while (!is_over) {
        int counts = is_measured;
        work_once(it, lease, &took);
        away -= is_new;
        is_new = 0;
        if (counts && it->count < MOST)
            it->times[it->count++] = (uint32_t)(took * 1e7);
    }
    return NULL;
}

static int compare(const void *one, const void *other)
{
    uint32_t a = *(const uint32_t *)one, b = *(const uint32_t *)other;
    return (a > b) - (a < b);
}

static void print_summary(struct client *clients, int count, double took)
{
    size_t all = 0;
    uint32_t *times = malloc(sizeof *times * MOST * (size_t)count);
    for (int i = 0; i < count; i++) {
        memcpy(times + all, clients[i].times, sizeof *times * clients[i].count);
        all += clients[i].count;
    }
    if (!all)
        fail("nothing was granted");
    qsort(times, all, sizeof *times, compare);
    printf("handovers/s %.0f p50_us %.1f p99_us %.1f\n", (double)all / took, times[all / 2] / 10.0, times[all * 99 / 100] / 10.0);
}

int main(int count, char **words)
{
    if (count != 5 && count != 7)
        fail("PEER CLIENTS SECONDS PORT [CA CERT]");
    int clients = atoi(words[2]);
    struct client *all = calloc((size_t)clients, sizeof *all);
    is_etcd = strcmp(words[1], "etcd") == 0;
    port = atoi(words[4]);
    if (count == 7) {
        context = SSL_CTX_new(TLS_client_method());
        SSL_CTX_set_verify(context, SSL_VERIFY_PEER, NULL);
        SSL_CTX_set_read_ahead(context, 1); /* a record in one read */
        if (!SSL_CTX_load_verify_locations(context, words[5], NULL) || SSL_CTX_use_certificate_file(context, words[6], SSL_FILETYPE_PEM) != 1 ||
            SSL_CTX_use_PrivateKey_file(context, words[6], SSL_FILETYPE_PEM) != 1)
            fail("a wrong certificate");
    }
    away = clients;
    for (int i = 0; i < clients; i++) {
        all[i].times = malloc(sizeof *all[i].times * MOST);
        if (!all[i].times || pthread_create(&all[i].thread, NULL, work, &all[i]) != 0)
            fail("no thread");
    }
    while (away > 0)
        usleep(1000);
    double begun = now();
    is_measured = 1;
    usleep((useconds_t)(atof(words[3]) * 1e6));
    is_over = 1;
    for (int i = 0; i < clients; i++)
        pthread_join(all[i].thread, NULL);
    print_summary(all, clients, now() - begun);
    return 0;
}
