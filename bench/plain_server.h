/* A plain server to compare `vtl serve` with, over any stream sockets: how many bytes a request and a reply have comes first, each in four
 * bytes, then whether it keeps blocks, and then a round of them. One that keeps blocks copies each into memory, or from there, as the least
 * that a library does which has tapes in memory. And what its hosts share. */
#include <netinet/in.h>
#include <netinet/tcp.h>
#include <pthread.h>
#include <stdint.h>
#include <stdio.h>
#include <stdlib.h>
#include <string.h>
#include <sys/socket.h>
#include <time.h>
#include <unistd.h>

enum { BLOCK = 65536, MOST_BLOCK = 1 << 20, HEADER = 48, ROUND = 200 };

/* How many bytes each request and each reply of a round has, and whether blocks of BLOCK bytes are kept. */
struct round {
    uint32_t request, reply, keeps;
};

static void fail(const char *what)
{
    perror(what);
    exit(1);
}

static void send_bytes(int socket, const void *bytes, size_t count)
{
    while (count > 0) {
        ssize_t sent = write(socket, bytes, count);
        if (sent <= 0) fail("write");
        bytes = (const uint8_t *)bytes + sent;
        count -= (size_t)sent;
    }
}

/* 0 at the end of the stream. */
static int receive_all(int socket, uint8_t *bytes, size_t count)
{
    while (count > 0) {
        ssize_t got = read(socket, bytes, count);
        if (got < 0) fail("read");
        if (got == 0) return 0;
        bytes += got;
        count -= (size_t)got;
    }
    return 1;
}

static void *answer_plainly(void *given)
{
    int socket_of = *(int *)given;
    struct round round;
    uint8_t *bytes = calloc(1, MOST_BLOCK + HEADER), *kept = calloc(ROUND, BLOCK);
    free(given);
    while (receive_all(socket_of, (uint8_t *)&round, sizeof round)) {
        for (int turn = 0; turn < ROUND; turn++) {
            uint8_t *place = kept + (size_t)turn * BLOCK;
            if (!receive_all(socket_of, bytes, round.request)) break;
            if (round.keeps && round.request > BLOCK) memcpy(place, bytes + round.request - BLOCK, BLOCK);
            if (round.keeps && round.reply > BLOCK) memcpy(bytes + round.reply - BLOCK, place, BLOCK);
            send_bytes(socket_of, bytes, round.reply);
        }
    }
    close(socket_of);
    free(bytes);
    free(kept);
    return NULL;
}

static void serve_plainly(int listener)
{
    for (;;) {
        int *connection = malloc(sizeof *connection), one = 1;
        pthread_t thread;
        *connection = accept(listener, NULL, NULL);
        if (*connection < 0) fail("accept");
        /* A Unix socket refuses that, and has no need of it. */
        setsockopt(*connection, IPPROTO_TCP, TCP_NODELAY, &one, sizeof one);
        pthread_create(&thread, NULL, answer_plainly, connection);
        pthread_detach(thread);
    }
}

/* How many seconds it takes that so many hosts, of a size, have played, each in a thread of its own. */
static double seconds_of(void *(*play)(void *), void *hosts, size_t size, int count)
{
    pthread_t threads[16];
    struct timespec start, end;
    clock_gettime(CLOCK_MONOTONIC, &start);
    for (int place = 0; place < count; place++) pthread_create(&threads[place], NULL, play, (char *)hosts + size * (size_t)place);
    for (int place = 0; place < count; place++) pthread_join(threads[place], NULL);
    clock_gettime(CLOCK_MONOTONIC, &end);
    return (double)(end.tv_sec - start.tv_sec) + 1e-9 * (double)(end.tv_nsec - start.tv_nsec);
}
