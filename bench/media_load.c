/* Writes a volume full of 64 KiB blocks at `vtl serve`, reads it and spaces over it.
 *
 * media_load SOCKET GIB: the volume of the first storage element is moved into the drive. Prints a line of figures.
 */
#include <stdint.h>
#include <stdio.h>
#include <stdlib.h>
#include <string.h>
#include <sys/socket.h>
#include <sys/un.h>
#include <time.h>
#include <unistd.h>

enum { BLOCK = 65536, HEAD = 15 };

static void fail(const char *what)
{
    perror(what);
    exit(1);
}

static double now(void)
{
    struct timespec at;
    clock_gettime(CLOCK_MONOTONIC, &at);
    return (double)at.tv_sec + (double)at.tv_nsec / 1e9;
}

static void transfer(int socket_of, uint8_t *bytes, size_t length, int sends)
{
    while (length > 0) {
        ssize_t done = sends ? write(socket_of, bytes, length) : read(socket_of, bytes, length);
        if (done <= 0) fail(sends ? "write" : "read");
        bytes += done, length -= (size_t)done;
    }
}

static uint8_t out[HEAD + BLOCK + 16], in[HEAD + BLOCK + 64];

/* One command with the data that stand behind its frame's head; its status. Unit attentions are passed over. */
static int ask(int socket_of, int lun, const uint8_t *cdb, int cdb_length, size_t data)
{
    uint32_t body = (uint32_t)(3 + (size_t)cdb_length + data);
    uint8_t head[HEAD + 16] = {(uint8_t)(body >> 24), (uint8_t)(body >> 16), (uint8_t)(body >> 8), (uint8_t)body, 2, (uint8_t)lun, (uint8_t)cdb_length};
    memcpy(head + 7, cdb, (size_t)cdb_length);
    size_t length = 7 + (size_t)cdb_length;
    memmove(out, head, length);
    for (int turn = 0; turn < 4; turn++) {
        transfer(socket_of, out, length + data, 1);
        transfer(socket_of, in, 4, 0);
        uint32_t answer = (uint32_t)in[0] << 24 | (uint32_t)in[1] << 16 | (uint32_t)in[2] << 8 | in[3];
        transfer(socket_of, in, answer, 0);
        if (in[1] != 2 || (in[5] & 15) != 6) return in[1];
    }
    return 2;
}

/* So many commands, how long they took, and the longest of them. */
static void measure(int socket_of, const char *name, const uint8_t *cdb, size_t data, long count)
{
    double longest = 0, begun = now();
    for (long i = 0; i < count; i++) {
        double at = now();
        if (data) out[13] = (uint8_t)i;
        if (ask(socket_of, 1, cdb, 6, data) != 0) fail(name);
        double took = now() - at;
        if (took > longest) longest = took;
    }
    double seconds = now() - begun;
    printf("  %s: %.0f MiB/s, longest %.1f ms\n", name, (double)count / 16 / seconds, longest * 1e3);
}

int main(int argc, char **argv)
{
    if (argc != 3) return 2;
    struct sockaddr_un address = {.sun_family = AF_UNIX};
    strncpy(address.sun_path, argv[1], sizeof address.sun_path - 1);
    int socket_of = socket(AF_UNIX, SOCK_STREAM, 0);
    if (connect(socket_of, (struct sockaddr *)&address, sizeof address) != 0) fail(argv[1]);
    uint8_t login[15] = {0, 0, 0, 11, 1, 0x50, 0, 0, 0, 0, 0, 0, 10, 0, 1};
    transfer(socket_of, login, sizeof login, 1);
    transfer(socket_of, in, 6, 0);
    uint8_t move[12] = {0xa5, 0, 0, 0, 4, 0, 1, 0};
    uint8_t write_block[6] = {0x0a, 0, 1, 0, 0, 0}, read_block[6] = {0x08, 0, 1, 0, 0, 0};
    uint8_t mark[6] = {0x10, 0, 0, 0, 1, 0}, rewind_it[6] = {0x01}, space[6] = {0x11, 0};
    if (ask(socket_of, 0, move, 12, 0) != 0) fail("move");
    memset(out, 0x55, sizeof out);
    long count = strtol(argv[2], NULL, 10) * 16384;
    measure(socket_of, "WRITE of 64 KiB", write_block, BLOCK, count);
    double at = now();
    if (ask(socket_of, 1, mark, 6, 0) != 0) fail("mark");
    printf("  WRITE FILEMARKS behind them: %.0f ms\n", (now() - at) * 1e3);
    if (ask(socket_of, 1, rewind_it, 6, 0) != 0) fail("rewind");
    measure(socket_of, "READ of 64 KiB", read_block, 0, count);
    if (ask(socket_of, 1, rewind_it, 6, 0) != 0) fail("rewind");
    space[2] = (uint8_t)(count >> 16), space[3] = (uint8_t)(count >> 8), space[4] = (uint8_t)count;
    at = now();
    if (ask(socket_of, 1, space, 6, 0) != 0) fail("space");
    printf("  SPACE over all blocks: %.1f ms\n", (now() - at) * 1e3);
    return 0;
}
