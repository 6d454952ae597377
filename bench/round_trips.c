/* Round trips at `vtl serve` and, next to them, of a plain server that reads as many bytes and answers as many, also where it keeps blocks.
 *
 * round_trips VTL_SOCKET PLAIN_SOCKET [threads | plots DIRECTORY]: four drives with a volume each are asked at VTL_SOCKET; the plain server
 * is started here. With `threads` it tells what connections gain together: one, two and four, each at a drive of its own, all at
 * one drive, and at the plain server; and next to them what threads gain that only count. With `plots` it writes what is drawn into files:
 * `connections` has how many there are, and the TEST UNIT READYs a second of both servers; `blocks` has bytes a block, and the MiB a
 * second of WRITE(6) and of READ(6), of both. Blocks go up to 1 MiB, so the library has to be one for hosts.
 */
#include "plain_server.h"
#include <signal.h>
#include <string.h>
#include <sys/un.h>
#include <sys/wait.h>

/* Between two REWINDs of any host at one drive there are at most as many commands as all of them have in a round: so many blocks it needs. */
enum { HEAD = 15, CONNECTIONS = 4, SLICES = 10, ALL_BLOCKS = CONNECTIONS * ROUND };

static struct sockaddr_un address_of(const char *path)
{
    struct sockaddr_un address = {.sun_family = AF_UNIX};
    strncpy(address.sun_path, path, sizeof address.sun_path - 1);
    return address;
}

static int connect_to(const char *path)
{
    struct sockaddr_un address = address_of(path);
    int socket_of = socket(AF_UNIX, SOCK_STREAM, 0);
    if (connect(socket_of, (struct sockaddr *)&address, sizeof address) != 0) fail(path);
    return socket_of;
}

/* THE HOSTS */

enum kind { READY, WRITE, READ };
enum way { OWN_DRIVES, ONE_DRIVE, PLAIN, WAYS, KEEPING };

struct host {
    int socket;
    int lun;
    enum kind kind;
    int rounds;
    enum way way;
    uint32_t block;
};

static size_t frame(uint8_t *out, int lun, const uint8_t *cdb, int cdb_length, size_t data)
{
    uint32_t body = (uint32_t)(3 + (size_t)cdb_length + data);
    out[0] = (uint8_t)(body >> 24), out[1] = (uint8_t)(body >> 16), out[2] = (uint8_t)(body >> 8), out[3] = (uint8_t)body;
    out[4] = 2, out[5] = (uint8_t)lun, out[6] = (uint8_t)cdb_length;
    memcpy(out + 7, cdb, (size_t)cdb_length);
    return 7 + (size_t)cdb_length + data;
}

/* One command, and its status. */
static int ask(int socket_of, uint8_t *out, size_t length, uint8_t *in)
{
    send_bytes(socket_of, out, length);
    if (!receive_all(socket_of, in, 4)) fail("reply");
    uint32_t body = (uint32_t)in[0] << 24 | (uint32_t)in[1] << 16 | (uint32_t)in[2] << 8 | in[3];
    if (!receive_all(socket_of, in, body)) fail("reply");
    return in[1];
}

static const uint8_t CODES[3] = {0x00, 0x0a, 0x08};

/* A command of six bytes that transfers a block, or none for TEST UNIT READY. */
static size_t frame_of(uint8_t *out, int lun, enum kind kind, uint32_t block)
{
    uint32_t asked = kind == READY ? 0 : block;
    uint8_t cdb[6] = {CODES[kind], 0, (uint8_t)(asked >> 16), (uint8_t)(asked >> 8), (uint8_t)asked, 0};
    return frame(out, lun, cdb, 6, kind == WRITE ? block : 0);
}

static void *play(void *given)
{
    struct host *host = given;
    uint8_t *out = calloc(1, host->block + 64), *in = calloc(1, host->block + 64), rewind_to[16];
    size_t length = frame_of(out, host->lun, host->kind, host->block);
    size_t rewinding = frame(rewind_to, host->lun, (const uint8_t[6]){1}, 6, 0);
    int is_plain = host->way == PLAIN || host->way == KEEPING;
    struct round sizes = {(uint32_t)length, (uint32_t)(HEAD + (host->kind == READ ? host->block : 0)), host->way == KEEPING};
    for (int round = 0; round < host->rounds; round++) {
        if (is_plain)
            send_bytes(host->socket, &sizes, sizeof sizes);
        else if (ask(host->socket, rewind_to, rewinding, in) != 0)
            fail("REWIND");
        for (int turn = 0; turn < ROUND; turn++) {
            if (is_plain) {
                send_bytes(host->socket, out, length);
                if (!receive_all(host->socket, in, sizes.reply)) fail("plain reply");
            } else if (ask(host->socket, out, length, in) != 0) {
                fail("command");
            }
        }
    }
    free(out);
    free(in);
    return NULL;
}

/* Logs in, puts a volume into the host's drive, and hears what is to be told there and at the first drive. */
static void prepare(int socket_of, int place)
{
    uint8_t out[64], in[256];
    uint8_t login[15] = {0, 0, 0, 11, 1, 0x50, 0, 0, 0, 0, 0, 0, (uint8_t)(10 + place), 0, 1};
    uint8_t move[12] = {0xa5, 0, 0, 0, 4, (uint8_t)place, 1, (uint8_t)place};
    send_bytes(socket_of, login, sizeof login);
    if (!receive_all(socket_of, in, 6) || in[5] != 0) fail("LOGIN");
    for (int turn = 0; turn < 2; turn++) ask(socket_of, out, frame(out, 0, move, 12, 0), in);
    for (int turn = 0; turn < 3; turn++) ask(socket_of, out, frame_of(out, 1, READY, 0), in);
    for (int turn = 0; turn < 3; turn++) ask(socket_of, out, frame_of(out, place + 1, READY, 0), in);
    if (in[1] != 0) fail("drive");
}

/* Writes as many blocks to the first drive as are read there without a REWIND. */
static void fill(int socket_of)
{
    uint8_t *out = calloc(1, BLOCK + 64), in[64];
    if (ask(socket_of, out, frame(out, 1, (const uint8_t[6]){1}, 6, 0), in) != 0) fail("REWIND");
    size_t length = frame_of(out, 1, WRITE, BLOCK);
    for (int block = 0; block < ALL_BLOCKS; block++) {
        if (ask(socket_of, out, length, in) != 0) fail("WRITE to the first drive");
    }
    free(out);
}

/* How many seconds so many rounds at each connection take. */
static double measure(int *sockets, int count, enum kind kind, int rounds, enum way way)
{
    struct host hosts[CONNECTIONS];
    for (int place = 0; place < count; place++) {
        int lun = way == ONE_DRIVE ? 1 : place + 1;
        hosts[place] = (struct host){sockets[place], lun, kind, rounds, way, BLOCK};
    }
    return seconds_of(play, hosts, sizeof *hosts, count);
}

static const char *NAMES[3] = {"TEST UNIT READY", "WRITE(6), 64 KiB", "READ(6), 64 KiB"};
/* How many rounds a slice has. The servers and the ways are asked in turn, a slice each, so that all meet what else the machine does. */
static const int ROUNDS[3] = {40, 10, 10};

/* Round trips a second of the servers, from one connection and from four. */
static void tell_ratios(int *ours, int *plain)
{
    printf("%-18s %11s %10s %10s %6s %10s %6s\n", "command", "connections", "ours/s", "plain/s", "ratio", "keeping/s", "ratio");
    for (int kind = READY; kind <= READ; kind++) {
        for (int count = 1; count <= CONNECTIONS; count *= 4) {
            double theirs = 0, keeping = 0, mine = 0, trips = (double)SLICES * count * ROUNDS[kind] * ROUND;
            for (int slice = 0; slice < SLICES; slice++) {
                theirs += measure(plain, count, (enum kind)kind, ROUNDS[kind], PLAIN);
                mine += measure(ours, count, (enum kind)kind, ROUNDS[kind], OWN_DRIVES);
                keeping += measure(plain, count, (enum kind)kind, ROUNDS[kind], KEEPING);
            }
            printf("%-18s %11d %10.0f %10.0f %5.0f%% %10.0f %5.0f%%\n", NAMES[kind], count, trips / mine, trips / theirs,
                   100 * theirs / mine, trips / keeping, 100 * keeping / mine);
        }
    }
}

/* THREADS */

/* No memory but a register's worth. */
static void *count_turns(void *given)
{
    for (int turn = 0; turn < *(int *)given; turn++) {
        for (int step = 0; step < 1000; step++) __asm__ volatile("" :::);
    }
    return NULL;
}

/* Prints what each of so many turns or commands took over all threads, and how many times those of one thread there were. */
static void tell_gains(const char *what, const char *way, const double *seconds, double turns)
{
    for (int at = 0; at < 3; at++) {
        double each = 1e6 * seconds[at] / (turns * (1 << at)), alone = 1e6 * seconds[0] / turns;
        printf("%-18s %-12s %11d %12.2f %6.2f\n", what, way, 1 << at, each, alone / each);
    }
}

/* What one, two and four connections have, the way they are asked, in microseconds. */
static void tell_threads(int *ours, int *plain)
{
    static const char *ways[WAYS] = {"own drives", "one drive", "plain server"};
    int turns[CONNECTIONS] = {20000, 20000, 20000, 20000};
    double counting[3] = {0};
    printf("%-18s %-12s %11s %12s %6s\n", "command", "way", "connections", "microseconds", "times");
    for (int slice = 0; slice < SLICES; slice++) {
        for (int at = 0; at < 3; at++) counting[at] += seconds_of(count_turns, turns, sizeof *turns, 1 << at);
    }
    tell_gains("a thousand steps", "threads", counting, (double)SLICES * turns[0]);
    for (int kind = READY; kind <= READ; kind++) {
        double seconds[WAYS][3] = {{0}};
        if (kind == READ) fill(ours[0]);
        for (int slice = 0; slice < SLICES; slice++) {
            for (int way = 0; way < WAYS; way++) {
                for (int at = 0; at < 3; at++)
                    seconds[way][at] += measure(way == PLAIN ? plain : ours, 1 << at, (enum kind)kind, ROUNDS[kind], (enum way)way);
            }
        }
        for (int way = 0; way < WAYS; way++) tell_gains(NAMES[kind], ways[way], seconds[way], (double)SLICES * ROUNDS[kind] * ROUND);
    }
}

/* PLOTS */

static FILE *file_in(const char *directory, const char *name)
{
    char path[4096];
    snprintf(path, sizeof path, "%s/%s", directory, name);
    FILE *file = fopen(path, "w");
    if (file == NULL) fail(path);
    return file;
}

static void write_connections(int *ours, int *plain, const char *directory)
{
    FILE *file = file_in(directory, "connections");
    for (int count = 1; count <= CONNECTIONS; count++) {
        double theirs = 0, mine = 0, trips = (double)SLICES * count * ROUNDS[READY] * ROUND;
        for (int slice = 0; slice < SLICES; slice++) {
            theirs += measure(plain, count, READY, ROUNDS[READY], PLAIN);
            mine += measure(ours, count, READY, ROUNDS[READY], OWN_DRIVES);
        }
        fprintf(file, "%d %.0f %.0f\n", count, trips / mine, trips / theirs);
    }
    fclose(file);
}

/* MiB a second of one connection, in a round for each slice. */
static void write_blocks(int ours, int plain, const char *directory)
{
    FILE *file = file_in(directory, "blocks");
    for (uint32_t block = 512; block <= MOST_BLOCK; block *= 2) {
        double mebibytes = (double)SLICES * ROUND * block / (1 << 20);
        fprintf(file, "%u", block);
        for (int kind = WRITE; kind <= READ; kind++) {
            double theirs = 0, mine = 0;
            struct host host = {ours, 1, (enum kind)kind, 1, OWN_DRIVES, block}, plain_host = {plain, 1, (enum kind)kind, 1, PLAIN, block};
            for (int slice = 0; slice < SLICES; slice++) {
                theirs += seconds_of(play, &plain_host, sizeof plain_host, 1);
                mine += seconds_of(play, &host, sizeof host, 1);
            }
            fprintf(file, " %.1f %.1f", mebibytes / mine, mebibytes / theirs);
        }
        fprintf(file, "\n");
    }
    fclose(file);
}

int main(int argc, char **argv)
{
    int ours[CONNECTIONS], plain[CONNECTIONS];
    int is_threads = argc == 4 && strcmp(argv[3], "threads") == 0, is_plots = argc == 5 && strcmp(argv[3], "plots") == 0;
    if (argc != 3 && !is_threads && !is_plots) return 2;
    struct sockaddr_un address = address_of(argv[2]);
    int listener = socket(AF_UNIX, SOCK_STREAM, 0);
    if (bind(listener, (struct sockaddr *)&address, sizeof address) != 0 || listen(listener, 8) != 0) fail(argv[2]);
    pid_t child = fork();
    if (child == 0) serve_plainly(listener);
    for (int place = 0; place < CONNECTIONS; place++) {
        ours[place] = connect_to(argv[1]);
        prepare(ours[place], place);
        plain[place] = connect_to(argv[2]);
    }
    if (is_threads)
        tell_threads(ours, plain);
    else if (is_plots) {
        write_connections(ours, plain, argv[4]);
        write_blocks(ours[0], plain[0], argv[4]);
    } else
        tell_ratios(ours, plain);
    for (int place = 0; place < CONNECTIONS; place++) {
        uint8_t in[16];
        send_bytes(ours[place], (const uint8_t[5]){0, 0, 0, 1, 4}, 5);
        receive_all(ours[place], in, 5);
        close(ours[place]);
    }
    kill(child, 15);
    wait(NULL);
    return 0;
}
