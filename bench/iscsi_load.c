/* Commands over iSCSI, and next to them the same at the Unix socket of the same server, one at a time and as many at once as the window of a
 * session has; and, one at a time, those of a plain server that reads and answers as many bytes over TCP.
 *
 * iscsi_load VTL_SOCKET PORT TARGET: four drives with a volume each are asked at VTL_SOCKET and at PORT of 127.0.0.1, where any host is
 * let in; the plain server is started here. A socket of its own for each host, and no library: what is measured is the server.
 */
#include "plain_server.h"
#include <arpa/inet.h>
#include <signal.h>
#include <string.h>
#include <sys/uio.h>
#include <sys/un.h>
#include <sys/wait.h>

/* A window of a session is 32 commands. A round begins with a REWIND, so that a volume of 16 MiB isn't full before its end. */
enum { CONNECTIONS = 4, SLICES = 10, WINDOW = 32, ROOM = 4 * (BLOCK + HEADER) };
enum way { OVER_ISCSI, OVER_UNIX, PLAIN, WAYS };
enum kind { READY, WRITE, READ, KINDS };

static const char *NAMES[KINDS] = {"TEST UNIT READY", "WRITE(6), 64 KiB", "READ(6), 64 KiB"};
static const uint8_t CDBS[KINDS][6] = {{0}, {0x0a, 0, 1, 0, 0, 0}, {0x08, 0, 1, 0, 0, 0}};
static const uint8_t REWIND[6] = {1};
/* How many rounds a slice has. The servers are asked in turn, a slice each, so that each meets what else the machine does. */
static const int ROUNDS[KINDS] = {40, 10, 10};

/* A session of a host, and what has come on it and wasn't looked at. */
struct session {
    enum way way;
    int socket;
    int lun;
    uint32_t tag, command_number, status_number;
    uint8_t *in;
    size_t have, at;
};

static uint8_t block[BLOCK];

static void put_32(uint8_t *place, uint32_t number)
{
    place[0] = (uint8_t)(number >> 24), place[1] = (uint8_t)(number >> 16), place[2] = (uint8_t)(number >> 8), place[3] = (uint8_t)number;
}

static uint32_t get_32(const uint8_t *place)
{
    return (uint32_t)place[0] << 24 | (uint32_t)place[1] << 16 | (uint32_t)place[2] << 8 | place[3];
}

static void send_parts(int socket, struct iovec *parts, int count)
{
    while (count > 0) {
        ssize_t sent = writev(socket, parts, count);
        if (sent <= 0) fail("write");
        while (count > 0 && (size_t)sent >= parts->iov_len) {
            sent -= (ssize_t)parts->iov_len;
            parts++, count--;
        }
        if (count > 0) {
            parts->iov_base = (uint8_t *)parts->iov_base + sent;
            parts->iov_len -= (size_t)sent;
        }
    }
}

/* So many bytes from the place that is looked at on, more of which are read where that takes it. */
static const uint8_t *look(struct session *session, size_t count)
{
    if (session->have - session->at < count) {
        memmove(session->in, session->in + session->at, session->have - session->at);
        session->have -= session->at;
        session->at = 0;
        while (session->have < count) {
            ssize_t got = read(session->socket, session->in + session->have, ROOM - session->have);
            if (got <= 0) fail("reply");
            session->have += (size_t)got;
        }
    }
    return session->in + session->at;
}

static int connect_to_port(int port)
{
    struct sockaddr_in address = {.sin_family = AF_INET, .sin_port = htons((uint16_t)port), .sin_addr = {htonl(INADDR_LOOPBACK)}};
    int socket_of = socket(AF_INET, SOCK_STREAM, 0), one = 1;
    if (connect(socket_of, (struct sockaddr *)&address, sizeof address) != 0) fail("127.0.0.1");
    setsockopt(socket_of, IPPROTO_TCP, TCP_NODELAY, &one, sizeof one);
    return socket_of;
}

static int connect_to_path(const char *path)
{
    struct sockaddr_un address = {.sun_family = AF_UNIX};
    int socket_of = socket(AF_UNIX, SOCK_STREAM, 0);
    strncpy(address.sun_path, path, sizeof address.sun_path - 1);
    if (connect(socket_of, (struct sockaddr *)&address, sizeof address) != 0) fail(path);
    return socket_of;
}

/* REQUESTS AND REPLIES. What stands before the data of a request is made in a header of at most 48 bytes. */

static size_t iscsi_header(struct session *session, uint8_t *header, int lun, const uint8_t *cdb, int cdb_length, uint32_t out, uint32_t in)
{
    memset(header, 0, HEADER);
    header[0] = 0x01;
    header[1] = (uint8_t)(0x80 | (out ? 0x20 : 0) | (in ? 0x40 : 0));
    header[5] = (uint8_t)(out >> 16), header[6] = (uint8_t)(out >> 8), header[7] = (uint8_t)out;
    header[9] = (uint8_t)lun;
    put_32(header + 16, ++session->tag);
    put_32(header + 20, out ? out : in);
    put_32(header + 24, session->command_number++);
    put_32(header + 28, session->status_number);
    memcpy(header + 32, cdb, (size_t)cdb_length);
    return HEADER;
}

static size_t unix_header(uint8_t *header, int lun, const uint8_t *cdb, int cdb_length, uint32_t out)
{
    put_32(header, (uint32_t)(3 + cdb_length) + out);
    header[4] = 2, header[5] = (uint8_t)lun, header[6] = (uint8_t)cdb_length;
    memcpy(header + 7, cdb, (size_t)cdb_length);
    return 7 + (size_t)cdb_length;
}

static size_t header_of(struct session *session, uint8_t *header, int lun, const uint8_t *cdb, int cdb_length, uint32_t out, uint32_t in)
{
    if (session->way == OVER_ISCSI) return iscsi_header(session, header, lun, cdb, cdb_length, out, in);
    return unix_header(header, lun, cdb, cdb_length, out);
}

/* Reads a reply, and gives its status. Of iSCSI a Data-In without status comes before it, and a ping may: 32 commands may be under way. */
static int status_of_reply(struct session *session)
{
    if (session->way == OVER_UNIX) {
        uint32_t length = get_32(look(session, 4));
        const uint8_t *reply = look(session, 4 + length);
        int status = reply[5];
        session->at += 4 + length;
        return status;
    }
    for (;;) {
        const uint8_t *header = look(session, HEADER);
        uint32_t length = (uint32_t)header[5] << 16 | (uint32_t)header[6] << 8 | header[7];
        header = look(session, HEADER + ((length + 3) & ~3u));
        uint8_t opcode = header[0] & 0x3f, flags = header[1], status = header[3];
        if (opcode != 0x25 || (flags & 1)) session->status_number = get_32(header + 24) + 1;
        session->at += HEADER + ((length + 3) & ~3u);
        if (opcode == 0x21 || (opcode == 0x25 && (flags & 1))) return status;
        if (opcode != 0x25) {
            fprintf(stderr, "a PDU %02x in place of a reply\n", opcode);
            exit(1);
        }
    }
}

/* A command, and its status. */
static int ask(struct session *session, int lun, const uint8_t *cdb, int cdb_length)
{
    uint8_t header[HEADER];
    send_bytes(session->socket, header, header_of(session, header, lun, cdb, cdb_length, 0, 0));
    return status_of_reply(session);
}

/* A round of commands of one kind, of which at most so many wait for their reply. */
static void play_round(struct session *session, enum kind kind, int at_once)
{
    uint8_t headers[WINDOW][HEADER];
    struct iovec parts[2 * WINDOW];
    int sent = 0, answered = 0;
    if (ask(session, session->lun, REWIND, 6) != 0) fail("REWIND");
    while (answered < ROUND) {
        int count = 0, batch = 0;
        for (; sent < ROUND && sent - answered < at_once; sent++, batch++) {
            uint32_t out = kind == WRITE ? BLOCK : 0, in = kind == READ ? BLOCK : 0;
            parts[count++] = (struct iovec){headers[batch], header_of(session, headers[batch], session->lun, CDBS[kind], 6, out, in)};
            if (out) parts[count++] = (struct iovec){block, BLOCK};
        }
        send_parts(session->socket, parts, count);
        /* All replies that have come are taken before more is sent, half of the window at least. */
        int wanted = at_once > 1 && sent < ROUND ? at_once / 2 : sent - answered;
        while (wanted-- > 0) {
            if (status_of_reply(session) != 0) fail(NAMES[kind]);
            answered++;
        }
    }
}

static void play_plain_round(struct session *session, enum kind kind)
{
    uint32_t data = kind == WRITE ? BLOCK : 0;
    struct round sizes = {HEADER + data, (uint32_t)(HEADER + (kind == READ ? BLOCK : 0)), 0};
    uint8_t header[HEADER] = {0};
    send_bytes(session->socket, &sizes, sizeof sizes);
    for (int turn = 0; turn < ROUND; turn++) {
        struct iovec parts[2] = {{header, HEADER}, {block, data}};
        send_parts(session->socket, parts, 2);
        if (!receive_all(session->socket, session->in, sizes.reply)) fail("plain reply");
    }
}

/* LOGINS */

static void log_in_over_iscsi(struct session *session, const char *target)
{
    uint8_t pdu[1024] = {0x43, 0x87};
    int length = snprintf((char *)pdu + HEADER, sizeof pdu - HEADER,
        "InitiatorName=iqn.2026-11.example:load-%d%cTargetName=%s%cSessionType=Normal%cInitialR2T=No%cImmediateData=Yes%c"
        "MaxRecvDataSegmentLength=262144%cMaxBurstLength=262144%cFirstBurstLength=262144%cHeaderDigest=None%cDataDigest=None%c",
        session->lun, 0, target, 0, 0, 0, 0, 0, 0, 0, 0, 0);
    pdu[6] = (uint8_t)(length >> 8), pdu[7] = (uint8_t)length;
    pdu[8] = 0x80;
    pdu[13] = (uint8_t)session->lun;
    send_bytes(session->socket, pdu, HEADER + (((size_t)length + 3) & ~(size_t)3));
    const uint8_t *answer = look(session, HEADER);
    size_t data = (size_t)answer[5] << 16 | (size_t)answer[6] << 8 | answer[7];
    if (answer[0] != 0x23 || answer[1] != 0x87 || answer[36] != 0) {
        fprintf(stderr, "no login: %02x %02x, status %02x%02x\n", answer[0], answer[1], answer[36], answer[37]);
        exit(1);
    }
    session->status_number = get_32(answer + 24) + 1;
    look(session, HEADER + ((data + 3) & ~(size_t)3));
    session->at += HEADER + ((data + 3) & ~(size_t)3);
}

static void log_in_over_unix(struct session *session)
{
    const uint8_t login[15] = {0, 0, 0, 11, 1, 0x50, 0, 0, 0, 0, 0, 0, (uint8_t)(10 + session->lun), 0, 1};
    send_bytes(session->socket, login, sizeof login);
    if (look(session, 6)[5] != 0) fail("LOGIN");
    session->at += 6;
}

/* Hears what is to be told, until the unit is ready. */
static void hear(struct session *session, int lun)
{
    int turn = 0;
    while (ask(session, lun, CDBS[READY], 6) != 0)
        if (++turn == 5) fail("unit");
}

/* Puts the volume of a storage element into the drive of the session. */
static void load(struct session *session)
{
    const uint8_t move[12] = {0xa5, 0, 0, 0, 4, (uint8_t)(session->lun - 1), 1, (uint8_t)(session->lun - 1)};
    hear(session, 0);
    if (ask(session, 0, move, 12) != 0) fail("MOVE MEDIUM");
}

static struct session session_of(enum way way, int lun, int socket_of)
{
    struct session session = {.way = way, .lun = lun, .socket = socket_of, .in = malloc(ROOM)};
    if (!session.in) fail("memory");
    return session;
}

/* MEASURING */

struct host {
    struct session *session;
    enum kind kind;
    int at_once;
};

static void *play(void *given)
{
    struct host *host = given;
    for (int round = 0; round < ROUNDS[host->kind]; round++) {
        if (host->session->way == PLAIN)
            play_plain_round(host->session, host->kind);
        else
            play_round(host->session, host->kind, host->at_once);
    }
    return NULL;
}

/* How many seconds a slice takes at so many sessions. */
static double measure(struct session *sessions, int count, enum kind kind, int at_once)
{
    struct host hosts[CONNECTIONS];
    for (int place = 0; place < count; place++) hosts[place] = (struct host){&sessions[place], kind, at_once};
    return seconds_of(play, hosts, sizeof *hosts, count);
}

/* A line for a kind of commands at so many sessions, so many at once; how many a second there are over iSCSI. */
static double compare(struct session sessions[WAYS][CONNECTIONS], enum kind kind, int count, int at_once)
{
    double seconds[WAYS] = {0}, commands = (double)SLICES * count * ROUNDS[kind] * ROUND;
    for (int slice = 0; slice < SLICES; slice++)
        for (int way = OVER_ISCSI; way < WAYS; way++)
            if (way != PLAIN || at_once == 1) seconds[way] += measure(sessions[way], count, kind, at_once);
    printf("%-18s %8d %7d %9.0f %9.0f %5.0f%%", NAMES[kind], count, at_once, commands / seconds[OVER_ISCSI], commands / seconds[OVER_UNIX],
           100 * seconds[OVER_UNIX] / seconds[OVER_ISCSI]);
    if (at_once == 1) printf(" %9.0f %5.0f%%", commands / seconds[PLAIN], 100 * seconds[PLAIN] / seconds[OVER_ISCSI]);
    putchar('\n');
    return commands / seconds[OVER_ISCSI];
}

int main(int argc, char **argv)
{
    static struct session sessions[WAYS][CONNECTIONS];
    double rates[KINDS][2][2];
    if (argc != 4) return 2;
    struct sockaddr_in address = {.sin_family = AF_INET, .sin_addr = {htonl(INADDR_LOOPBACK)}};
    socklen_t size = sizeof address;
    int listener = socket(AF_INET, SOCK_STREAM, 0);
    if (bind(listener, (struct sockaddr *)&address, size) != 0 || listen(listener, 8) != 0 || getsockname(listener, (struct sockaddr *)&address, &size) != 0)
        fail("listen");
    pid_t child = fork();
    if (child == 0) serve_plainly(listener);
    for (int place = 0; place < CONNECTIONS; place++) {
        sessions[OVER_UNIX][place] = session_of(OVER_UNIX, place + 1, connect_to_path(argv[1]));
        sessions[OVER_ISCSI][place] = session_of(OVER_ISCSI, place + 1, connect_to_port(atoi(argv[2])));
        sessions[PLAIN][place] = session_of(PLAIN, place + 1, connect_to_port(ntohs(address.sin_port)));
        log_in_over_unix(&sessions[OVER_UNIX][place]);
        log_in_over_iscsi(&sessions[OVER_ISCSI][place], argv[3]);
        load(&sessions[OVER_UNIX][place]);
        hear(&sessions[OVER_UNIX][place], place + 1);
        hear(&sessions[OVER_ISCSI][place], place + 1);
    }
    setvbuf(stdout, NULL, _IOLBF, 0);
    printf("%-18s %8s %7s %9s %9s %6s %9s %6s\n", "command", "sessions", "at once", "iSCSI/s", "Unix/s", "ratio", "plain/s", "ratio");
    for (int kind = READY; kind < KINDS; kind++)
        for (int many = 0; many < 2; many++)
            for (int deep = 0; deep < 2; deep++)
                rates[kind][many][deep] = compare(sessions, (enum kind)kind, many ? CONNECTIONS : 1, deep ? WINDOW : 1);
    for (int kind = READY; kind < KINDS; kind++)
        printf("%s: four sessions have %.1f times the commands of one, %.1f times with %d at once\n", NAMES[kind],
               rates[kind][1][0] / rates[kind][0][0], rates[kind][1][1] / rates[kind][0][1], WINDOW);
    kill(child, SIGTERM);
    wait(NULL);
    return 0;
}
