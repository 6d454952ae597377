/* Two hosts at `vtl serve --iscsi`, by libiscsi: A and B share one drive by persistent reservations, and write and read blocks, by data that
 * are immediate, unsolicited and asked for. A line for each step says what was answered, as status, sense data and data; what is right is
 * trials/iscsi.sh's to say. Status 1 where a session isn't there, or a block isn't what was written.
 *
 * iscsi_host PORTAL TARGET: the hosts, where A, B and none else are let in.
 * iscsi_host PORTAL TARGET chap: logins alone, where A's user is `anna` and its secret `secret-of-host-a`, B's `bert` and `secret-of-host-b`,
 * and the target's towards A `library` and `secret-of-target`.
 */
#include <iscsi/iscsi.h>
#include <iscsi/scsi-lowlevel.h>
#include <poll.h>
#include <stdint.h>
#include <stdio.h>
#include <stdlib.h>
#include <string.h>

enum { LONGEST = 65536, CHANGER = 0, DRIVE = 1, NO_UNIT = 9, AT_ONCE = 100 };
enum action { REGISTER, RESERVE, RELEASE, PREEMPT_AND_ABORT = 5 };
enum { WRITE_EXCLUSIVE = 1, EXCLUSIVE_ACCESS = 3 };

static const char HOST_A[] = "iqn.2026-11.example:a", HOST_B[] = "iqn.2026-11.example:b", STRANGER[] = "iqn.2026-11.example:stranger";
/* As many as a drive takes in one block, and fewer; each is written by one command. */
static const uint32_t SIZES[] = {16, 4096, 65535, LONGEST};
enum { BLOCKS = sizeof SIZES / sizeof SIZES[0] };

struct host {
    const char *letter;
    struct iscsi_context *iscsi;
};

static const char *portal, *target;
static uint8_t out[LONGEST + 1], in[LONGEST + 1];
static int is_wrong;

static void fail(const char *what, struct iscsi_context *iscsi)
{
    fprintf(stderr, "iscsi_host: %s: %s\n", what, iscsi ? iscsi_get_error(iscsi) : "want of memory");
    exit(1);
}

static struct iscsi_context *context_of(const char *name, int is_immediate, int is_asked_for)
{
    struct iscsi_context *iscsi = iscsi_create_context(name);
    if (!iscsi) fail(name, NULL);
    iscsi_set_targetname(iscsi, target);
    iscsi_set_session_type(iscsi, ISCSI_SESSION_NORMAL);
    iscsi_set_immediate_data(iscsi, is_immediate ? ISCSI_IMMEDIATE_DATA_YES : ISCSI_IMMEDIATE_DATA_NO);
    iscsi_set_initial_r2t(iscsi, is_asked_for ? ISCSI_INITIAL_R2T_YES : ISCSI_INITIAL_R2T_NO);
    iscsi_set_noautoreconnect(iscsi, 1);
    /* Seconds, so that an answer that never comes is seen. */
    iscsi_set_timeout(iscsi, 60);
    return iscsi;
}

static int lets_in(struct iscsi_context *iscsi)
{
    return iscsi_connect_sync(iscsi, portal) == 0 && iscsi_login_sync(iscsi) == 0;
}

static struct host log_in(const char *letter, const char *name, int is_immediate, int is_asked_for)
{
    struct host host = {letter, context_of(name, is_immediate, is_asked_for)};
    if (!lets_in(host.iscsi)) fail(name, host.iscsi);
    printf("%s: logs in; ImmediateData=%s, InitialR2T=%s\n", letter, is_immediate ? "Yes" : "No", is_asked_for ? "Yes" : "No");
    return host;
}

static void log_out(struct host *host)
{
    if (iscsi_logout_sync(host->iscsi) != 0) fail("LOGOUT", host->iscsi);
    iscsi_destroy_context(host->iscsi);
    printf("%s: logs out\n", host->letter);
}

static void print_bytes(const uint8_t *bytes, size_t count)
{
    putchar(' ');
    if (count == 0) putchar('-');
    for (size_t at = 0; at < count; at++) printf("%02x", bytes[at]);
}

/* Sends a command, tells its status and sense data, and what residual there is, and gives how many bytes of data came. */
static size_t ask(struct host *host, const char *what, int lun, int cdb_length, const uint8_t *cdb, enum scsi_xfer_dir direction, uint32_t length)
{
    struct scsi_task *task = scsi_create_task(cdb_length, (unsigned char *)cdb, direction, (int)length);
    struct iscsi_data data = {length, out};
    if (!task) fail(what, NULL);
    memset(in, 0xEE, sizeof in);
    if (direction == SCSI_XFER_READ) scsi_task_add_data_in_buffer(task, (int)length, in);
    if (!iscsi_scsi_command_sync(host->iscsi, lun, task, direction == SCSI_XFER_WRITE ? &data : NULL)) fail(what, host->iscsi);
    if (task->status != SCSI_STATUS_GOOD && task->status != SCSI_STATUS_CHECK_CONDITION && task->status != SCSI_STATUS_RESERVATION_CONFLICT)
        fail(what, host->iscsi);
    printf("%s: %s: %02x", host->letter, what, (unsigned)task->status);
    /* Two bytes of length stand before the sense data. */
    if (task->status == SCSI_STATUS_CHECK_CONDITION && task->datain.size > 2)
        print_bytes(task->datain.data + 2, (size_t)task->datain.size - 2);
    else
        print_bytes(NULL, 0);
    size_t came = direction == SCSI_XFER_READ ? length : 0;
    if (task->residual_status == SCSI_RESIDUAL_UNDERFLOW) {
        printf(" U%zu", task->residual);
        came -= came < task->residual ? came : task->residual;
    } else if (task->residual_status == SCSI_RESIDUAL_OVERFLOW) {
        printf(" O%zu", task->residual);
    }
    scsi_free_scsi_task(task);
    return came;
}

static void ask_for_bytes(struct host *host, const char *what, int lun, int cdb_length, const uint8_t *cdb, uint32_t length)
{
    size_t came = ask(host, what, lun, cdb_length, cdb, SCSI_XFER_READ, length);
    print_bytes(in, came);
    putchar('\n');
}

static void ask_plainly(struct host *host, const char *what, int lun, int cdb_length, const uint8_t *cdb)
{
    ask(host, what, lun, cdb_length, cdb, SCSI_XFER_NONE, 0);
    putchar('\n');
}

static void test_unit_ready(struct host *host, int lun)
{
    ask_plainly(host, lun == CHANGER ? "TEST UNIT READY at the changer" : "TEST UNIT READY at the drive", lun, 6, (const uint8_t[6]){0});
}

static void rewind_tape(struct host *host)
{
    ask_plainly(host, "REWIND", DRIVE, 6, (const uint8_t[6]){0x01});
}

static void reserve_out(struct host *host, const char *what, enum action action, uint8_t type, uint8_t key, uint8_t other)
{
    const uint8_t cdb[10] = {0x5F, (uint8_t)action, type, 0, 0, 0, 0, 0, 24};
    memset(out, 0, 24);
    out[7] = key;
    out[15] = other;
    ask(host, what, DRIVE, 10, cdb, SCSI_XFER_WRITE, 24);
    putchar('\n');
}

static void reserve_in(struct host *host, const char *what, uint8_t action)
{
    ask_for_bytes(host, what, DRIVE, 10, (const uint8_t[10]){0x5E, action, 0, 0, 0, 0, 0, 0, 255}, 255);
}

/* The byte of a block at a place; each block of each writer has its own. */
static uint8_t byte_of(unsigned seed, size_t place)
{
    return (uint8_t)((place * 2654435761u + seed * 40503u) >> 13);
}

static void write_block(struct host *host, unsigned seed, uint32_t length)
{
    char what[40];
    snprintf(what, sizeof what, "WRITE(6) of %u bytes", length);
    for (size_t place = 0; place < length; place++) out[place] = byte_of(seed, place);
    ask(host, what, DRIVE, 6, (const uint8_t[6]){0x0A, 0, (uint8_t)(length >> 16), (uint8_t)(length >> 8), (uint8_t)length}, SCSI_XFER_WRITE, length);
    putchar('\n');
}

/* Asks for so many bytes, and compares those that come with those of a block. */
static void read_block(struct host *host, unsigned seed, uint32_t length)
{
    char what[40];
    snprintf(what, sizeof what, "READ(6) of %u bytes", length);
    const uint8_t cdb[6] = {0x08, 0, (uint8_t)(length >> 16), (uint8_t)(length >> 8), (uint8_t)length};
    size_t came = ask(host, what, DRIVE, 6, cdb, SCSI_XFER_READ, length);
    int is_same = 1;
    for (size_t place = 0; place < length; place++) is_same &= in[place] == (place < came ? byte_of(seed, place) : 0xEE);
    if (!is_same) is_wrong = 1;
    if (came == 0)
        printf("%s\n", is_same ? " no bytes" : " BYTES THAT AREN'T COUNTED");
    else
        printf(" %zu bytes, %s\n", came, is_same ? "as they were written" : "OTHER ONES THAN WERE WRITTEN");
}

static void write_blocks(struct host *host, unsigned seed)
{
    for (unsigned block = 0; block < BLOCKS; block++) write_block(host, seed + block, SIZES[block]);
}

static void read_blocks(struct host *host, unsigned seed)
{
    for (unsigned block = 0; block < BLOCKS; block++) read_block(host, seed + block, SIZES[block]);
}

/* What waits for its answer. */
struct waiting {
    int count, good;
    const char *sent;
};

static void note_answer(struct iscsi_context *iscsi, int status, void *answer, void *noted)
{
    struct waiting *waiting = noted;
    (void)iscsi;
    waiting->count--;
    if (status == SCSI_STATUS_GOOD) waiting->good++;
    if (answer) scsi_free_scsi_task(answer);
}

static void note_echo(struct iscsi_context *iscsi, int status, void *answer, void *noted)
{
    struct waiting *waiting = noted;
    const struct iscsi_data *data = answer;
    (void)iscsi;
    waiting->count--;
    if (status == SCSI_STATUS_GOOD && data->size == strlen(waiting->sent) && memcmp(data->data, waiting->sent, data->size) == 0) waiting->good++;
}

static void note_management(struct iscsi_context *iscsi, int status, void *answer, void *noted)
{
    struct waiting *waiting = noted;
    (void)iscsi;
    waiting->count--;
    waiting->good = status == SCSI_STATUS_GOOD ? (int)*(uint32_t *)answer : -1;
}

static void await_all(struct host *host, const struct waiting *waiting)
{
    while (waiting->count > 0) {
        struct pollfd place = {iscsi_get_fd(host->iscsi), (short)iscsi_which_events(host->iscsi), 0};
        if (poll(&place, 1, 60000) <= 0 || iscsi_service(host->iscsi, place.revents) != 0) fail("an answer", host->iscsi);
    }
}

/* More commands than the window has, all sent before the first answer is read. */
static void ask_at_once(struct host *host)
{
    struct waiting waiting = {AT_ONCE, 0, NULL};
    for (int turn = 0; turn < AT_ONCE; turn++)
        if (!iscsi_testunitready_task(host->iscsi, DRIVE, note_answer, &waiting)) fail("TEST UNIT READY", host->iscsi);
    await_all(host, &waiting);
    printf("%s: %d TEST UNIT READY at once: %d are GOOD\n", host->letter, AT_ONCE, waiting.good);
}

static void ping(struct host *host)
{
    /* Of a length that needs no padding, which libiscsi would count. */
    struct waiting waiting = {1, 0, "is the library in there?"};
    if (iscsi_nop_out_async(host->iscsi, note_echo, (unsigned char *)waiting.sent, (int)strlen(waiting.sent), &waiting) != 0) fail("NOP-Out", host->iscsi);
    await_all(host, &waiting);
    printf("%s: NOP-Out: its data %s\n", host->letter, waiting.good ? "came back" : "DIDN'T COME BACK");
}

static void manage(struct host *host, const char *what, int lun, enum iscsi_task_mgmt_funcs function)
{
    struct waiting waiting = {1, -1, NULL};
    if (iscsi_task_mgmt_async(host->iscsi, lun, function, 0xABCD, 0, note_management, &waiting) != 0) fail(what, host->iscsi);
    await_all(host, &waiting);
    printf("%s: %s: response %d\n", host->letter, what, waiting.good);
}

/* The parts of the play. */

static void meet_units(struct host *a, struct host *b)
{
    test_unit_ready(a, CHANGER);
    ask_for_bytes(a, "INQUIRY at the changer", CHANGER, 6, (const uint8_t[6]){0x12, 0, 0, 0, 36}, 36);
    ask_for_bytes(a, "INQUIRY at the drive, into 255 bytes", DRIVE, 6, (const uint8_t[6]){0x12, 0, 0, 0, 255}, 255);
    ask_for_bytes(a, "INQUIRY at the drive, of which 8 bytes fit", DRIVE, 6, (const uint8_t[6]){0x12, 0, 0, 0, 36}, 8);
    ask_for_bytes(a, "INQUIRY where no unit is", NO_UNIT, 6, (const uint8_t[6]){0x12, 0, 0, 0, 36}, 36);
    ask_plainly(a, "TEST UNIT READY where no unit is", NO_UNIT, 6, (const uint8_t[6]){0});
    ask_for_bytes(a, "REPORT LUNS", CHANGER, 12, (const uint8_t[12]){0xA0, 0, 0, 0, 0, 0, 0, 0, 0, 64}, 64);
    ask_plainly(a, "MOVE MEDIUM", CHANGER, 12, (const uint8_t[12]){0xA5, 0, 0, 0, 0x04, 0, 0x01, 0});
    ask_for_bytes(a, "READ ELEMENT STATUS of the drive", CHANGER, 12, (const uint8_t[12]){0xB8, 0x14, 0x01, 0, 0, 1, 0, 0, 0, 255}, 255);
    /* A has met the drive before the volume came: it is told of its power on, then of the volume. */
    test_unit_ready(a, DRIVE);
    test_unit_ready(a, DRIVE);
    test_unit_ready(b, DRIVE);
}

static void take_turns(struct host *a, struct host *b)
{
    reserve_out(a, "REGISTER", REGISTER, 0, 0, 0xAA);
    reserve_out(b, "REGISTER", REGISTER, 0, 0, 0xBB);
    reserve_out(a, "RESERVE, Write Exclusive", RESERVE, WRITE_EXCLUSIVE, 0xAA, 0);
    write_blocks(a, 100);
    write_block(b, 1, 16);
    reserve_in(b, "READ RESERVATION", 1);
    reserve_in(b, "READ FULL STATUS", 3);
    rewind_tape(b);
    read_blocks(b, 100);
    reserve_out(b, "PREEMPT AND ABORT, Exclusive Access", PREEMPT_AND_ABORT, EXCLUSIVE_ACCESS, 0xBB, 0xAA);
    write_block(a, 2, 16);
    test_unit_ready(a, DRIVE);
    read_block(a, 100, 16);
    rewind_tape(b);
    write_blocks(b, 200);
    rewind_tape(b);
    read_blocks(b, 200);
    read_block(b, 200, 16);
}

static void meet_limits(struct host *b)
{
    rewind_tape(b);
    read_block(b, 200, 20);
    read_block(b, 201, 16);
    read_block(b, 202, LONGEST);
    write_block(b, 3, LONGEST + 1);
    ask_at_once(b);
    ping(b);
    manage(b, "ABORT TASK of none", DRIVE, ISCSI_TM_ABORT_TASK);
    manage(b, "CLEAR ACA", DRIVE, ISCSI_TM_CLEAR_ACA);
    manage(b, "LOGICAL UNIT RESET where no unit is", NO_UNIT, ISCSI_TM_LUN_RESET);
    manage(b, "LOGICAL UNIT RESET at the drive", DRIVE, ISCSI_TM_LUN_RESET);
}

static void come_back(struct host *a, struct host *b)
{
    test_unit_ready(a, DRIVE);
    test_unit_ready(b, DRIVE);
    log_out(a);
    *a = log_in("A", HOST_A, 0, 1);
    test_unit_ready(a, DRIVE);
    write_block(a, 4, 4096);
    reserve_out(b, "RELEASE, Exclusive Access", RELEASE, EXCLUSIVE_ACCESS, 0xBB, 0);
    write_blocks(a, 300);
    ask_plainly(a, "WRITE FILEMARKS(6)", DRIVE, 6, (const uint8_t[6]){0x10, 0, 0, 0, 1});
    rewind_tape(b);
    read_blocks(b, 300);
    read_block(b, 300, 16);
}

static int share_a_drive(void)
{
    struct iscsi_context *stranger = context_of(STRANGER, 1, 0);
    struct host a = log_in("A", HOST_A, 1, 1), b = log_in("B", HOST_B, 0, 0);
    printf("a stranger is %s\n", lets_in(stranger) ? "LET IN" : "refused");
    iscsi_destroy_context(stranger);
    meet_units(&a, &b);
    take_turns(&a, &b);
    meet_limits(&b);
    come_back(&a, &b);
    log_out(&a);
    log_out(&b);
    return is_wrong;
}

static void authenticate(const char *what, const char *name, const char *user, const char *secret, const char *of_target)
{
    struct iscsi_context *iscsi = context_of(name, 1, 0);
    if (user) iscsi_set_initiator_username_pwd(iscsi, user, secret);
    if (of_target) iscsi_set_target_username_pwd(iscsi, "library", of_target);
    int is_in = lets_in(iscsi);
    printf("%s: %s\n", what, is_in ? "let in" : "refused");
    if (is_in && iscsi_logout_sync(iscsi) != 0) fail("LOGOUT", iscsi);
    iscsi_destroy_context(iscsi);
}

static int authenticate_hosts(void)
{
    authenticate("A, with its secret", HOST_A, "anna", "secret-of-host-a", NULL);
    authenticate("B, with its secret", HOST_B, "bert", "secret-of-host-b", NULL);
    authenticate("A, with another secret", HOST_A, "anna", "secret-of-host-b", NULL);
    authenticate("A, with B's user and secret", HOST_A, "bert", "secret-of-host-b", NULL);
    authenticate("A, without any", HOST_A, NULL, NULL, NULL);
    authenticate("A, which has the target prove itself", HOST_A, "anna", "secret-of-host-a", "secret-of-target");
    authenticate("A, which expects another secret of the target", HOST_A, "anna", "secret-of-host-a", "secret-of-nobody");
    authenticate("B, which asks for a proof that the target hasn't", HOST_B, "bert", "secret-of-host-b", "secret-of-target");
    return 0;
}

int main(int argc, char **argv)
{
    if (argc != 3 && !(argc == 4 && strcmp(argv[3], "chap") == 0)) return 2;
    portal = argv[1];
    target = argv[2];
    setvbuf(stdout, NULL, _IOLBF, 0);
    return argc == 4 ? authenticate_hosts() : share_a_drive();
}
