/*
 * What `vtl replay` prints of the scripts of bench/ratios.sh, by the least work that a plain program does for it: the text
 * is gone through once, each line is carried out as it is read, and nothing is kept but what a later answer rests on. It is
 * measured against, and never linked.
 *
 * Digits are read and printed sixteen bytes at a time, in loops of a fixed length and without a branch, of which the compiler
 * makes vectors. What a unit keeps of a nexus, its slot and its registration, lies in one place, found by a hash.
 * Data are printed right from what they tell of, and are never bytes in between. The data of a WRITE are made into bytes,
 * as a drive needs them, though no answer rests on more than that they are digits.
 *
 * It knows the usual library (a changer as LUN 0, an empty drive as LUN 1) and the commands TEST UNIT READY, WRITE(6),
 * PERSISTENT RESERVE IN with READ KEYS and READ FULL STATUS, and PERSISTENT RESERVE OUT with REGISTER of a key, RESERVE and
 * RELEASE. Any other command is answered 20h/00h, and any faulty line ends it with status 2.
 */
#define _DEFAULT_SOURCE
#include <endian.h>
#include <stdint.h>
#include <stdio.h>
#include <stdlib.h>
#include <string.h>

enum { SLOTS = 128, REGISTRATIONS = 256, PORTS = 4, UNITS = 2, LINE_LIMIT = 270000, DATA_LIMIT = 131053 };
enum { READ_KEYS = 0, READ_FULL_STATUS = 3 };
enum { REGISTER = 0, RESERVE = 1, RELEASE = 2 };
enum { BLOCK = 16, PLACE_BITS = 10, PLACES = 1 << PLACE_BITS, REPLY_LIMIT = 6 + 2 * (8 + 48 * REGISTRATIONS + BLOCK) };

_Static_assert(18 + 1 + 3 + 1 + 32 + 1 + 2 * DATA_LIMIT <= LINE_LIMIT, "what keeps to the other limits keeps to this one");
_Static_assert(SLOTS + REGISTRATIONS + PORTS < PLACES, "a place is always free");

/* What a unit keeps of a nexus. Keys and SAS addresses are numbers as their bytes lie, the most significant first. */
struct place {
    uint64_t key, sas;                       /* the key is 0 where the nexus isn't registered */
    uint8_t port;                            /* 0 where the place is free */
    uint8_t has_slot, power_on, released;    /* the latter two: whether these unit attention conditions wait */
};

struct unit {
    struct place places[PLACES];
    int slot_count;
    struct place *registered[REGISTRATIONS]; /* ascending by nexus */
    int registration_count;
    const struct place *holder;
    unsigned type; /* 0 where there is no reservation */
    uint32_t generation;
};

struct command {
    uint64_t sas;
    unsigned port;
    int lun;
    uint8_t cdb[BLOCK];
    size_t cdb_length, data_length;
};

static struct unit units[UNITS];
static uint8_t data[DATA_LIMIT + BLOCK]; /* of the command */
static uint8_t *output;
static size_t output_length, output_room;

/* Eight bytes as they lie. */
static inline uint64_t number_of_8(const uint8_t *bytes) {
    uint64_t number;
    memcpy(&number, bytes, 8);
    return number;
}

/* Hexadecimal digits */

/* Of a digit; 16 or more of another character. What lies beyond '9' is counted from 'A' first, in either case, and then raised
 * by 10: so what lies between the digits and the letters falls below 0, and is large. */
static inline uint8_t value_of(uint8_t digit) {
    uint8_t is_letter = (uint8_t)-((int8_t)digit > '9');
    return (uint8_t)(((digit - '0' - (is_letter & ('A' - '0'))) & ~('a' - 'A')) + (is_letter & 10));
}

static inline uint8_t digit_of(uint8_t value) {
    uint8_t digit = (uint8_t)('0' + value);
    return (uint8_t)(digit + (-((int8_t)digit > '9') & ('a' - '0' - 10)));
}

/* The bytes of 32 digits, and for each a number that is raised to 16 or more where one of its two is no digit. */
static inline void read_block(const uint8_t *restrict text, uint8_t *restrict bytes, uint8_t *restrict wrong) {
    for (int i = 0; i < BLOCK; i++) {
        uint8_t high = value_of(text[2 * i]), low = value_of(text[2 * i + 1]);
        wrong[i] |= high | low;
        bytes[i] = (uint8_t)(high << 4 | low);
    }
}

/* Two numbers as 16 digits each. */
static inline void print_numbers(uint8_t *first_text, uint8_t *second_text, uint64_t first, uint64_t second) {
    uint64_t numbers[2] = {first, second};
    uint8_t bytes[BLOCK], text[2 * BLOCK];
    memcpy(bytes, numbers, BLOCK);
    for (int i = 0; i < BLOCK; i++) {
        text[2 * i] = digit_of(bytes[i] >> 4);
        text[2 * i + 1] = digit_of(bytes[i] & 15);
    }
    memcpy(first_text, text, BLOCK);
    memcpy(second_text, text + BLOCK, BLOCK);
}

/* Output. There is room for the longest reply before a command is carried out. */

static void make_room(void) {
    if (output_room - output_length >= REPLY_LIMIT)
        return;
    output_room = 2 * output_room + REPLY_LIMIT;
    output = realloc(output, output_room);
    if (!output)
        exit(3);
}

static inline void put_text(const char *text) {
    size_t length = strlen(text);
    memcpy(output + output_length, text, length);
    output_length += length;
}

/* Of fixed format, with the sense key and the additional sense code in digits. */
#define reply_check(key, code) put_text("02 7000" key "000000000a00000000" code "00000000 -\n")

static void reply_good(void) { put_text("00 - -\n"); }

/* The first 8 bytes of what PERSISTENT RESERVE IN tells. */
static inline uint64_t header_of(uint32_t generation, size_t length) {
    return htobe64((uint64_t)generation << 32 | length);
}

/* Cuts the data, which are printed already from 5 characters behind the output on, and makes a reply of them. */
static void reply_data(size_t length, size_t allocation_length) {
    if (length > allocation_length)
        length = allocation_length;
    if (length == 0) {
        reply_good();
        return;
    }
    memcpy(output + output_length, "00 - ", 5);
    output_length += 5 + 2 * length;
    output[output_length++] = '\n';
}

/* Nexuses */

/* The place of a nexus, or the free one where it would be. */
static inline struct place *find(struct unit *unit, uint64_t sas, unsigned port) {
    size_t i = (sas + port) * 0x9E3779B97F4A7C15 >> (64 - PLACE_BITS);
    while (unit->places[i].port && (unit->places[i].sas != sas || unit->places[i].port != port))
        i = (i + 1) % PLACES;
    return &unit->places[i];
}

static void settle(struct place *place, uint64_t sas, unsigned port) {
    place->sas = sas;
    place->port = (uint8_t)port;
}

/* The nexus has its slot from its first contact on: whether one is left for it. */
static int contact(struct unit *unit, struct place *place, const struct command *command) {
    if (unit->slot_count == SLOTS)
        return 0;
    unit->slot_count++;
    settle(place, command->sas, command->port);
    place->has_slot = place->power_on = 1;
    return 1;
}

static int is_before(const struct place *a, const struct place *b) {
    return a->sas != b->sas ? be64toh(a->sas) < be64toh(b->sas) : a->port < b->port;
}

static void set_key(struct unit *unit, struct place *place, uint64_t key) {
    if (!place->key) {
        int i = unit->registration_count++;
        for (; i > 0 && is_before(place, unit->registered[i - 1]); i--)
            unit->registered[i] = unit->registered[i - 1];
        unit->registered[i] = place;
    }
    place->key = key;
}

/* Commands */

/* How many registrations, of so many bytes each, reach into the allocation length. */
static inline int count_shown(const struct unit *unit, size_t allocation_length, size_t size) {
    size_t shown = allocation_length > 8 ? (allocation_length - 8 + size - 1) / size : 0;
    return shown < (size_t)unit->registration_count ? (int)shown : unit->registration_count;
}

static void read_keys(const struct unit *unit, size_t allocation_length) {
    size_t length = 8 * (size_t)unit->registration_count;
    uint64_t first = header_of(unit->generation, length);
    uint8_t *text = output + output_length + 5;
    int shown = count_shown(unit, allocation_length, 8);
    for (int i = 0; i <= shown; i += 2, text += 32) {
        print_numbers(text, text + 16, first, i < shown ? unit->registered[i]->key : 0);
        first = i + 1 < shown ? unit->registered[i + 1]->key : 0;
    }
    reply_data(8 + length, allocation_length);
}

static void read_full_status(const struct unit *unit, size_t allocation_length) {
    static const char digits[] = "0123456789abcdef", unheld[] =
        "0000000000000000" "00000000" "0000" "00000000" "0000" "00000018" "06000000"
        "0000000000000000" "000000000000000000000000";
    size_t length = 48 * (size_t)unit->registration_count;
    uint8_t *text = output + output_length + 5;
    int shown = count_shown(unit, allocation_length, 48);
    print_numbers(text, text + 16, header_of(unit->generation, length), 0);
    text += 16;
    for (int i = 0; i < shown; i++, text += 96) {
        const struct place *place = unit->registered[i];
        memcpy(text, unheld, 96);
        print_numbers(text, text + 56, place->key, place->sas);
        text[39] = (uint8_t)('0' + place->port);
        if (unit->type && (unit->type >= 7 || unit->holder == place)) {
            text[25] = '1';
            text[26] = (uint8_t)digits[unit->type >> 4];
            text[27] = (uint8_t)digits[unit->type & 15];
        }
    }
    reply_data(8 + length, allocation_length);
}

static int holds(const struct unit *unit, const struct place *place) {
    return unit->type >= 7 ? place->key != 0 : unit->type && unit->holder == place;
}

/* The ports that a REGISTER names: all of them, or the sender's. */
static void named_ports(const struct place *sender, unsigned *first, unsigned *last) {
    int all = data[20] & 0x04;
    *first = all ? 1 : sender->port;
    *last = all ? PORTS : sender->port;
}

static struct place *named_place(struct unit *unit, struct place *sender, unsigned port) {
    return port == sender->port ? sender : find(unit, sender->sas, port);
}

/* Whether each named nexus is registered with the key, or, with key 0, isn't registered. */
static int may_register(struct unit *unit, struct place *sender) {
    unsigned first, last;
    named_ports(sender, &first, &last);
    for (unsigned port = first; port <= last; port++)
        if (named_place(unit, sender, port)->key != number_of_8(data))
            return 0;
    return 1;
}

static void do_register(struct unit *unit, struct place *sender) {
    unsigned first, last;
    named_ports(sender, &first, &last);
    if (!sender->key && unit->registration_count + (int)(last - first + 1) > REGISTRATIONS) {
        reply_check("05", "5504");
        return;
    }
    for (unsigned port = first; port <= last; port++) {
        struct place *place = named_place(unit, sender, port);
        settle(place, sender->sas, port);
        set_key(unit, place, number_of_8(data + 8));
    }
    unit->generation++;
    reply_good();
}

static void reserve(struct unit *unit, struct place *sender, unsigned type) {
    if (!unit->type) {
        unit->type = type;
        unit->holder = sender;
    }
    reply_good();
}

static void release(struct unit *unit, struct place *sender, unsigned type) {
    if (holds(unit, sender)) {
        if (type != unit->type) {
            reply_check("05", "2604");
            return;
        }
        int told = type >= 5 ? unit->registration_count : 0;
        for (int i = 0; i < told; i++) {
            struct place *place = unit->registered[i];
            place->released = place->has_slot;
        }
        sender->released = 0; /* nothing waited there, or this command would have told of it */
        unit->type = 0;
    }
    reply_good();
}

static int is_allowed_out(struct unit *unit, struct place *sender, const uint8_t *cdb) {
    if (cdb[1] == REGISTER)
        return may_register(unit, sender);
    if (!sender->key || sender->key != number_of_8(data))
        return 0;
    if (cdb[1] == RESERVE && unit->type)
        return holds(unit, sender) && cdb[2] == unit->type;
    return 1;
}

/* Whether a command that changes the medium passes the reservation check. */
static int is_allowed_write(const struct unit *unit, const struct place *sender) {
    return !unit->type || holds(unit, sender) || (unit->type >= 5 && sender->key);
}

static int is_known(const struct command *command) {
    static const uint8_t list_length[4] = {0, 0, 0, 24};
    const uint8_t *cdb = command->cdb;
    switch (cdb[0]) {
    case 0x00: return command->cdb_length == 6;
    case 0x0A: return command->cdb_length == 6 && command->lun == 1;
    case 0x5E: return command->cdb_length == 10 && (cdb[1] == READ_KEYS || cdb[1] == READ_FULL_STATUS);
    case 0x5F: return command->cdb_length == 10 && cdb[1] <= RELEASE && command->data_length == 24
        && !memcmp(cdb + 5, list_length, 4) && !(data[20] & 0x08) && (cdb[1] != REGISTER || number_of_8(data + 8));
    default: return 0;
    }
}

static int is_allowed(struct unit *unit, struct place *sender, const uint8_t *cdb) {
    switch (cdb[0]) {
    case 0x0A: return is_allowed_write(unit, sender);
    case 0x5F: return is_allowed_out(unit, sender, cdb);
    default: return 1;
    }
}

static void carry_out(struct unit *unit, struct place *sender, const uint8_t *cdb) {
    if (cdb[0] == 0x5E && cdb[1] == READ_KEYS)
        read_keys(unit, (size_t)(cdb[7] << 8 | cdb[8]));
    else if (cdb[0] == 0x5E)
        read_full_status(unit, (size_t)(cdb[7] << 8 | cdb[8]));
    else if (cdb[0] == 0x5F && cdb[1] == REGISTER)
        do_register(unit, sender);
    else if (cdb[0] == 0x5F)
        (cdb[1] == RESERVE ? reserve : release)(unit, sender, cdb[2]);
    else if (unit == &units[0])
        reply_good();
    else
        reply_check("02", "3a00");
}

static void execute(const struct command *command) {
    if (command->lun >= UNITS) {
        reply_check("05", "2500");
        return;
    }
    struct unit *unit = &units[command->lun];
    struct place *sender = find(unit, command->sas, command->port);
    if (!sender->has_slot && !contact(unit, sender, command))
        put_text("08 - -\n");
    else if (!is_known(command))
        reply_check("05", "2000");
    else if (sender->power_on) {
        sender->power_on = 0;
        reply_check("06", "2900");
    } else if (!is_allowed(unit, sender, command->cdb))
        put_text("18 - -\n");
    else if (sender->released) {
        sender->released = 0;
        reply_check("06", "2a04");
    } else
        carry_out(unit, sender, command->cdb);
}

/* Lines. Each part is gone through up to the first character that doesn't fit; a line feed fits nowhere but at the end. */

static const uint64_t NO_DIGITS = 0xF0F0F0F0F0F0F0F0; /* where any of these is set in what `read_block` raises */

/* The bytes of a word of 1 to DATA_LIMIT of them. */
static int read_data(const uint8_t *text, size_t length) {
    uint8_t wrong[BLOCK] = {0}, last_wrong[BLOCK] = {0}, *bytes = data;
    if (length == 0 || length % 2 || length / 2 > DATA_LIMIT)
        return 0;
    for (; length >= 2 * BLOCK; length -= 2 * BLOCK, text += 2 * BLOCK, bytes += BLOCK)
        read_block(text, bytes, wrong);
    read_block(text, bytes, last_wrong);
    for (size_t i = 0; i < length / 2; i++)
        wrong[i] |= last_wrong[i];
    return !((number_of_8(wrong) | number_of_8(wrong + 8)) & NO_DIGITS);
}

/* The end of the line, or NULL where it is faulty. */
static const uint8_t *read_line(const uint8_t *line, const uint8_t *input_end, struct command *command) {
    uint8_t sas[BLOCK], wrong[BLOCK] = {0}, cdb_wrong[BLOCK] = {0};
    const uint8_t *text = line + 19, *end;
    read_block(line, sas, wrong);
    if (number_of_8(wrong) & NO_DIGITS || line[16] != '.' || line[17] < '1' || line[17] > '0' + PORTS || line[18] != ' ')
        return NULL;
    command->sas = number_of_8(sas);
    command->port = line[17] - '0';
    for (command->lun = 0; *text >= '0' && *text <= '9' && text < line + 22; text++)
        command->lun = 10 * command->lun + (*text - '0');
    if (text == line + 19 || *text != ' ' || command->lun > 255 || (line[19] == '0' && text > line + 20))
        return NULL;
    read_block(++text, command->cdb, cdb_wrong);
    size_t count = 0;
    while (count < BLOCK && cdb_wrong[count] < 16)
        count++;
    command->cdb_length = count;
    command->data_length = 0;
    text += 2 * count;
    if (count == 0 || *text == '\n')
        return count ? text : NULL;
    if (*text++ != ' ')
        return NULL;
    end = memchr(text, '\n', (size_t)(input_end + 1 - text));
    command->data_length = (size_t)(end - text) / 2;
    return read_data(text, (size_t)(end - text)) ? end : NULL;
}

/* The input with a line feed behind it, and behind that as much as a block may reach further. */
static uint8_t *read_input(size_t *length) {
    size_t room = 65536, count;
    uint8_t *input = malloc(room + 1 + 2 * BLOCK);
    *length = 0;
    while (input && (count = fread(input + *length, 1, room - *length, stdin)) > 0) {
        *length += count;
        if (*length == room)
            input = realloc(input, (room *= 2) + 1 + 2 * BLOCK);
    }
    if (!input)
        exit(3);
    memset(input + *length, '\n', 1 + 2 * BLOCK);
    return input;
}

int main(void) {
    size_t length;
    const uint8_t *line = read_input(&length), *end = line + length;
    for (; line < end; line++) {
        struct command command;
        if (*line == '#')
            line = memchr(line, '\n', (size_t)(end + 1 - line));
        else if (*line != '\n') {
            line = read_line(line, end, &command);
            if (!line)
                return 2;
            make_room();
            execute(&command);
        }
    }
    return fwrite(output, 1, output_length, stdout) == output_length ? 0 : 4;
}
