/*
 * A small cabinet: serves commands on a segment kept in a file.
 *
 *   cabinet incident                      tells the incident, step by step
 *   cabinet --new FILE P B e W N ATO      makes a fresh segment file
 *   cabinet FILE P B e W N ATO            serves the commands on standard input
 *   cabinet --scrub FILE P B e W N ATO [BLOCKS]
 *                                         judges what is stored, BLOCKS at a time (16)
 *
 * P B e W N ATO describe the segment: type, block length, exponent, first address, count,
 * ATO. P may also be the four numbers of a format choice, SPT,PROTECT,FMTPINFO,USAGE.
 *
 * Each line on standard input is a command in hexadecimal, and after it its buffer, as data
 * in hexadecimal (in as many words as one likes) or as @NAME, the name of a file that holds
 * it. A WRITE takes its data from there, and a VERIFY with byte-check bits 01b the copy that
 * it compares; a READ without one is lent a buffer of the length that it wants. For each the
 * answer is printed, and the data of a good READ. Lines that begin with # are printed as they
 * are, empty ones skipped.
 *
 * A scrub prints how many blocks were judged, how many of them have a fault, and the address
 * of the first that has one. It only reads the file.
 *
 * Exit status: 0, whatever the answers; 1 if the incident does not go as it should; 2 for
 * words or lines that cannot be understood; 3 if a file cannot be read or written.
 */
#define _POSIX_C_SOURCE 200809L
#include <ctype.h>
#include <errno.h>
#include <inttypes.h>
#include <stdbool.h>
#include <stdio.h>
#include <stdlib.h>
#include <string.h>

#include <lamptassel.h>

enum status { DONE = 0, OTHERWISE = 1, USAGE = 2, BROKEN = 3 };

enum { MOST_BLOCKS = 65536, MOST_STORED = 4160, MOST_BYTES = MOST_BLOCKS * MOST_STORED };

struct bytes {
    uint8_t *at;
    size_t length;
};

struct cabinet {
    uint64_t kind, block, exponent, first, count, ato;
    struct bytes segment;
    FILE *file;
    const char *name;
    uint64_t step; /* the blocks that one call of a scrub looks at */
};

struct answer {
    uint64_t number, address, place;
};

static enum status usage(const char *what, const char *which) {
    fprintf(stderr, "cabinet: %s%.200s\n", what, which);
    return USAGE;
}

static enum status broken(const char *name) {
    fprintf(stderr, "cabinet: %s: %s\n", name, strerror(errno));
    return BROKEN;
}

/* Room for `length` bytes; the pointer is not null even where that is 0. */
static enum status lend(struct bytes *bytes, size_t length) {
    bytes->at = calloc(length + 1, 1);
    bytes->length = length;
    return bytes->at ? DONE : broken("memory");
}

static void give_back(struct bytes *bytes) {
    free(bytes->at);
    bytes->at = NULL;
    bytes->length = 0;
}

/* ---- The library ---- */

static struct answer execute(struct cabinet *c, const uint8_t *command, size_t length, struct bytes buffer) {
    struct answer a;
    a.number = lamptassel_execute(c->kind, c->block, c->exponent, c->first, c->count, c->ato, c->segment.at,
                                  c->segment.length, command, length, buffer.at, buffer.length, &a.address, &a.place);
    return a;
}

static const char *meaning(uint64_t number) {
    static const char *const MEANINGS[] = {
        "good",
        "description bad",
        "segment length wrong",
        "command length wrong",
        "buffer length wrong",
        "operation invalid",
        "field in command invalid",
        "address out of range",
        "guard check failed",
        "application check failed",
        "reference check failed",
        "stripe shape bad",
        "field in parameter list invalid",
        "listing record bad",
        "transfer above 4,294,967,295 bytes",
        "block differs",
    };
    return number < sizeof MEANINGS / sizeof *MEANINGS ? MEANINGS[number] : "unknown";
}

static void print_answer(struct answer a) {
    uint32_t sense = lamptassel_sense(a.number);
    printf("answer %" PRIu64 ", %s", a.number, meaning(a.number));
    if (sense != 0)
        printf(", sense %02" PRIX32 "/%02" PRIX32 "/%02" PRIX32, LAMPTASSEL_KEY_OF(sense),
               LAMPTASSEL_CODE_OF(sense), LAMPTASSEL_QUALIFIER_OF(sense));
    if (a.number >= LAMPTASSEL_GUARD_CHECK_FAILED && a.number <= LAMPTASSEL_REFERENCE_CHECK_FAILED)
        printf(", address %" PRIu64 ", interval %" PRIu64, a.address, a.place);
    else if (a.number == LAMPTASSEL_BLOCK_DIFFERS)
        printf(", address %" PRIu64, a.address);
    putchar('\n');
}

static void print_bytes(const uint8_t *at, size_t length) {
    for (size_t i = 0; i < length; i++)
        printf("%02X", at[i]);
}

/* ---- What a client knows of its own commands ---- */

/* Where the fields of a READ or WRITE stand, by the command's size. */
static const struct layout {
    size_t bytes, operation, operation_width;
    uint64_t read, write;
    size_t address, address_width, length, length_width, protect;
} LAYOUTS[] = {
    {10, 0, 1, 0x28, 0x2A, 2, 4, 7, 2, 1},
    {12, 0, 1, 0xA8, 0xAA, 2, 4, 6, 4, 1},
    {16, 0, 1, 0x88, 0x8A, 2, 8, 10, 4, 1},
    {32, 8, 2, 0x0009, 0x000B, 12, 8, 28, 4, 10},
};

struct transfer {
    bool read, write, with_fields;
    uint64_t address, blocks;
};

static uint64_t big_endian(const uint8_t *at, size_t width) {
    uint64_t number = 0;
    for (size_t i = 0; i < width; i++)
        number = number << 8 | at[i];
    return number;
}

static struct transfer transfer_of(struct bytes command) {
    struct transfer t = {0};
    for (size_t i = 0; i < sizeof LAYOUTS / sizeof *LAYOUTS; i++) {
        const struct layout *l = &LAYOUTS[i];
        if (command.length != l->bytes)
            continue;
        uint64_t operation = big_endian(command.at + l->operation, l->operation_width);
        t.read = operation == l->read;
        t.write = operation == l->write;
        t.with_fields = command.at[l->protect] >> 5 != 0;
        t.address = big_endian(command.at + l->address, l->address_width);
        t.blocks = big_endian(command.at + l->length, l->length_width);
    }
    return t;
}

/* S, the bytes of a stored block; 0 for a description that the library refuses in any case. */
static size_t stored_length(const struct cabinet *c) {
    if (c->block > 4096 || c->exponent > 3)
        return 0;
    return (size_t)(c->block + (c->kind == 0 ? 0 : UINT64_C(8) << c->exponent));
}

/* The length of buffer that a READ wants. Where no buffer is long enough, the library refuses the command before it looks
   at the buffer. */
static size_t read_length(const struct cabinet *c, struct transfer t) {
    size_t stored = stored_length(c);
    if (!t.read || t.blocks > MOST_BLOCKS || stored == 0)
        return 0;
    return (size_t)t.blocks * (t.with_fields ? stored : (size_t)c->block);
}

/* ---- The segment file ---- */

static enum status load(struct bytes *bytes, FILE *file, const char *name) {
    long size = fseek(file, 0, SEEK_END) == 0 ? ftell(file) : -1;
    if (size < 0 || fseek(file, 0, SEEK_SET) != 0)
        return broken(name);
    if (size > MOST_BYTES)
        return usage("more bytes than a segment can have: ", name);
    enum status status = lend(bytes, (size_t)size);
    if (status != DONE)
        return status;
    errno = EIO;
    return fread(bytes->at, 1, bytes->length, file) == bytes->length ? DONE : broken(name);
}

/* Writes `count` of the segment's blocks, from the address `from` on, to its file. */
static enum status store(const struct cabinet *c, uint64_t from, uint64_t count) {
    size_t stored = stored_length(c);
    size_t start = (size_t)(from - c->first) * stored, length = (size_t)count * stored;
    if (fseek(c->file, (long)start, SEEK_SET) != 0 ||
        fwrite(c->segment.at + start, 1, length, c->file) != length || fflush(c->file) != 0)
        return broken(c->name);
    return DONE;
}

/* Makes a fresh segment in memory. */
static enum status fresh(struct cabinet *c) {
    enum status status = lend(&c->segment, c->count > MOST_BLOCKS ? 0 : (size_t)c->count * stored_length(c));
    if (status != DONE)
        return status;
    uint64_t number = lamptassel_fill(c->kind, c->block, c->exponent, c->first, c->count, c->ato, c->segment.at,
                                      c->segment.length);
    return number == LAMPTASSEL_GOOD ? DONE : usage("no fresh segment: ", meaning(number));
}

static enum status close_cabinet(struct cabinet *c, enum status status) {
    if (c->file != NULL && fclose(c->file) != 0 && status == DONE)
        status = broken(c->name);
    give_back(&c->segment);
    return status;
}

/* ---- Serving ---- */

static int digit(char c) {
    const char *const DIGITS = "0123456789abcdef";
    const char *found = c == '\0' ? NULL : strchr(DIGITS, tolower((unsigned char)c));
    return found == NULL ? -1 : (int)(found - DIGITS);
}

/* The bytes that the words of a text give in hexadecimal. */
static enum status from_hexadecimal(struct bytes *bytes, const char *text) {
    enum status status = lend(bytes, strlen(text) / 2);
    size_t filled = 0;
    while (status == DONE && *text != '\0') {
        if (isspace((unsigned char)*text)) {
            text++;
        } else if (digit(text[0]) < 0 || digit(text[1]) < 0) {
            status = usage("not bytes in hexadecimal: ", text);
        } else {
            bytes->at[filled++] = (uint8_t)(digit(text[0]) << 4 | digit(text[1]));
            text += 2;
        }
    }
    bytes->length = filled;
    return status;
}

static enum status from_file(struct bytes *bytes, const char *name) {
    FILE *file = fopen(name, "rb");
    if (file == NULL)
        return broken(name);
    enum status status = load(bytes, file, name);
    fclose(file);
    return status;
}

/* The data after a command, or else the buffer that it wants. */
static enum status buffer_for(struct bytes *buffer, const struct cabinet *c, struct transfer t, const char *data) {
    if (data[0] == '@')
        return from_file(buffer, data + 1);
    if (data[0] != '\0')
        return from_hexadecimal(buffer, data);
    return lend(buffer, read_length(c, t));
}

static enum status serve_command(struct cabinet *c, struct bytes command, const char *data) {
    struct transfer t = transfer_of(command);
    struct bytes buffer = {0};
    enum status status = buffer_for(&buffer, c, t, data);
    if (status == DONE) {
        struct answer a = execute(c, command.at, command.length, buffer);
        if (a.number == LAMPTASSEL_GOOD && t.write)
            status = store(c, t.address, t.blocks);
        if (status == DONE)
            print_answer(a);
        if (a.number == LAMPTASSEL_GOOD && t.read && buffer.length > 0) {
            printf("data ");
            print_bytes(buffer.at, buffer.length);
            putchar('\n');
        }
    }
    give_back(&buffer);
    return status;
}

/* Cuts the white space off both ends. */
static char *trimmed(char *text) {
    text += strspn(text, " \t\r\n");
    size_t length = strlen(text);
    while (length > 0 && isspace((unsigned char)text[length - 1]))
        text[--length] = '\0';
    return text;
}

static enum status serve_line(struct cabinet *c, char *line) {
    line = trimmed(line);
    if (line[0] == '\0')
        return DONE;
    if (line[0] == '#')
        return puts(line) < 0 ? broken("standard output") : DONE;
    char *data = line + strcspn(line, " \t");
    if (*data != '\0') {
        *data++ = '\0';
        data = trimmed(data);
    }
    struct bytes command = {0};
    enum status status = from_hexadecimal(&command, line);
    if (status == DONE)
        status = serve_command(c, command, data);
    give_back(&command);
    return status;
}

static enum status serve(struct cabinet *c) {
    c->file = fopen(c->name, "r+b");
    if (c->file == NULL)
        return broken(c->name);
    enum status status = load(&c->segment, c->file, c->name);
    char *line = NULL;
    size_t room = 0, number = 0;
    ssize_t length;
    while (status == DONE && (length = getline(&line, &room, stdin)) >= 0) {
        number++;
        status = strlen(line) == (size_t)length ? serve_line(c, line) : usage("a line with a zero byte", "");
    }
    free(line);
    if (status == USAGE && number > 0)
        fprintf(stderr, "cabinet: line %zu of standard input is not understood\n", number);
    return status == DONE && ferror(stdin) ? broken("standard input") : status;
}

static enum status make_new(struct cabinet *c) {
    enum status status = fresh(c);
    if (status != DONE)
        return status;
    c->file = fopen(c->name, "wbx");
    if (c->file == NULL)
        return broken(c->name);
    status = store(c, c->first, c->count);
    if (status != DONE)
        remove(c->name);
    return status;
}

/* ---- Scrubbing ---- */

/* Between two of these calls a server does other work. */
static enum status scrub(struct cabinet *c) {
    uint64_t place = 0, total = 0, first_of_all = 0, judged, faults, first_fault;
    enum status status = from_file(&c->segment, c->name);
    if (status != DONE)
        return status;
    do {
        uint64_t number = lamptassel_scrub(c->kind, c->block, c->exponent, c->first, c->count, c->ato, c->segment.at,
                                           c->segment.length, place, c->step, &place, &judged, &faults, &first_fault);
        if (number != LAMPTASSEL_GOOD)
            return usage("no scrub: ", meaning(number));
        if (total == 0)
            first_of_all = first_fault;
        total += faults;
    } while (judged > 0);
    printf("judged %" PRIu64 ", faults %" PRIu64, place, total);
    if (total > 0)
        printf(", first at %" PRIu64, first_of_all);
    putchar('\n');
    return DONE;
}

/* ---- The incident ---- */

enum { LOT = 32, STORED = LOT + 8, ADDRESS_A = 4096, ADDRESS_B = 4097, UNTOUCHED = 0xAA };

/* A READ, WRITE or VERIFY of 10 bytes for one block. */
struct ten {
    uint8_t at[10];
};

static struct ten one_block(uint8_t operation, uint8_t code, uint32_t address) {
    struct ten command = {{operation, (uint8_t)(code << 5), (uint8_t)(address >> 24), (uint8_t)(address >> 16),
                           (uint8_t)(address >> 8), (uint8_t)address, 0, 0, 1, 0}};
    return command;
}

/* Executes and shows a command; returns whether the answer is the one that the story expects. */
static bool step(struct cabinet *c, const char *name, struct ten command, struct bytes buffer, uint64_t expected) {
    struct answer a = execute(c, command.at, sizeof command.at, buffer);
    printf("   %s ", name);
    print_bytes(command.at, sizeof command.at);
    printf(": ");
    print_answer(a);
    return a.number == expected;
}

static void show_block(const char *what, int address, const uint8_t *stored) {
    printf("   %s %d: \"%.*s\" guard ", what, address, LOT, (const char *)stored);
    print_bytes(stored + LOT, 2);
    printf(" application ");
    print_bytes(stored + LOT + 2, 2);
    printf(" reference ");
    print_bytes(stored + LOT + 4, 4);
    putchar('\n');
}

static bool write_lots(struct cabinet *c) {
    char lot_a[LOT + 1] = "lot A: 40 vials, keep at 4 C    ", lot_b[LOT + 1] = "lot B: 12 vials, keep at -80 C  ";
    printf("1. Lot A is written to address %d and lot B to address %d, by WRITE with code 000: the\n"
           "   host sends user data alone, and the cabinet adds guard, application and reference tag.\n",
           ADDRESS_A, ADDRESS_B);
    bool good =
        step(c, "WRITE", one_block(0x2A, 0, ADDRESS_A), (struct bytes){(uint8_t *)lot_a, LOT}, LAMPTASSEL_GOOD) &&
        step(c, "WRITE", one_block(0x2A, 0, ADDRESS_B), (struct bytes){(uint8_t *)lot_b, LOT}, LAMPTASSEL_GOOD);
    show_block("stored at", ADDRESS_A, c->segment.at);
    show_block("stored at", ADDRESS_B, c->segment.at + STORED);
    return good;
}

/* The fault happens in the file, behind the cabinet's back. */
static enum status misplace(struct cabinet *c) {
    printf("\n2. The fault: in the segment file lot B's stored block is put in lot A's place, fields\n"
           "   and all. Nothing in it is damaged, and its guard fits its data.\n");
    memcpy(c->segment.at, c->segment.at + STORED, STORED);
    enum status status = store(c, ADDRESS_A, 1);
    give_back(&c->segment);
    if (status == DONE)
        status = load(&c->segment, c->file, c->name);
    if (status == DONE)
        show_block("stored at", ADDRESS_A, c->segment.at);
    return status;
}

static bool read_refused(struct cabinet *c) {
    uint8_t buffer[LOT], before[LOT];
    memset(buffer, UNTOUCHED, LOT);
    memcpy(before, buffer, LOT);
    printf("\n3. The host reads address %d. The block is judged before a byte of it moves: its\n"
           "   reference tag belongs to another address.\n",
           ADDRESS_A);
    bool refused =
        step(c, "READ", one_block(0x28, 0, ADDRESS_A), (struct bytes){buffer, LOT}, LAMPTASSEL_REFERENCE_CHECK_FAILED);
    bool kept = memcmp(buffer, before, LOT) == 0;
    printf("   The host's buffer: %s.\n", kept ? "not a byte of it has changed" : "CHANGED");
    return refused && kept;
}

/* What the old cabinet did, played with a segment of the one block handed on: data taken as it is stored, unjudged, and
   fresh fields made for the address asked. */
static bool old_cabinet(struct cabinet *c) {
    uint8_t taken[STORED], handed_on[STORED] = {0};
    struct cabinet way = *c;
    way.count = 1;
    way.segment = (struct bytes){handed_on, STORED};
    printf("\n4. A cabinet that makes fresh fields takes the stored ones off unjudged (a READ with code\n"
           "   011 checks nothing) and makes new ones for the address asked (as a WRITE with code 000\n"
           "   does), on their way to the host.\n");
    bool passed = step(c, "READ", one_block(0x28, 3, ADDRESS_A), (struct bytes){taken, STORED}, LAMPTASSEL_GOOD) &&
                  step(&way, "WRITE", one_block(0x2A, 0, ADDRESS_A), (struct bytes){taken, LOT}, LAMPTASSEL_GOOD);
    show_block("handed on for", ADDRESS_A, handed_on);
    printf("   The host checks every field of what it was handed:\n");
    passed = step(&way, "VERIFY", one_block(0x2F, 1, ADDRESS_A), (struct bytes){NULL, 0}, LAMPTASSEL_GOOD) && passed;
    printf("   It passes: the host asked for lot A, has lot B, and all fields say that all is well.\n");
    return passed;
}

static enum status incident(void) {
    struct cabinet c = {.kind = 1, .block = LOT, .first = ADDRESS_A, .count = 2, .name = "the incident's segment file"};
    enum status status = fresh(&c);
    if (status == DONE && (c.file = tmpfile()) == NULL)
        status = broken(c.name);
    bool told = false;
    if (status == DONE) {
        printf("A segment file of type 1 with two blocks of %d bytes, at addresses %d and %d. Behind each\n"
               "block stand its fields: the guard, worked out from the data, an application tag, and a\n"
               "reference tag, which is the block's own address (%d is 00001000 in hexadecimal).\n\n",
               LOT, ADDRESS_A, ADDRESS_B, ADDRESS_A);
        told = write_lots(&c);
        status = store(&c, ADDRESS_A, 2);
    }
    if (status == DONE)
        status = misplace(&c);
    if (status == DONE) {
        told = read_refused(&c) && told;
        told = old_cabinet(&c) && told;
    }
    if (status == DONE && !told) {
        fprintf(stderr, "cabinet: the incident did not go as it should\n");
        status = OTHERWISE;
    }
    return close_cabinet(&c, status);
}

/* ---- The words of the command line ---- */

static bool number_of(uint64_t *number, const char *word, char **end) {
    errno = 0;
    *number = isdigit((unsigned char)word[0]) ? strtoull(word, end, 10) : 0;
    return isdigit((unsigned char)word[0]) && errno == 0;
}

static enum status whole_number(uint64_t *number, const char *word) {
    char *end;
    return number_of(number, word, &end) && *end == '\0' ? DONE : usage("not a number: ", word);
}

/* P itself, or the format choice that gives it. */
static enum status type_of(uint64_t *kind, const char *word) {
    uint64_t choice[4];
    char *end = NULL;
    if (strchr(word, ',') == NULL)
        return whole_number(kind, word);
    const char *next = word;
    for (int i = 0; i < 4; i++, next = end + 1)
        if (!number_of(&choice[i], next, &end) || *end != (i < 3 ? ',' : '\0'))
            return usage("not the four numbers of a format choice: ", word);
    uint64_t number = lamptassel_format_choice(choice[0], choice[1], choice[2], choice[3], kind);
    return number == LAMPTASSEL_GOOD ? DONE : usage("no type: ", meaning(number));
}

static enum status described(struct cabinet *c, char **words) {
    uint64_t *const numbers[] = {&c->block, &c->exponent, &c->first, &c->count, &c->ato};
    enum status status = type_of(&c->kind, words[0]);
    for (int i = 0; i < 5 && status == DONE; i++)
        status = whole_number(numbers[i], words[1 + i]);
    return status;
}

static enum status on_file(enum status (*job)(struct cabinet *), char **words) {
    struct cabinet c = {.name = words[0], .step = 16};
    enum status status = described(&c, words + 1);
    if (status == DONE && words[7] != NULL)
        status = whole_number(&c.step, words[7]);
    return close_cabinet(&c, status == DONE ? job(&c) : status);
}

static enum status run(int count, char **words) {
    if (count == 2 && strcmp(words[1], "incident") == 0)
        return incident();
    if (count == 9 && strcmp(words[1], "--new") == 0)
        return on_file(make_new, words + 2);
    if ((count == 9 || count == 10) && strcmp(words[1], "--scrub") == 0)
        return on_file(scrub, words + 2);
    if (count == 8 && words[1][0] != '-')
        return on_file(serve, words + 1);
    return usage("usage: cabinet incident | cabinet --new FILE P B e W N ATO | cabinet FILE P B e W N ATO | "
                 "cabinet --scrub FILE P B e W N ATO [BLOCKS]", "");
}

int main(int count, char **words) {
    enum status status = run(count, words);
    if (fclose(stdout) != 0 && status == DONE)
        status = broken("standard output");
    return (int)status;
}
