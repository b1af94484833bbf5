/*
 * A capture station whose card gives bit cells: makes a track with two sectors, sends it to
 * bit cells, reads them back and finds the record in what was read. Then one bit cell is lost,
 * and they are refused. Given a file name, it writes the 2L cell bytes there and reads them back.
 */
#include "iso3561.h"

#include <stdio.h>
#include <string.h>

#define L 3906
#define CELL_BYTES (2 * L)

/* Where sector 1 has its opening and its data, and how long that is. */
#define OPENING 122
#define DATA 182
#define DATA_LENGTH (sizeof record - 1)

/* A track with its marks. */
struct pair {
    uint8_t track[L];
    uint8_t marks[L];
};

/* The same in the drive's form. */
struct capture {
    uint8_t bit_cells[CELL_BYTES];
};

static const uint8_t label[] = "ISO 3561";
static const uint8_t key[] = "KEY";
static const uint8_t record[] = "A record that goes to bit cells and comes back";

/* Answers and bytes that were not the expected ones. */
static int surprises;

/* Prints a number and a place, and counts them if they are not the expected ones. */
static void expect(const char *what, uint64_t result, unsigned wanted_number, size_t wanted_place) {
    unsigned number = iso3561_number(result);
    size_t place = iso3561_place(result);
    int right = number == wanted_number && place == wanted_place;
    printf("%s: %u at %zu%s\n", what, number, place, right ? "" : ", not expected");
    surprises += !right;
}

/* The same for a result that should be 0 at 0. */
static void expect_done(const char *what, uint64_t result) {
    expect(what, result, ISO3561_DONE, 0);
}

/* Says what differs, and counts it, if two runs of bytes are not the same. */
static void expect_same(const char *what, const void *one, const void *other, size_t length) {
    if (memcmp(one, other, length) != 0) {
        printf("%s: not as expected\n", what);
        surprises++;
    }
}

/* Home and sector 0, and sector 1 with a key of 3 bytes and the record. */
static void make(struct pair *pair) {
    static struct pair first;
    expect_done("blank", iso3561_blank(first.track, L, first.marks, L, 100, 7, 0, 0, 0, 0,
                                       key, 0, label, 8));
    expect_done("add sector 1", iso3561_add(first.track, L, first.marks, L, pair->track, L,
                                            pair->marks, L, 0, 1, key, 3, record, DATA_LENGTH,
                                            ISO3561_RULE_ONE, 0, 0));
}

/* The bit cells of the pair; sector 1's opening shows both marked bytes as 55 7F. */
static void send(const struct pair *pair, struct capture *capture) {
    static const uint8_t opening[] = {0xAA, 0xAA, 0xAA, 0xAA, 0xAA, 0xAA, 0xAA, 0xAA,
                                      0xFF, 0xFF, 0x55, 0x7F, 0x55, 0x7F, 0xAA, 0xFE};
    const uint8_t *sent = capture->bit_cells + 2 * OPENING;
    size_t i;
    expect_done("to cells", iso3561_to_cells(pair->track, L, pair->marks, L,
                                             capture->bit_cells, CELL_BYTES));
    printf("  cell bytes of the opening at %d:", OPENING);
    for (i = 0; i < sizeof opening; i++) {
        printf(" %02X", sent[i]);
    }
    printf("\n");
    expect_same("the opening's cell bytes", sent, opening, sizeof opening);
}

/* The bit cells to a file. */
static int save(const char *name, const struct capture *capture) {
    FILE *file = fopen(name, "wb");
    int written;
    if (file == NULL) {
        perror(name);
        return 0;
    }
    written = fwrite(capture->bit_cells, 1, CELL_BYTES, file) == CELL_BYTES;
    if (fclose(file) != 0 || !written) {
        perror(name);
        return 0;
    }
    printf("wrote %d cell bytes to %s\n", CELL_BYTES, name);
    return 1;
}

/* The bit cells from a file, which has no more than them. */
static int load(const char *name, struct capture *capture) {
    FILE *file = fopen(name, "rb");
    int whole;
    if (file == NULL) {
        perror(name);
        return 0;
    }
    whole = fread(capture->bit_cells, 1, CELL_BYTES, file) == CELL_BYTES &&
            fgetc(file) == EOF && !ferror(file);
    fclose(file);
    if (!whole) {
        fprintf(stderr, "%s: not %d cell bytes\n", name, CELL_BYTES);
    }
    return whole;
}

/* Reads the bit cells into fresh buffers: the same track, accepted, with the same record. */
static void receive(const struct capture *capture, const struct pair *sent) {
    static struct pair read;
    uint64_t found;
    memset(&read, 0xA5, sizeof read);
    expect_done("from cells", iso3561_from_cells(capture->bit_cells, CELL_BYTES,
                                                 read.track, L, read.marks, L));
    expect_same("the track read", &read, sent, sizeof read);
    expect_done("accept", iso3561_accept(read.track, L, read.marks, L));
    found = iso3561_find(read.track, L, read.marks, L, 1, ISO3561_DATA);
    expect_done("find data of sector 1", found);
    if (iso3561_part_start(found) != DATA || iso3561_part_length(found) != DATA_LENGTH) {
        printf("the data lies elsewhere than it was written\n");
        surprises++;
        return;
    }
    expect_same("the data found", read.track + DATA, record, DATA_LENGTH);
    printf("  %zu bytes at %d: %.*s\n", DATA_LENGTH, DATA, (int)DATA_LENGTH,
           (const char *)read.track + DATA);
}

/* One clock of the record's first byte is lost: a refusal, which writes nothing. */
static void receive_damaged(struct capture *capture) {
    static struct pair read, before;
    memset(&before, 0xA5, sizeof before);
    read = before;
    capture->bit_cells[2 * DATA] ^= 0x80;
    expect("from cells, one bit cell lost",
           iso3561_from_cells(capture->bit_cells, CELL_BYTES, read.track, L, read.marks, L),
           ISO3561_PATTERN_WRONG, DATA);
    expect_same("buffers after a refusal", &read, &before, sizeof read);
}

/* A mark on the opening's last byte, 0E: a refusal, which writes nothing. */
static void send_damaged(struct pair *pair) {
    static struct capture capture, before;
    memset(&before, 0xA5, sizeof before);
    capture = before;
    pair->marks[OPENING + 7] = 1;
    expect("to cells, a mark on 0E",
           iso3561_to_cells(pair->track, L, pair->marks, L, capture.bit_cells, CELL_BYTES),
           ISO3561_PATTERN_WRONG, OPENING + 7);
    expect_same("bit cells after a refusal", &capture, &before, sizeof capture);
}

int main(int count, char **words) {
    static struct pair pair;
    static struct capture capture, read;
    if (count > 2) {
        fprintf(stderr, "usage: %s [FILE]\n", words[0]);
        return 2;
    }
    make(&pair);
    send(&pair, &capture);
    read = capture;
    if (count == 2) {
        memset(&read, 0, sizeof read);
        if (!save(words[1], &capture) || !load(words[1], &read)) {
            return 1;
        }
    }
    receive(&read, &pair);
    receive_damaged(&read);
    send_damaged(&pair);
    return surprises == 0 ? 0 : 1;
}
