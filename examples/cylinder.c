/*
 * A capture station that keeps a cylinder in one file: makes three tracks, writes them to the file,
 * reads them back and finds each one's record in what was read. Then a spare bit is set, bytes are lost
 * and buffers are too short, and all that is refused. Given a file name, it writes the file there and
 * reads it back.
 */
#include "iso3561.h"

#include <stdio.h>
#include <string.h>

/* Three tracks of different lengths, and where each starts among the bytes and among the marks. */
#define TRACKS 3
#define SUM (3815 + 3906 + 4002)
static const uint16_t lengths[TRACKS] = {3815, 3906, 4002};
static const size_t starts[TRACKS] = {0, 3815, 3815 + 3906};

/* Header and table, and each track with its marks, eight to a byte. */
#define FILE_LENGTH (4 + 6 * TRACKS + (3815 + 477) + (3906 + 489) + (4002 + 501))
/* The last byte of the first track's marks; its lowest bit is spare. */
#define LAST_MARKS (4 + 6 * TRACKS + 3815 + 477 - 1)

/* How long the data of sector 0 is on each track. */
#define DATA_LENGTH 16

/* Tracks one after the other, their marks likewise, and their lengths: room for any cylinder. */
struct cylinder {
    uint8_t tracks[ISO3561_MOST_TRACKS * ISO3561_LONGEST];
    uint8_t marks[ISO3561_MOST_TRACKS * ISO3561_LONGEST];
    uint16_t lengths[ISO3561_MOST_TRACKS];
};

/* A cylinder's file, and how many bytes it has. */
struct file {
    uint8_t bytes[ISO3561_LONGEST_FILE];
    size_t length;
};

/* The data of sector 0 on each track. */
static const uint8_t records[TRACKS][DATA_LENGTH + 1] = {
    "Cylinder 100 / 0", "Cylinder 100 / 1", "Cylinder 100 / 2"};

/* Answers and bytes that were not the expected ones. */
static int surprises;

/* Prints a number and what is given besides, and counts them if they are not the expected ones. */
static void expect(const char *what, uint64_t result, size_t count, unsigned wanted_number,
                   size_t wanted_count) {
    unsigned number = iso3561_number(result);
    int right = number == wanted_number && count == wanted_count && iso3561_place(result) == 0 &&
                iso3561_fault(result) == 0;
    printf("%s: %u, gives %zu%s\n", what, number, count, right ? "" : ", not expected");
    surprises += !right;
}

/* Counts a result that is not 0 at 0. */
static void expect_done(const char *what, uint64_t result) {
    if (iso3561_number(result) != ISO3561_DONE || iso3561_place(result) != 0) {
        printf("%s: %u at %zu, not expected\n", what, iso3561_number(result),
               iso3561_place(result));
        surprises++;
    }
}

/* Says what differs, and counts it, if two runs of bytes are not the same. */
static void expect_same(const char *what, const void *one, const void *other, size_t length) {
    if (memcmp(one, other, length) != 0) {
        printf("%s: not as expected\n", what);
        surprises++;
    }
}

/* One track for each head, each right behind the one before it. */
static void make(struct cylinder *cylinder) {
    static const uint8_t no_key[1] = {0}; /* no byte of it is lent */
    uint16_t head;
    for (head = 0; head < TRACKS; head++) {
        uint8_t *track = cylinder->tracks + starts[head];
        uint8_t *marks = cylinder->marks + starts[head];
        expect_done("blank", iso3561_blank(track, lengths[head], marks, lengths[head], 100, head,
                                           0, 0, 0, 0, no_key, 0, records[head],
                                           DATA_LENGTH));
        cylinder->lengths[head] = lengths[head];
    }
    /* A damaged track can be kept too: its last byte is marked. */
    cylinder->marks[SUM - 1] = 1;
}

/* The tracks to the file; its first bytes are the header and the table. */
static void pack(const struct cylinder *cylinder, struct file *file) {
    static const uint8_t table[] = {
        0x00, 0x03, 0x00, 0x00,             /* three tracks */
        0x0E, 0xE7, 0x00, 0x00, 0x00, 0x16, /* 3,815 bytes at 22 */
        0x0F, 0x42, 0x00, 0x00, 0x10, 0xDA, /* 3,906 bytes at 4,314 */
        0x0F, 0xA2, 0x00, 0x00, 0x22, 0x05, /* 4,002 bytes at 8,709 */
    };
    uint64_t result = iso3561_cylinder_write(cylinder->tracks, SUM, cylinder->marks, SUM,
                                             cylinder->lengths, TRACKS, file->bytes,
                                             sizeof file->bytes);
    file->length = iso3561_file_length(result);
    expect("write cylinder", result, file->length, ISO3561_DONE, FILE_LENGTH);
    expect_same("header and table", file->bytes, table, sizeof table);
    /* The last mark of 4,002 is the second of its byte. */
    expect_same("the last byte of marks", file->bytes + FILE_LENGTH - 1, "\x40", 1);
}

/* The bytes to a file. */
static int save(const char *name, const struct file *file) {
    FILE *stream = fopen(name, "wb");
    int written;
    if (stream == NULL) {
        perror(name);
        return 0;
    }
    written = fwrite(file->bytes, 1, file->length, stream) == file->length;
    if (fclose(stream) != 0 || !written) {
        perror(name);
        return 0;
    }
    printf("wrote %zu bytes to %s\n", file->length, name);
    return 1;
}

/* The bytes from a file, which has no more than a cylinder's file can have. */
static int load(const char *name, struct file *file) {
    FILE *stream = fopen(name, "rb");
    int longer, failed;
    if (stream == NULL) {
        perror(name);
        return 0;
    }
    file->length = fread(file->bytes, 1, sizeof file->bytes, stream);
    longer = fgetc(stream) != EOF;
    failed = ferror(stream);
    if (failed) {
        perror(name);
    } else if (longer) {
        fprintf(stderr, "%s: longer than a cylinder's file\n", name);
    }
    fclose(stream);
    return !failed && !longer;
}

/* Reads the file into buffers that lend so many bytes, marks and lengths. */
static uint64_t read_into(struct cylinder *cylinder, const struct file *file,
                          size_t tracks_length, size_t marks_length, size_t lengths_count) {
    return iso3561_cylinder_read(file->bytes, file->length, cylinder->tracks, tracks_length,
                                 cylinder->marks, marks_length, cylinder->lengths,
                                 lengths_count);
}

/* Finds each track's record in what was read; each track starts where the one before it ends. */
static void find_records(const struct cylinder *read, size_t count) {
    size_t start = 0, i;
    for (i = 0; i < count; i++) {
        const uint8_t *track = read->tracks + start, *marks = read->marks + start;
        size_t length = read->lengths[i];
        uint64_t found = iso3561_find(track, length, marks, length, 0, ISO3561_DATA);
        const uint8_t *data = track + iso3561_part_start(found);
        size_t data_length = iso3561_part_length(found);
        expect_done("find data of sector 0", found);
        printf("  track %zu, %zu bytes: %.*s\n", i, length, (int)data_length, (const char *)data);
        if (i >= TRACKS || data_length != DATA_LENGTH) {
            printf("other data than was written\n");
            surprises++;
        } else {
            expect_same("the data found", data, records[i], DATA_LENGTH);
        }
        start += length;
    }
}

/* Reads the file as one that is not known, into buffers for any cylinder. */
static void unpack(const struct file *file, const struct cylinder *written) {
    static struct cylinder read, before;
    uint64_t result;
    size_t count;
    memset(&before, 0xA5, sizeof before);
    read = before;
    result = read_into(&read, file, sizeof read.tracks, sizeof read.marks, ISO3561_MOST_TRACKS);
    count = iso3561_track_count(result);
    expect("read cylinder", result, count, ISO3561_DONE, TRACKS);
    find_records(&read, count);
    /* Here the tracks are known: the same ones were read, and nothing behind them was written. */
    expect_same("the tracks read", read.tracks, written->tracks, SUM);
    expect_same("the marks read", read.marks, written->marks, SUM);
    expect_same("the lengths read", read.lengths, lengths, sizeof lengths);
    expect_same("behind the tracks", read.tracks + SUM, before.tracks + SUM,
                sizeof read.tracks - SUM);
    expect_same("behind the marks", read.marks + SUM, before.marks + SUM,
                sizeof read.marks - SUM);
    expect_same("behind the lengths", read.lengths + TRACKS, before.lengths + TRACKS,
                sizeof read.lengths - sizeof lengths);
}

/* One reading that is refused and leaves all as it was. */
static void refuse(const char *what, const struct file *file, size_t tracks_length,
                   size_t marks_length, size_t lengths_count, unsigned wanted_number) {
    static struct cylinder read, before;
    uint64_t result;
    memset(&before, 0xA5, sizeof before);
    read = before;
    result = read_into(&read, file, tracks_length, marks_length, lengths_count);
    expect(what, result, iso3561_track_count(result), wanted_number, 0);
    expect_same("buffers after a refusal", &read, &before, sizeof read);
}

/* What is wrong with a file comes first, and then buffers that are too short. */
static void read_damaged(const struct file *file) {
    static struct file other;
    other = *file;
    refuse("tracks too short", &other, SUM - 1, SUM, TRACKS, ISO3561_BUFFER_TOO_SHORT);
    refuse("marks too short", &other, SUM, SUM - 1, TRACKS, ISO3561_BUFFER_TOO_SHORT);
    refuse("list too short", &other, SUM, SUM, TRACKS - 1, ISO3561_BUFFER_TOO_SHORT);
    other.bytes[LAST_MARKS] |= 1;
    refuse("a spare bit set", &other, SUM - 1, SUM, TRACKS, ISO3561_SPARE_BITS_SET);
    other.length = FILE_LENGTH - 1;
    refuse("a byte lost", &other, SUM, SUM, TRACKS, ISO3561_FILE_LENGTH_WRONG);
    other.bytes[9] ^= 1;
    refuse("another offset", &other, SUM, SUM, TRACKS, ISO3561_OFFSET_WRONG);
    other.bytes[4] = 0;
    refuse("another length", &other, SUM, SUM, TRACKS, ISO3561_LENT_WRONG);
    other.bytes[1] = 11;
    refuse("eleven tracks", &other, SUM, SUM, TRACKS, ISO3561_HEADER_WRONG);
    other.length = 3;
    refuse("three bytes", &other, SUM, SUM, TRACKS, ISO3561_FILE_LENGTH_WRONG);
}

/* One writing that is refused and leaves the file's buffer as it was. */
static void refuse_to_write(const char *what, const struct cylinder *cylinder, size_t count,
                            size_t room, unsigned wanted_number) {
    static uint8_t file[ISO3561_LONGEST_FILE], before[ISO3561_LONGEST_FILE];
    uint64_t result;
    memset(before, 0xA5, sizeof before);
    memcpy(file, before, sizeof file);
    result = iso3561_cylinder_write(cylinder->tracks, SUM, cylinder->marks, SUM,
                                    cylinder->lengths, count, file, room);
    expect(what, result, iso3561_file_length(result), wanted_number, 0);
    expect_same("file after a refusal", file, before, sizeof file);
}

/* A buffer that is too short, a mark of 2, lengths of another sum, and none. */
static void write_damaged(struct cylinder *cylinder) {
    refuse_to_write("file too short", cylinder, TRACKS, FILE_LENGTH - 1, ISO3561_BUFFER_TOO_SHORT);
    cylinder->marks[0] = 2;
    refuse_to_write("a mark of 2", cylinder, TRACKS, FILE_LENGTH, ISO3561_LENT_WRONG);
    cylinder->marks[0] = 0;
    refuse_to_write("two of three tracks", cylinder, TRACKS - 1, FILE_LENGTH, ISO3561_LENT_WRONG);
    refuse_to_write("no track", cylinder, 0, FILE_LENGTH, ISO3561_HEADER_WRONG);
}

int main(int count, char **words) {
    static struct cylinder cylinder;
    static struct file file, read;
    if (count > 2) {
        fprintf(stderr, "usage: %s [FILE]\n", words[0]);
        return 2;
    }
    make(&cylinder);
    pack(&cylinder, &file);
    read = file;
    if (count == 2) {
        memset(&read, 0, sizeof read);
        if (!save(words[1], &file) || !load(words[1], &read)) {
            return 1;
        }
    }
    unpack(&read, &cylinder);
    read_damaged(&read);
    write_damaged(&cylinder);
    return surprises == 0 ? 0 : 1;
}
