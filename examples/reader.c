/*
 * Reads a pair file (L track bytes, then L marks) and prints what Accept answers, of an accepted track
 * its layout from index to index, each count that can be read, and its data. It works on damaged tracks too.
 * Given a second pair file, the alternative of a defective track, it prints that one's layout and records,
 * the records as the two tracks together give them.
 */
#include "iso3561.h"

#include <stdio.h>

/* How the program ends. */
enum status {
    ACCEPTED = 0,
    REFUSED = 1,     /* Accept refuses the first track */
    WRONG_CALL = 2,  /* no file, or one that cannot be read; or what was printed is not all there */
    WRONG_LAYOUT = 3 /* the pieces of an accepted track do not follow on, or do not add up to L */
};

/* The lengths that the layout rules give. */
enum length {
    HOME = 14,
    FIRST_COUNT = 18,
    LATER_COUNT = 20,
    SHORT_GAP = 11, /* after home, count and key */
    OPENING = 6,
    AROUND = 9, /* opening, check and closing byte of a key or data block */
    EMPTY = 7,  /* a data block of DL = 0 */
    EMPTY_CLOSED = 10
};

/* A pair as it came from a file: two halves, of unequal length if the file's length is odd. */
struct pair {
    const uint8_t *track;
    size_t track_length;
    const uint8_t *marks;
    size_t marks_length;
};

/* Room for the longest pair and one byte more, so that a longer file is noticed. */
struct room {
    uint8_t bytes[2 * ISO3561_LONGEST + 1];
};

/* Reads a file into the room and takes it as two halves; gives 0 if it cannot be read. */
static int load(const char *name, struct room *room, struct pair *pair) {
    FILE *file = fopen(name, "rb");
    size_t length;
    int failed;
    if (file == NULL) {
        perror(name);
        return 0;
    }
    length = fread(room->bytes, 1, sizeof room->bytes, file);
    failed = ferror(file);
    fclose(file);
    if (failed) {
        fprintf(stderr, "%s: cannot be read\n", name);
        return 0;
    }
    pair->track = room->bytes;
    pair->track_length = length / 2;
    pair->marks = room->bytes + length / 2;
    pair->marks_length = length - length / 2;
    return 1;
}

/* Prints bytes in rows of 16. */
static void print_bytes(const uint8_t *part, size_t length) {
    size_t i;
    for (i = 0; i < length; i++) {
        printf("%s%02x", i % 16 == 0 ? "    " : " ", part[i]);
        if (i % 16 == 15 || i + 1 == length) {
            printf("\n");
        }
    }
}

/* What was wrong with the block that an answer speaks of, to be printed behind its place. */
static const char *fault_words(uint64_t result) {
    switch (iso3561_fault(result)) {
    case ISO3561_OPENING_WRONG:
        return ", the opening is wrong";
    case ISO3561_CHECK_WRONG:
        return ", the check is wrong";
    case ISO3561_CLOSING_WRONG:
        return ", the closing byte is wrong";
    default:
        return "";
    }
}

/* Prints an answer's number and place, and what was wrong with the block. */
static void print_answer(const char *what, uint64_t result) {
    printf("%s: %u at %zu%s\n", what, iso3561_number(result), iso3561_place(result),
           fault_words(result));
}

/* Prints a part of a track, or why there is none. */
static void print_part(const struct pair *pair, uint64_t found) {
    if (iso3561_number(found) != ISO3561_DONE) {
        print_answer("  data", found);
        return;
    }
    printf("  data: %zu bytes\n", iso3561_part_length(found));
    print_bytes(pair->track + iso3561_part_start(found), iso3561_part_length(found));
}

/* Prints the fields of one count. */
static void print_count(uint64_t step) {
    printf("count at %zu: flag %d, S %d, KL %d, DL %d\n", iso3561_walk_place(step),
           iso3561_walk_flag(step), iso3561_walk_sector(step), iso3561_walk_kl(step),
           iso3561_walk_dl(step));
}

/* The first count from a place on. */
static uint64_t walk(const struct pair *pair, uint64_t from) {
    return iso3561_walk(pair->track, pair->track_length, pair->marks, pair->marks_length, from);
}

/* The pieces printed so far: where the next one must begin, the sum of their lengths, and whether all is well. */
struct layout {
    long next;
    long sum;
    int is_right;
};

/* Takes one piece and prints its place and length; says so if it does not follow on from the piece before. */
static void take_piece(struct layout *layout, long place, long length) {
    if (place != layout->next || length < 0) {
        printf("layout wrong: %ld bytes at %ld, where the piece before ends at %ld\n", length,
               place, layout->next);
        layout->is_right = 0;
    }
    printf("  %4ld %4ld  ", place, length);
    layout->next = place + length;
    layout->sum += length;
}

/* Prints a gap, or home. */
static void print_piece(struct layout *layout, long place, long length, const char *what) {
    take_piece(layout, place, length);
    printf("%s\n", what);
}

/* Prints a piece of a sector. */
static void print_block(struct layout *layout, long place, long length, const char *what,
                        const uint16_t *row) {
    take_piece(layout, place, length);
    printf("%s of S %u\n", what, (unsigned)row[ISO3561_ROW_SECTOR]);
}

/* Where a row's count opens: before the data block's opening, the key if there is one, and the gap. */
static long count_place(const uint16_t *row, long count_length) {
    long key = row[ISO3561_ROW_KL] == 0 ? 0 : row[ISO3561_ROW_KL] + AROUND + SHORT_GAP;
    return (long)row[ISO3561_ROW_DATA_PLACE] - OPENING - key - SHORT_GAP - count_length;
}

/* The data block's length by the layout rules; only for DL = 0 the row tells which of the two it is. */
static long data_length(struct layout *layout, const uint16_t *row) {
    long length;
    if (row[ISO3561_ROW_DL] > 0) {
        return (long)row[ISO3561_ROW_DL] + AROUND;
    }
    length = (long)row[ISO3561_ROW_END] - (row[ISO3561_ROW_DATA_PLACE] - OPENING);
    if (length != EMPTY && length != EMPTY_CLOSED) {
        printf("layout wrong: a data block without data has %ld bytes\n", length);
        layout->is_right = 0;
    }
    return length;
}

/* Prints the pieces of one sector: each at the place that its row tells, and as long as the layout rules say. */
static void print_sector(struct layout *layout, const uint16_t *row, long count_length) {
    long count = count_place(row, count_length);
    long key = (long)row[ISO3561_ROW_KEY_PLACE] - OPENING;
    long key_length = (long)row[ISO3561_ROW_KL] + AROUND;
    long data = (long)row[ISO3561_ROW_DATA_PLACE] - OPENING;
    print_block(layout, count, count_length, "count", row);
    print_piece(layout, count + count_length, SHORT_GAP, "gap");
    if (row[ISO3561_ROW_KL] > 0) {
        print_block(layout, key, key_length, "key", row);
        print_piece(layout, key + key_length, SHORT_GAP, "gap");
    }
    print_block(layout, data, data_length(layout, row), "data", row);
    print_piece(layout, row[ISO3561_ROW_END], row[ISO3561_ROW_GAP], "gap");
}

/* Prints all pieces of a track from index to index, and their sum. */
static int print_pieces(uint16_t (*rows)[8], size_t count, size_t track_length) {
    struct layout layout = {0, 0, 1};
    long home = count_place(rows[0], FIRST_COUNT) - SHORT_GAP - HOME;
    size_t i;
    printf("layout: place, length and what it is\n");
    print_piece(&layout, 0, home, "index gap");
    print_piece(&layout, home, HOME, "home");
    print_piece(&layout, home + HOME, SHORT_GAP, "gap");
    for (i = 0; i < count; i++) {
        print_sector(&layout, rows[i], i == 0 ? FIRST_COUNT : LATER_COUNT);
    }
    printf("layout: sum %ld, L %zu\n", layout.sum, track_length);
    if (layout.sum != (long)track_length) {
        printf("layout wrong: the sum is not L\n");
        layout.is_right = 0;
    }
    return layout.is_right;
}

/* Prints the layout of an accepted track; gives 0 if its pieces do not follow on or do not add up to L. */
static int print_layout(const struct pair *pair) {
    uint16_t rows[ISO3561_MOST_SECTORS][8] = {{0}};
    uint64_t listed = iso3561_list(pair->track, pair->track_length, pair->marks,
                                   pair->marks_length, rows, ISO3561_MOST_SECTORS);
    size_t count = iso3561_sector_count(listed);
    if (iso3561_number(listed) != ISO3561_DONE || count < 1 || count > ISO3561_MOST_SECTORS) {
        print_answer("layout wrong: list", listed);
        return 0;
    }
    return print_pieces(rows, count, pair->track_length);
}

/* Accept's answer, and the layout of an accepted track; gives how the program ends. */
static enum status print_judged(const struct pair *pair) {
    uint64_t judged = iso3561_accept(pair->track, pair->track_length, pair->marks,
                                     pair->marks_length);
    print_answer("accept", judged);
    if (iso3561_number(judged) != ISO3561_DONE) {
        return REFUSED;
    }
    return print_layout(pair) ? ACCEPTED : WRONG_LAYOUT;
}

/* Every count of a track with its data, and the number that ends the walk. */
static void print_track(const struct pair *pair) {
    uint64_t step = walk(pair, 0);
    while (iso3561_walk_number(step) == ISO3561_DONE) {
        print_count(step);
        print_part(pair, iso3561_find(pair->track, pair->track_length, pair->marks,
                                      pair->marks_length, iso3561_walk_sector(step),
                                      ISO3561_DATA));
        step = walk(pair, iso3561_walk_place(step) + 1);
    }
    printf("walk: %u\n", iso3561_walk_number(step));
}

/* Every S of the second track with the data that both tracks together give. */
static void print_pair(const struct pair *first, const struct pair *second) {
    uint64_t step = walk(second, 0);
    while (iso3561_walk_number(step) == ISO3561_DONE) {
        uint64_t found = iso3561_pair_find(
            first->track, first->track_length, first->marks, first->marks_length,
            second->track, second->track_length, second->marks, second->marks_length,
            iso3561_walk_sector(step), ISO3561_DATA);
        printf("S %d, from the %s track\n", iso3561_walk_sector(step),
               iso3561_which(found) ? "second" : "first");
        print_part(iso3561_which(found) ? second : first, found);
        step = walk(second, iso3561_walk_place(step) + 1);
    }
    printf("walk: %u\n", iso3561_walk_number(step));
}

/* Whether all that was printed has left the program; says so if not. */
static int all_printed(void) {
    if (fflush(stdout) != 0 || ferror(stdout)) {
        fprintf(stderr, "the output could not be written whole: do not use it\n");
        return 0;
    }
    return 1;
}

int main(int count, char **words) {
    static struct room one, two;
    struct pair first, second;
    enum status status;
    if (count != 2 && count != 3) {
        fprintf(stderr, "usage: %s FILE [ALTERNATIVE]\n", words[0]);
        return WRONG_CALL;
    }
    if (!load(words[1], &one, &first) || (count == 3 && !load(words[2], &two, &second))) {
        return WRONG_CALL;
    }
    status = print_judged(&first);
    print_track(&first);
    if (count == 3) {
        status = print_judged(&second) == WRONG_LAYOUT ? WRONG_LAYOUT : status;
        print_pair(&first, &second);
    }
    return (int)(all_printed() ? status : WRONG_CALL);
}
