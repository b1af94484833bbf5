/*
 * A small capture station: makes a track with two sectors, reads it, corrects it, tries what a damaged copy,
 * data blocks without data and gap rule two answer, and writes the pair (L track bytes, then L marks) to the
 * file named on the command line.
 */
#include "iso3561.h"

#include <stdio.h>
#include <string.h>

#define L 3906

/* A track with its marks. */
struct pair {
    uint8_t track[L];
    uint8_t marks[L];
};

static const uint8_t label[] = "ISO 3561";
static const uint8_t key[] = "KEY";
static const uint8_t draft[] = "A first draft of the record";
static const uint8_t record[] = "A record of eighty bytes, as one punched card holds it";

/* Answers that were not the expected ones. */
static int surprises;

/* Prints a number and a place, and counts them if they are not the expected ones. */
static void expect(const char *what, unsigned number, size_t place,
                   unsigned wanted_number, size_t wanted_place) {
    int right = number == wanted_number && place == wanted_place;
    printf("%s: %u at %zu%s\n", what, number, place, right ? "" : ", not expected");
    surprises += !right;
}

/* The same for a result that should be 0 at 0. */
static void expect_done(const char *what, uint64_t result) {
    expect(what, iso3561_number(result), iso3561_place(result), ISO3561_DONE, 0);
}

/* The same for a result about a block, with its second number. */
static void expect_fault(const char *what, uint64_t result, unsigned wanted_number,
                         unsigned wanted_fault, size_t wanted_place) {
    int right = iso3561_fault(result) == wanted_fault;
    expect(what, iso3561_number(result), iso3561_place(result), wanted_number, wanted_place);
    printf("  second number %u%s\n", iso3561_fault(result), right ? "" : ", not expected");
    surprises += !right;
}

/* A text filled up with blanks to the 80 bytes of a card. */
static void card(uint8_t out[80], const uint8_t *text) {
    memset(out, ' ', 80);
    memcpy(out, text, strlen((const char *)text));
}

/* Home and sector 0 with eight bytes of data. */
static void make(struct pair *pair) {
    expect_done("blank", iso3561_blank(pair->track, L, pair->marks, L, 100, 7, 0, 0, 0, 0,
                                       key, 0, label, 8));
    expect_done("accept", iso3561_accept(pair->track, L, pair->marks, L));
}

/* One more sector, with a key of 3 and data of 80 bytes. */
static void add(const struct pair *old, struct pair *new_pair) {
    uint8_t data[80];
    card(data, draft);
    expect_done("add sector 1",
                iso3561_add(old->track, L, old->marks, L, new_pair->track, L,
                            new_pair->marks, L, 0, 1, key, 3, data, 80, ISO3561_RULE_ONE, 0, 0));
    expect_done("accept", iso3561_accept(new_pair->track, L, new_pair->marks, L));
}

/* Sector 1's data must be the card with this text. */
static void find(const struct pair *pair, const uint8_t *text) {
    uint8_t data[80];
    uint64_t result = iso3561_find(pair->track, L, pair->marks, L, 1, ISO3561_DATA);
    size_t start = iso3561_part_start(result);
    size_t length = iso3561_part_length(result);
    card(data, text);
    expect_done("find data of sector 1", result);
    if (length != 80 || start != 182 || memcmp(pair->track + start, data, 80) != 0) {
        printf("the data found is not what was written\n");
        surprises++;
        return;
    }
    printf("  %zu bytes at %zu: %.*s\n", length, start, (int)strlen((const char *)text),
           (const char *)pair->track + start);
}

/* Both counts from left to right, then none. */
static void walk(const struct pair *pair) {
    static const size_t places[] = {55, 122};
    uint64_t from = 0;
    uint64_t step;
    size_t i;
    for (i = 0; i < 2; i++) {
        step = iso3561_walk(pair->track, L, pair->marks, L, from);
        expect("walk", iso3561_walk_number(step), iso3561_walk_place(step), ISO3561_DONE,
               places[i]);
        printf("  flag %d, S %d, KL %d, DL %d\n", iso3561_walk_flag(step),
               iso3561_walk_sector(step), iso3561_walk_kl(step), iso3561_walk_dl(step));
        from = iso3561_walk_place(step) + 1;
    }
    step = iso3561_walk(pair->track, L, pair->marks, L, from);
    expect("walk", iso3561_walk_number(step), iso3561_walk_place(step), ISO3561_SECTOR_MISSING, 0);
}

/* Sector 1 gets its final data; a sector that is not there is refused. */
static void correct(const struct pair *old, struct pair *new_pair) {
    uint8_t data[80];
    uint64_t refused;
    card(data, record);
    expect_done("correct sector 1",
                iso3561_correct(old->track, L, old->marks, L, new_pair->track, L,
                                new_pair->marks, L, 1, key, 3, data, 80, ISO3561_RULE_ONE, 0, 0));
    expect_done("accept", iso3561_accept(new_pair->track, L, new_pair->marks, L));
    refused = iso3561_correct(old->track, L, old->marks, L, new_pair->track, L,
                              new_pair->marks, L, 9, key, 3, data, 80, ISO3561_RULE_ONE, 0, 0);
    expect("correct sector 9", iso3561_number(refused), iso3561_place(refused),
           ISO3561_SECTOR_MISSING, 0);
}

/* The closing byte of sector 1's key is lost, then that of its data; a correction does not mend a track
 * that is not accepted, and leaves the lent buffers as they are. */
static void damage(const struct pair *sound) {
    static struct pair damaged, untouched, before;
    memset(&before, 0xA5, sizeof before);
    untouched = before;
    damaged = *sound;
    damaged.track[153 + 6 + 3 + 2] = 0;
    expect_fault("accept with a damaged key", iso3561_accept(damaged.track, L, damaged.marks, L),
                 ISO3561_KEY_WRONG, ISO3561_CLOSING_WRONG, 153);
    damaged = *sound;
    damaged.track[176 + 6 + 80 + 2] = 0;
    expect_fault("accept with damaged data", iso3561_accept(damaged.track, L, damaged.marks, L),
                 ISO3561_DATA_WRONG, ISO3561_CLOSING_WRONG, 176);
    expect_fault("correct sector 1 there",
                 iso3561_correct(damaged.track, L, damaged.marks, L, untouched.track, L,
                                 untouched.marks, L, 1, key, 3, label, 8, ISO3561_RULE_ONE, 0, 0),
                 ISO3561_DATA_WRONG, ISO3561_CLOSING_WRONG, 176);
    if (memcmp(&untouched, &before, sizeof before) != 0) {
        printf("a refusal has written\n");
        surprises++;
    }
}

/* One more sector without key and data. */
static void add_empty(const char *what, const struct pair *old, struct pair *new_pair) {
    expect_done(what, iso3561_add(old->track, L, old->marks, L, new_pair->track, L,
                                  new_pair->marks, L, 0, 1, key, 0, label, 0,
                                  ISO3561_RULE_ONE, 0, 0));
}

/* A data block without data may go on behind its 00, here at 90, with check and closing byte. Then it has ten
 * bytes: a sector is added behind all ten, and a gap that was the least one before is three bytes too short. */
static void without_data(void) {
    static const uint8_t closing[] = {0xFF, 0xFF, 0xCC};
    static struct pair first, second;
    uint64_t result;
    expect_done("blank without data",
                iso3561_blank(first.track, L, first.marks, L, 100, 7, 0, 0, 0, 0, key, 0, label, 0));
    add_empty("add sector 1 behind seven bytes", &first, &second);
    memcpy(second.track + 91, closing, 3);
    result = iso3561_accept(second.track, L, second.marks, L);
    expect("accept with ten bytes there", iso3561_number(result), iso3561_place(result),
           ISO3561_SPAN_TOO_SHORT, 55);
    memcpy(first.track + 91, closing, 3);
    add_empty("add sector 1 behind ten bytes", &first, &second);
    expect_done("accept", iso3561_accept(second.track, L, second.marks, L));
    result = iso3561_walk(second.track, L, second.marks, L, 56);
    expect("walk", iso3561_walk_number(result), iso3561_walk_place(result), ISO3561_DONE, 115);
    if (memcmp(first.track, second.track, 94) != 0) {
        printf("the old block was not copied\n");
        surprises++;
    }
}

/* Sector 0 gets 60 bytes of data, whose block ends at 153, by a rule of the gap. */
static uint64_t correct_by(const struct pair *old, struct pair *new_pair, uint16_t rule,
                           uint16_t a, uint16_t b) {
    static const uint8_t data[60];
    return iso3561_correct(old->track, L, old->marks, L, new_pair->track, L, new_pair->marks, L,
                           0, key, 0, data, sizeof data, rule, a, b);
}

/* Sector 1 must open behind a gap of so many bytes. */
static void expect_gap(const struct pair *pair, size_t gap) {
    uint64_t step = iso3561_walk(pair->track, L, pair->marks, L, 56);
    expect("walk", iso3561_walk_number(step), iso3561_walk_place(step), ISO3561_DONE, 153 + gap);
}

/* By rule two the gap behind 60 bytes gets one byte for every three, 41 in all; or one for every twenty, which is
 * rule one. A ratio greater than one is refused, and leaves the lent buffers as they are. */
static void by_rule_two(const struct pair *old) {
    static struct pair by_three, by_twenty, by_one, before;
    uint64_t refused;
    expect_done("correct sector 0 by rule two, 1 and 3",
                correct_by(old, &by_three, ISO3561_RULE_TWO, 1, 3));
    expect_gap(&by_three, 21 + 20);
    expect_done("accept", iso3561_accept(by_three.track, L, by_three.marks, L));
    expect_done("correct sector 0 by rule two, 1 and 20",
                correct_by(old, &by_twenty, ISO3561_RULE_TWO, 1, 20));
    expect_gap(&by_twenty, 21 + 3);
    expect_done("correct sector 0 by rule one", correct_by(old, &by_one, ISO3561_RULE_ONE, 0, 0));
    if (memcmp(&by_twenty, &by_one, sizeof by_one) != 0) {
        printf("rule two with 1 and 20 is not rule one\n");
        surprises++;
    }
    before = by_three;
    refused = correct_by(old, &by_three, ISO3561_RULE_TWO, 4, 3);
    expect("correct sector 0 by rule two, 4 and 3", iso3561_number(refused), iso3561_place(refused),
           ISO3561_WANTED_WRONG, 0);
    if (memcmp(&by_three, &before, sizeof before) != 0) {
        printf("a refusal has written\n");
        surprises++;
    }
}

/* The pair as the listing program reads it. */
static int save(const char *name, const struct pair *pair) {
    FILE *file = fopen(name, "wb");
    int written;
    if (file == NULL) {
        perror(name);
        return 0;
    }
    written = fwrite(pair->track, 1, L, file) == L && fwrite(pair->marks, 1, L, file) == L;
    if (fclose(file) != 0 || !written) {
        perror(name);
        return 0;
    }
    printf("wrote %d bytes to %s\n", 2 * L, name);
    return 1;
}

int main(int count, char **words) {
    static struct pair one, two, three;
    if (count != 2) {
        fprintf(stderr, "usage: %s FILE\n", words[0]);
        return 2;
    }
    make(&one);
    add(&one, &two);
    find(&two, draft);
    walk(&two);
    correct(&two, &three);
    find(&three, record);
    damage(&three);
    without_data();
    by_rule_two(&three);
    return save(words[1], &three) && surprises == 0 ? 0 : 1;
}
