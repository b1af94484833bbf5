/*
 * Tracks of interchangeable six-disk packs (ISO 3561), from index to index.
 *
 * A track is lent as two byte slices of one length L, 3,815 to 4,002: the track and its marks.
 * A mark is 1 where the byte was recorded with its first five clocks missing, and else 0.
 * The drive's own form of a track is 2L cell bytes. A track byte is sixteen bit cells: for every bit, B8 (the top bit)
 * first, a clock and then its data; eight bit cells make a cell byte, the first of them its top bit.
 * An unmarked byte has all eight clocks; a marked one is FF without its first five, which makes 55 7F.
 * A cylinder's file holds one to ten tracks with their marks. In memory the tracks stand one after the other in one
 * slice, all their marks likewise in another, and their Ls in a list; below, the sum is that of these Ls.
 * Every slice is a pointer and then a length, every list a pointer and then the number of its elements. Nothing is kept
 * after a call returns.
 * Slices and lists lent for writing overlap no other of the same call. A pointer is never NULL, also where its length is 0.
 */
#ifndef ISO3561_H
#define ISO3561_H

#include <stddef.h>
#include <stdint.h>

#ifdef __cplusplus
extern "C" {
#endif

/* Least and greatest L. */
#define ISO3561_SHORTEST 3815
#define ISO3561_LONGEST 4002

/* No track holds more sectors; List asks for so many rows. */
#define ISO3561_MOST_SECTORS 67

/* No cylinder's file holds more tracks, or has more bytes than that of ten tracks of 4,002 bytes. */
#define ISO3561_MOST_TRACKS 10
#define ISO3561_LONGEST_FILE 45094

/* The number of an answer. */
enum iso3561_number {
    ISO3561_DONE = 0,                /* done */
    ISO3561_LENT_WRONG = 1,          /* a lent length, a mark or an L is out of rule, or List's rows are too few */
    ISO3561_HOME_MISSING = 2,        /* home opens nowhere in its window */
    ISO3561_HOME_CHECK_WRONG = 3,    /* home's check or closing byte is wrong */
    ISO3561_HOME_FIELDS_WRONG = 4,   /* home's flag, cylinder or head is out of rule */
    ISO3561_MARK_STRAY = 5,          /* a mark stands outside a whole opening, or too early */
    ISO3561_FIRST_COUNT_MISSING = 6, /* sector 0's count does not open */
    ISO3561_COUNT_CHECK_WRONG = 7,   /* a count's check or closing byte is wrong */
    ISO3561_COUNT_FIELDS_WRONG = 8,  /* a count's flag, cylinder or head is out of rule */
    ISO3561_SPAN_TOO_SHORT = 9,      /* a count, its blocks or the least gap do not fit the span; see below */
    ISO3561_KEY_WRONG = 10,          /* the key's opening, check or closing byte is wrong: see enum iso3561_fault */
    ISO3561_DATA_WRONG = 11,         /* the data block's likewise, or it is not 00 for DL = 0 */
    ISO3561_SECTOR_MISSING = 12,     /* no candidate carries S, or none is left to walk to */
    ISO3561_SECTOR_REPEATED = 13,    /* two sectors carry one number, or Add repeats one */
    ISO3561_WANTED_WRONG = 14,       /* a wanted field is out of rule; the gap rule, its a and its b too */
    ISO3561_ROOM_MISSING = 15,       /* fewer than 13 bytes would be left behind the last block */
    ISO3561_PAIR_WRONG = 16,         /* the two tracks do not agree, or the first is flagged 11 */
    ISO3561_PATTERN_WRONG = 17,      /* a byte's bit cells are no legal pattern, or a marked byte is not FF */
    ISO3561_HEADER_WRONG = 18,       /* the number of tracks is not 1 to 10, or a file's zero field is not zero */
    ISO3561_OFFSET_WRONG = 19,       /* an offset in a file's table is not where that track has to start */
    ISO3561_FILE_LENGTH_WRONG = 20,  /* a file's header or table is cut short, or it is not as long as its table says */
    ISO3561_SPARE_BITS_SET = 21,     /* a spare bit behind the marks of a file's track is not zero */
    ISO3561_BUFFER_TOO_SHORT = 24    /* a lent slice or list is too short for what would be written */
};

/* ISO3561_SPAN_TOO_SHORT: 21 bytes must follow the data block before the next opening, 13 before index. A data
 * block of DL = 0 has seven bytes, its opening and one 00; or ten, if FF FF CC follows the place of the 00. */

/* The second number of an answer: what was wrong with the block, the first in this order.
 * It is 0 but with ISO3561_KEY_WRONG and ISO3561_DATA_WRONG, which always have one of the others. */
enum iso3561_fault {
    ISO3561_NO_FAULT = 0,      /* the answer is about no block */
    ISO3561_OPENING_WRONG = 1, /* the block does not open */
    ISO3561_CHECK_WRONG = 2,   /* it opens but its check is wrong; for DL = 0 the wrong 00 counts as check */
    ISO3561_CLOSING_WRONG = 3  /* opening and check are right, the closing byte CC is not; never for DL = 0 */
};

/* What Find and Pair find are asked for. */
enum iso3561_wanted {
    ISO3561_KEY = 0, /* the key's information */
    ISO3561_DATA = 1 /* the data's information */
};

/* The gap rule that Add and Correct are told: how many bytes of FF they lay out between a data block and the next
 * count's opening. KL and DL are the lengths of that sector's key and data; the quotient is rounded down. */
enum iso3561_rule {
    ISO3561_RULE_ONE = 1, /* 21 + (KL + DL) / 20; the numbers a and b are not looked at */
    ISO3561_RULE_TWO = 2  /* 21 + (KL + DL) * a / b, with b from 1 to 1,000 and a from 0 to b */
};

/* The columns of a row that List fills. Places are in bytes after index; those of key and data are the first byte
 * after the block's opening of six bytes. */
enum iso3561_row {
    ISO3561_ROW_FLAG = 0,       /* the count's flag */
    ISO3561_ROW_SECTOR = 1,     /* the sector's number S */
    ISO3561_ROW_KL = 2,         /* the key's length */
    ISO3561_ROW_DL = 3,         /* the data's length */
    ISO3561_ROW_KEY_PLACE = 4,  /* the key's place, 0 if KL = 0 */
    ISO3561_ROW_DATA_PLACE = 5, /* the data's place, also if DL = 0 */
    ISO3561_ROW_END = 6,        /* the place after the data block's last byte */
    ISO3561_ROW_GAP = 7         /* how many bytes follow, up to the next count's opening, or up to index */
};

/* ---- The result of every call but iso3561_walk ---- */

/* The answer's number. */
static inline unsigned iso3561_number(uint64_t result) {
    return (unsigned)(result & 0xFF);
}

/* The answer's second number, an enum iso3561_fault: 0 but with answers 10 and 11. Walk's results have none. */
static inline unsigned iso3561_fault(uint64_t result) {
    return (unsigned)(result >> 8 & 3);
}

/* The place the answer speaks of, in bytes after index. */
static inline size_t iso3561_place(uint64_t result) {
    return (size_t)(result >> 16 & 0xFFFF);
}

/* Pair find: the track that the answer speaks of, 0 the first, 1 the second. */
static inline unsigned iso3561_which(uint64_t result) {
    return (unsigned)(result >> 15 & 1);
}

/* Find and Pair find: where the part starts on its track. */
static inline size_t iso3561_part_start(uint64_t result) {
    return (size_t)(result >> 32 & 0xFFFF);
}

/* Find and Pair find: how many bytes the part has. */
static inline size_t iso3561_part_length(uint64_t result) {
    return (size_t)(result >> 48 & 0xFFFF);
}

/* List: how many sectors the track has, which is how many rows were filled; 0 where it refuses. */
static inline size_t iso3561_sector_count(uint64_t result) {
    return (size_t)(result >> 32 & 0xFFFF);
}

/* Read cylinder: how many tracks the file holds, which is how many Ls were written; 0 where it refuses. */
static inline size_t iso3561_track_count(uint64_t result) {
    return (size_t)(result >> 32 & 0xFFFFFFFF);
}

/* Write cylinder: how many bytes the file has; 0 where it refuses. */
static inline size_t iso3561_file_length(uint64_t result) {
    return (size_t)(result >> 32 & 0xFFFFFFFF);
}

/* ---- The result of iso3561_walk ---- */

/* The answer's number: 0, 1 or 12. */
static inline unsigned iso3561_walk_number(uint64_t result) {
    return (unsigned)(result & 0xFF);
}

/* The count's flag. */
static inline uint8_t iso3561_walk_flag(uint64_t result) {
    return (uint8_t)(result >> 8 & 0xFF);
}

/* The place of the count's opening. */
static inline size_t iso3561_walk_place(uint64_t result) {
    return (size_t)(result >> 16 & 0xFFFF);
}

/* The sector's number S. */
static inline uint8_t iso3561_walk_sector(uint64_t result) {
    return (uint8_t)(result >> 32 & 0xFF);
}

/* The key's length KL. */
static inline uint8_t iso3561_walk_kl(uint64_t result) {
    return (uint8_t)(result >> 40 & 0xFF);
}

/* The data's length DL. */
static inline uint16_t iso3561_walk_dl(uint64_t result) {
    return (uint16_t)(result >> 48 & 0xFFFF);
}

/* ==== Reading calls: all slices are lent for reading, nothing is written ==== */

/* Accept: judges the whole track. With answers 10 and 11 iso3561_fault says what was wrong with the block. */
uint64_t iso3561_accept(const uint8_t *track, size_t track_length,
                        const uint8_t *marks, size_t marks_length);

/* Find: the key or data of the one sector with this number, on any track, sound or damaged.
 * The part lies in the lent track; a refusal has an empty part. `wanted` is an enum iso3561_wanted;
 * any other value is answer 14, before anything else is looked at. With answers 10 and 11 iso3561_fault says
 * what was wrong with the block that was asked for; the sector's other block is not looked at. */
uint64_t iso3561_find(const uint8_t *track, size_t track_length,
                      const uint8_t *marks, size_t marks_length,
                      uint8_t sector, uint8_t wanted);

/* Pair find: as Find, from a track or from the alternative that it names.
 * The part lies in the track that iso3561_which tells; number, fault and place are of that track too. */
uint64_t iso3561_pair_find(const uint8_t *track, size_t track_length,
                           const uint8_t *marks, size_t marks_length,
                           const uint8_t *second_track, size_t second_track_length,
                           const uint8_t *second_marks, size_t second_marks_length,
                           uint8_t sector, uint8_t wanted);

/* Walk: the first readable count whose opening's place is at least `from`.
 * Begin with 0 and go on with the place plus 1. Its result has its own layout, see above. */
uint64_t iso3561_walk(const uint8_t *track, size_t track_length,
                      const uint8_t *marks, size_t marks_length,
                      uint64_t from);

/* ==== List: track and marks are read, rows are written; a refusal writes nothing ==== */

/* List: the sectors of an accepted track, one row of eight numbers each, from left to right; see enum iso3561_row.
 * Answer 0 fills the first rows, as many as iso3561_sector_count tells; rows past the last sector stay as they are.
 * Answers: 1, where the rows are fewer than ISO3561_MOST_SECTORS, before anything else is looked at. Then those of
 * iso3561_accept, with the same number, fault and place.
 * A row's end is the one that ISO3561_SPAN_TOO_SHORT counts from: DL + 9 bytes after the block's opening, and for
 * DL = 0 seven or ten. A row's end and gap together are the place of the next row's count, and L in the last row.
 * So the pieces of the track add up to L: home's start, 14 bytes of home, 11; and for each sector 18 bytes of count
 * (20 after the first), 11, for KL > 0 the key's KL + 9 bytes and 11, the data block's bytes, and the gap. */
uint64_t iso3561_list(const uint8_t *track, size_t track_length,
                      const uint8_t *marks, size_t marks_length,
                      uint16_t (*rows)[8], size_t rows_count);

/* ==== Writing calls: a refusal writes nothing, answer 0 writes all L bytes and marks ==== */

/* Blank: writes a new track with home and sector 0. Track and marks are written;
 * key and data are read. The partner is ignored for flags 0 and 3. */
uint64_t iso3561_blank(uint8_t *track, size_t track_length,
                       uint8_t *marks, size_t marks_length,
                       uint16_t cylinder, uint16_t head, uint8_t flag,
                       uint16_t partner_cylinder, uint16_t partner_head, uint8_t sector,
                       const uint8_t *key, size_t key_length,
                       const uint8_t *data, size_t data_length);

/* Add: copies the track with one more sector after the last. The new track and marks, of the
 * same L, are written; all else is read. `b7` is 1 if the record runs on elsewhere.
 * `rule` is an enum iso3561_rule, with `a` and `b` for rule two: it sets the gap behind the block that was the last.
 * All before that gap is copied, the earlier gaps too.
 * A track that Accept refuses is refused here with the same number, fault and place. Then 14 answers for any other
 * rule and for an a or b out of range, as for b7, key and data, before 13 and 15. */
uint64_t iso3561_add(const uint8_t *track, size_t track_length,
                     const uint8_t *marks, size_t marks_length,
                     uint8_t *new_track, size_t new_track_length,
                     uint8_t *new_marks, size_t new_marks_length,
                     uint8_t b7, uint8_t sector,
                     const uint8_t *key, size_t key_length,
                     const uint8_t *data, size_t data_length,
                     uint16_t rule, uint16_t a, uint16_t b);

/* Correct: copies the track with a new key and new data for one sector. The new track and
 * marks, of the same L, are written; all else is read.
 * `rule`, `a` and `b` are as in Add: they set the gaps from this sector on, but for the last one, which runs to index.
 * All before this sector's count is copied, the gaps too.
 * A track that Accept refuses is refused here with the same number, fault and place. Then 14 answers for any other
 * rule and for an a or b out of range, as for key and data, before 12 and 15.
 * Two corrections of different sectors, each possible alone, give one track in either order where both use the same
 * rule, and for rule two the same a and b; with two rules the orders may give two tracks. */
uint64_t iso3561_correct(const uint8_t *track, size_t track_length,
                         const uint8_t *marks, size_t marks_length,
                         uint8_t *new_track, size_t new_track_length,
                         uint8_t *new_marks, size_t new_marks_length,
                         uint8_t sector,
                         const uint8_t *key, size_t key_length,
                         const uint8_t *data, size_t data_length,
                         uint16_t rule, uint16_t a, uint16_t b);

/* ==== Bit cells: a refusal writes nothing, answer 0 writes all of what is lent for writing ==== */

/* From cells: reads the drive's bit cells. Track and marks, of one L, are written; the 2L cell bytes are read.
 * Answers: 0, done. 1, where L is out of range, or the marks or the cell bytes are not L and 2L. Then 17, at the first
 * track byte (not cell byte) whose two cell bytes are no legal pattern. */
uint64_t iso3561_from_cells(const uint8_t *bit_cells, size_t bit_cells_length,
                            uint8_t *track, size_t track_length,
                            uint8_t *marks, size_t marks_length);

/* To cells: the way back. Track and marks are read; the 2L cell bytes are written. The track may be sound or damaged.
 * Answers: 0, done. 1, where L is out of range, the marks or the cell bytes are not L and 2L, or a mark is not 0 or 1.
 * Then 17, at the first marked byte that is not FF. */
uint64_t iso3561_to_cells(const uint8_t *track, size_t track_length,
                          const uint8_t *marks, size_t marks_length,
                          uint8_t *bit_cells, size_t bit_cells_length);

/* ==== One file for a cylinder: a refusal writes nothing, answer 0 writes the start of what is lent for writing ==== */

/* The file, its numbers with the most significant byte first:
 *   2 bytes, how many tracks it holds, 1 to 10; 2 zero bytes;
 *   for each track 6 bytes, its L in 2 and its offset from the file's start in 4;
 *   then each track, without holes: its L bytes, and (L + 7) / 8 bytes with its marks, eight to a byte.
 * The first mark of eight is the top bit; the spare bits of a track's last byte of marks are zero.
 * The tracks may be sound or damaged. Place and second number of both results are 0. */

/* Read cylinder: the tracks of a file. The file is read; the tracks, their marks and their Ls are written.
 * Answer 0 writes the first bytes of tracks and marks, as many as the sum, each mark 0 or 1, and the first Ls of the
 * list, as many as iso3561_track_count tells; all behind these stays as it is.
 * Answers, in this order: 20, where the file has fewer than four bytes. 18, where its number of tracks is not 1 to 10
 * or a zero byte is not zero. 20, where the table is cut short. 1, where an L is out of range. 19, where an offset is
 * not the one that the number of tracks and the Ls before it make. 20, where the file is longer or shorter than its
 * Ls make it. 21, where a spare bit is set. 24, where tracks or marks are shorter than the sum, or the list shorter
 * than the number of tracks; never with ISO3561_MOST_TRACKS * ISO3561_LONGEST bytes each and ISO3561_MOST_TRACKS Ls. */
uint64_t iso3561_cylinder_read(const uint8_t *file, size_t file_length,
                               uint8_t *tracks, size_t tracks_length,
                               uint8_t *marks, size_t marks_length,
                               uint16_t *lengths, size_t lengths_count);

/* Write cylinder: the one file of these tracks. Tracks, marks and Ls are read; the file is written.
 * Answer 0 writes the first bytes of the file's slice, as many as iso3561_file_length tells; all behind these stays
 * as it is.
 * Answers, in this order: 18, where the list has not 1 to 10 Ls. 1, where an L is out of range, tracks or marks are
 * longer or shorter than the sum, or a mark is not 0 or 1. 24, where the file's slice is too short; never with
 * ISO3561_LONGEST_FILE bytes. */
uint64_t iso3561_cylinder_write(const uint8_t *tracks, size_t tracks_length,
                                const uint8_t *marks, size_t marks_length,
                                const uint16_t *lengths, size_t lengths_count,
                                uint8_t *file, size_t file_length);

#ifdef __cplusplus
}
#endif

#endif
