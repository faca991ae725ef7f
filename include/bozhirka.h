/* Bozhirka's archives, for programs that link libarchive_c.a. docs/LINKING.md is the page for callers.
 *
 * Every function takes the bytes of an archive, and may be given any bytes: it checks its own input and refuses by
 * number. It keeps nothing between two calls, allocates nothing, and may be called from any thread.
 *
 * The caller owes this, which no library can check: a pointer is never null, also where the length is 0; it points
 * to as many bytes as the length beside it says, at most 2^63 - 1; while a call runs, nobody writes the bytes that it
 * reads, and nobody else reads or writes the space that it fills. So a space overlaps the archive nowhere.
 */
#ifndef BOZHIRKA_H
#define BOZHIRKA_H

#include <stddef.h>
#include <stdint.h>

#ifdef __cplusplus
extern "C" {
#endif

/* The numbers of an answer. A place is counted in bytes from 0 at the start of the archive. */
enum {
    BOZHIRKA_DONE = 0,           /* not refused */
    BOZHIRKA_HEADING_WRONG = 14, /* the heading is cut off, not as stated, or names a kind that is not supplied; place 0 */
    BOZHIRKA_PAIR_WRONG = 15,    /* a pair of the directory is wrong; the place of the pair */
    BOZHIRKA_BLOCK_WRONG = 16,   /* a block is wrong, its values apart; the place of the block */
    BOZHIRKA_VALUE_WRONG = 17,   /* the bytes of a value are no written form; the place of the value */
    BOZHIRKA_SPACE_WRONG = 18,   /* the space has another length, or there is no such job, look or put; no place */
    BOZHIRKA_NOT_BORNE_OUT = 19  /* a look does not show what stands before its job; the place of the look */
};

/* The numbers of the kinds. */
enum {
    BOZHIRKA_WHOLE_STAMPS = 1, /* a stamp is a number of 8 bytes */
    BOZHIRKA_PAGE_STAMPS = 2   /* a volume in 4 bytes, then a page in 4 bytes */
};
enum {
    BOZHIRKA_CARDS = 1, /* revision 4 bytes; unit 1 byte: 0 mm, 1 cm, 2 m, 3 inch; three zero bytes; mass in grams 4 bytes */
    BOZHIRKA_ITEMS = 2  /* tag 1 byte: 0 withdrawn, 1 solid, 2 sub-assembly; three zero bytes; 4 bytes by the tag: zero,
                           the shape, or record number 2 and count 2; four zero bytes */
};

/* Numbers in written forms go high byte first. */
#define BOZHIRKA_STAMP_BYTES 8
#define BOZHIRKA_VALUE_BYTES 12

/* The most records and jobs of an archive, the most looks and the most puts of a job, and the most bytes of an archive
 * that is accepted. */
#define BOZHIRKA_MOST_RECORDS 1024
#define BOZHIRKA_MOST_JOBS 4096
#define BOZHIRKA_MOST_LINES 16
#define BOZHIRKA_LONGEST 2469908

/* The number of a call's answer, and its place: 0 too where there is none. Where the number is not 0, every field
 * beside the answer is 0. */
typedef struct {
    uint8_t number;
    size_t place;
} bozhirka_answer;

/* Inspects an archive whole: heading, directory, opening values, blocks, and then the play, in which every look must
 * show what stands before its job. Answers the number of jobs, or the first fault: 14, 15, 16, 17 or 19. */
typedef struct {
    bozhirka_answer answer;
    size_t jobs;
} bozhirka_inspected;
bozhirka_inspected bozhirka_inspect(const uint8_t *bytes, size_t length);

/* The functions below do not play the looks: they check all the rest, and refuse by 14 to 17 like inspect. They never
 * answer 19, so inspect an archive once before you rely on it. */

/* The numbers of the two kinds, the number of records (1 to 1,024), and that of jobs (0 to 4,096). */
typedef struct {
    bozhirka_answer answer;
    uint8_t stamp_kind;
    uint8_t record_kind;
    size_t records;
    size_t jobs;
} bozhirka_sizes;
bozhirka_sizes bozhirka_read_sizes(const uint8_t *bytes, size_t length);

/* Plays the first jobs of an archive, so many of them, and leaves in the space what stands then: the written form of
 * each record's value, record 0 first. The space has exactly 12 bytes for each record; 18 where it has not, or where
 * there are fewer jobs. A refused call leaves the space as it was. */
bozhirka_answer bozhirka_play(const uint8_t *bytes, size_t length, size_t jobs, uint8_t *space, size_t space_length);

/* The job number k, counted from 0 in final order: the written form of its stamp, its ticket (1 to 4,294,967,295), and
 * how many looks and puts it has, 0 to 16 each. 18 where there is no such job. */
typedef struct {
    bozhirka_answer answer;
    uint8_t stamp[BOZHIRKA_STAMP_BYTES];
    uint32_t ticket;
    size_t looks;
    size_t puts;
} bozhirka_job;
bozhirka_job bozhirka_read_job(const uint8_t *bytes, size_t length, size_t k);

/* The look number i of the job number k, counted from 0 in the order in which they were made: the number of the
 * record, and the written forms of the stamp and of the value that it showed. 18 where there is no such job or look. */
typedef struct {
    bozhirka_answer answer;
    size_t number;
    uint8_t stamp[BOZHIRKA_STAMP_BYTES];
    uint8_t value[BOZHIRKA_VALUE_BYTES];
} bozhirka_look;
bozhirka_look bozhirka_read_look(const uint8_t *bytes, size_t length, size_t k, size_t i);

/* The put number i of the job number k, counted alike: the number of the record, and the written form of the value
 * that it got. 18 where there is no such job or put. */
typedef struct {
    bozhirka_answer answer;
    size_t number;
    uint8_t value[BOZHIRKA_VALUE_BYTES];
} bozhirka_put;
bozhirka_put bozhirka_read_put(const uint8_t *bytes, size_t length, size_t k, size_t i);

#ifdef __cplusplus
}
#endif

#endif
