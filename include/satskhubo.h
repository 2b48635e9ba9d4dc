/*
 * Satskhubo: does a run log keep the rule of a sheet?
 *
 * Link with libbench.a (`sh build.sh` writes target/staticlib/libbench.a).
 *
 * Sheets and logs are texts in the columns of document 01. Every byte range is a pointer and a length; a length of 0 needs no
 * memory, but the pointer must not be null. Nothing is kept between calls, nothing is allocated, no call blocks, and calls on
 * different threads do not meet.
 *
 * Every function gives one number. 1 to 10: the sheet is refused; 21 to 27: the log is refused; 31 to 34: the antiscenario's
 * number, the buffer, the places or the number of positions is refused; 0: the operation was carried out. The check gives 100 as
 * well: the sheet is violated; with a limit also 102: it stopped. The sheet's refusals come before the log's, and the log's before
 * 31 to 34. On a refusal no memory of the caller's is written, but for satskhubo_show and satskhubo_line, which refuse nothing.
 */
#ifndef SATSKHUBO_H
#define SATSKHUBO_H

#include <stdbool.h>
#include <stddef.h>
#include <stdint.h>

#ifdef __cplusplus
extern "C" {
#endif

/* The most points that an antiscenario has. */
#define SATSKHUBO_MOST_POINTS 58

/* The most bytes that a written antiscenario has: a first line of 7 and 98 rows of 35. */
#define SATSKHUBO_MOST_TEXT 3437

/*
 * A placement, handed over whole: a position for each point in order of introduction, and their number. Entries past the number
 * are not read.
 */
struct satskhubo_placement {
    uint32_t positions[SATSKHUBO_MOST_POINTS];
    size_t count;
};

/* The check in one number: 0 the sheet holds on the log, 100 it is violated, else the refusal. Writes nothing. */
uint32_t check(const uint8_t *sheet, size_t sheet_len, const uint8_t *log, size_t log_len);

/* Reads a log. 0: *lines is n, the number of its lines. 21 to 27: *lines is unchanged. */
uint32_t satskhubo_read_log(const uint8_t *log, size_t log_len, uint32_t *lines);

/* Reads a sheet. 0: *count is N, the number of its antiscenarios, at most 12,230,590,464. 1 to 10: *count is unchanged. */
uint32_t satskhubo_read_sheet(const uint8_t *sheet, size_t sheet_len, uint64_t *count);

/*
 * Judges a placement of antiscenario `number`. 0: *met says whether it is a matching; a position outside 1 to n is a no.
 * 31: the number is not in 1 to N. 34: placement.count is not the number of its points. Refused: *met is unchanged.
 */
uint32_t satskhubo_judge(const uint8_t *sheet, size_t sheet_len, const uint8_t *log, size_t log_len, uint64_t number,
                         struct satskhubo_placement placement, bool *met);

/*
 * Writes antiscenario `number` as a text. 0: the text stands at the front of the buffer, *length is its length, and the bytes
 * after it are as they were. 31: the number is not in 1 to N. 32: the buffer is too short. Refused: buffer and *length are
 * unchanged. A buffer of SATSKHUBO_MOST_TEXT bytes is always long enough.
 */
uint32_t satskhubo_write(const uint8_t *sheet, size_t sheet_len, uint64_t number, uint8_t *buffer, size_t buffer_len,
                         size_t *length);

/*
 * Says whether antiscenario `number` is impossible: its rows contradict each other, and it has no matching on any log. 0:
 * *impossible is true where the sets of its POINT, NEXT, LAST and EVENT rows for one point have no event in common, where an APART
 * row lies inside one point, or where its BEFORE, NEXT and LAST rows, read as "lower than", lead from a point back to itself, points
 * joined by SAME rows being one; else it is false, which does not promise that some log has a matching. 31: the number is not in 1
 * to N. Refused: *impossible is unchanged.
 */
uint32_t satskhubo_impossible(const uint8_t *sheet, size_t sheet_len, uint64_t number, bool *impossible);

/*
 * Searches for the smallest matching of antiscenario `number`. 0 and *found true: its positions stand at the front of the
 * places, in order of introduction, and the places after them are as they were. 0 and *found false: it has no matching, and the
 * places are unchanged. 31: the number is not in 1 to N. 33: fewer places than points. Refused: places and *found are unchanged.
 * SATSKHUBO_MOST_POINTS places are always enough.
 */
uint32_t satskhubo_search(const uint8_t *sheet, size_t sheet_len, const uint8_t *log, size_t log_len, uint64_t number,
                          uint32_t *places, size_t places_len, bool *found);

/*
 * The check with its findings. 100, violated: *points is the number of the antecedent's points and positions[0] to
 * positions[*points - 1] the smallest placement of them that extends to no consequent; *consequents is k and rows[0] to
 * rows[*consequents - 1] are, for each consequent, the number in the sheet (from 1) of its first row that cannot be met. What
 * stands past these is unchanged. 0, holds, or refused: all four are unchanged. positions has room for 4, rows for 6.
 */
uint32_t satskhubo_check(const uint8_t *sheet, size_t sheet_len, const uint8_t *log, size_t log_len, uint32_t positions[4],
                         uint32_t *points, uint32_t rows[6], uint32_t *consequents);

/*
 * The check with a limit: looks at the antecedent's matchings in order, smallest first, and at no more than `limit` of them.
 * 0, holds: there are at most `limit`, and all extend. 100, violated: one of the first `limit` extends to no consequent; the
 * first four are written as by satskhubo_check. 102, stopped: the first `limit` all extend, and there is one more; whether the
 * sheet holds is not known. With 0, 100 and 102 *looked is the number of matchings looked at, and *after how many of all
 * placements of the antecedent's points, met or not, come after the last of them (all, where none was looked at): of these,
 * besides the one that is written, at most so many can be violating. Unless it stops it says what satskhubo_check says, and with
 * UINT64_MAX it never stops; satskhubo_check itself sets no limit. Else the refusal: all six are unchanged.
 */
uint32_t satskhubo_check_limited(const uint8_t *sheet, size_t sheet_len, const uint8_t *log, size_t log_len, uint64_t limit,
                                 uint32_t positions[4], uint32_t *points, uint32_t rows[6], uint32_t *consequents,
                                 uint64_t *looked, uint64_t *after);

/*
 * Shows the line that the check's refusal is about. Gives that refusal, or 0, and always writes the part: *of_log says whether it
 * is one of the log or of the sheet, *offset where it begins and *length how many bytes it has. Nothing refused: the empty part
 * at the sheet's front.
 */
uint32_t satskhubo_show(const uint8_t *sheet, size_t sheet_len, const uint8_t *log, size_t log_len, bool *of_log,
                        size_t *offset, size_t *length);

/* The most bytes that a line of a sheet or of a log has: a sheet's row. */
#define SATSKHUBO_MOST_LINE 35

/*
 * Shows the line itself. Gives the check's refusal, or 0, and always writes: the bytes of the line that the refusal is about stand
 * at the front of `line`, the bytes after them are as they were, and *length is their number. Nothing refused: *length is 0.
 */
uint32_t satskhubo_line(const uint8_t *sheet, size_t sheet_len, const uint8_t *log, size_t log_len,
                        uint8_t line[SATSKHUBO_MOST_LINE], size_t *length);

/*
 * A number in a field, for hosts that read or write columns of their own. read: 0 and *value is the number in the first `width`
 * bytes; 1: they are not well formed, or there are fewer, and *value is unchanged. write: 0 and the `width` bytes from `at` on are
 * the number, right-justified, all others as they were; 1: the number does not fit the width or the field does not fit the buffer,
 * and the buffer is unchanged.
 */
uint32_t satskhubo_read_field(const uint8_t *text, size_t text_len, size_t width, uint32_t *value);
uint32_t satskhubo_write_field(uint8_t *buffer, size_t buffer_len, size_t at, size_t width, uint32_t value);

#ifdef __cplusplus
}
#endif

#endif
