/* Ballast cases, judged exactly. The library is crates/ballast_c/out/libballast_c.a; `rt lib` in crates/ballast_c proves it and writes it, for x86-64
 * (x86-64-v2).
 *
 * A case is a file of n moment equations over n tanks, with the tolerance of each figure, an exponent e (an answer Y means Y / 10^e tonnes) and
 * the number of rounds, or with 0 rounds a trial answer of its own. A record is the judged answer; soundings are the answer's depths in the
 * reference tank. A matrix text holds the coefficients alone, in the array form of NIST's Matrix Market format. All four layouts, byte by byte,
 * are in docs/FORMAT.md.
 *
 * Every function here is total: it may be given any lengths and any bytes, and a null pointer where the length is 0. A pointer with a
 * length above 0 points to that many elements and is aligned as its type asks (bytes anywhere, 16-bit figures at even addresses, 32-bit
 * figures at multiples of 4), and what is written to shares no memory with what is read. A function allocates nothing, keeps no state, calls nothing
 * outside the library but memcpy and memset, may be called from any thread, and needs at most BALLAST_STACK_NEED bytes of its stack.
 *
 * The result is one number. From 0 on it is a count; below 0 it is a refusal, -1 to -12. After a refusal no byte of the buffer has changed;
 * after a count the bytes beyond that many are as they were. ballast_read_matrix alone fills a list of figures: after a refusal none of its
 * places has changed, and the count n means that n * n are filled and those beyond are as they were.
 */
#ifndef BALLAST_H
#define BALLAST_H

#include <stddef.h>
#include <stdint.h>

#ifdef __cplusplus
extern "C" {
#endif

/* Raised by every change of a room, of a layout or of what a result means. A program that was compiled with another number than the library's
 * header has is to be compiled again. */
#define BALLAST_VERSION 1

#define BALLAST_MOST_TANKS 8
#define BALLAST_RECORD_ROOM 180   /* the longest record, and the shortest buffer for one */
#define BALLAST_CASE_ROOM 388     /* the longest case, and the shortest buffer for one */
#define BALLAST_TEXT_ROOM 800     /* no printed verdict is longer, and the shortest buffer for one */
#define BALLAST_SOUNDINGS_ROOM 16 /* two bytes for each of eight tanks, and the shortest buffer for soundings */
#define BALLAST_MATRIX_ROOM 496   /* the longest matrix text that is written, and the shortest buffer for one; one to be read may be longer */
#define BALLAST_MATRIX_PLACES 64  /* the coefficients of eight tanks, and the shortest list for those of a matrix text */

/* Measured and not proved: examples/run calls each function on a painted stack and finds 4,448 bytes changed at most. Where memcpy and
 * memset are bound at their first call, what the loader needs for that comes on top. */
#define BALLAST_STACK_NEED 8192

/* Refusals, in the order in which a case or a matrix text is looked through: the first that applies is the one returned. */
enum ballast_refusal {
    BALLAST_BUFFER_TOO_SHORT = -1, /* the buffer or the list to be filled is shorter than its room above; nothing else was looked at */
    BALLAST_FIELD_MISSING = -2,    /* fewer than three bytes are left where a field has to start */
    BALLAST_WRONG_TAG = -3,        /* a field's tag is not the one due at its place */
    BALLAST_WRONG_LENGTH = -4,     /* a field's length is not the one due; in writing, a list has not as many figures as are due */
    BALLAST_VALUE_CUT_SHORT = -5,  /* the file ends within a field's value */
    BALLAST_OUTSIDE_LIMITS = -6,   /* n, the exponent, the rounds or a figure is outside its limits */
    BALLAST_TRAILING_BYTES = -7,   /* something follows the end of the case */
    BALLAST_ZERO_PIVOT = -8,       /* at some step of the elimination every candidate for the pivot is zero; as the steps round, this does not
                                      prove that the equations have no single answer */
    BALLAST_OUTSIDE_RANGE = -9,    /* on the way a figure of the answer left +-10,000,000, or a correction +-20,000,000 */
    BALLAST_OUTSIDE_TABLE = -10,   /* of soundings alone: an answer is negative, so water would have to be pumped out, or is more than the
                                      reference tank holds at 400 cm, 520,000 kg */
    BALLAST_WRONG_MATRIX_HEADER = -11, /* of matrix texts alone: the first line is not the one due, or the size line is missing, not formed
                                          or ended as it has to be, or not n and n with n from 1 to 8 */
    BALLAST_WRONG_MATRIX_ENTRY = -12   /* of matrix texts alone: an entry is malformed, outside its limits or missing, or something follows
                                          the last */
};

/* What a record says of a row with coefficients A, their tolerances E, right side b and its tolerance f, at the answer Y and D = 10^e:
 * the residual R = D b - sum of A Y; the reach T = D f + sum of E |Y|, the largest residual that figures within the tolerances can make up for,
 * so the row is met exactly if |R| is at most T; and |R| / T, the factor on the tolerances that the row needs (0 where R is 0, none where only T is).
 * The row with the greatest factor decides, or the first that has none.
 *
 * Places in a record of n tanks; j and i count tanks and rows from 0. One byte each: */
#define BALLAST_MET_AT 3                        /* 1 for met, 0 for not met */
#define BALLAST_UNMET_AT 4                      /* the first unmet row, counted from 1, or 0 */
#define BALLAST_ROUNDS_AT 5                     /* rounds used, 0 for a trial that the case brought */
#define BALLAST_NONE_AT(n) (15 + 20 * (n))      /* 0 for a factor, 1 for none */
#define BALLAST_DECIDES_AT(n) (16 + 20 * (n))   /* the row that decides the factor, counted from 1 */
/* Numbers, the highest byte first: */
#define BALLAST_ANSWER_AT(j) (9 + 4 * (j))                     /* 4 bytes, two's complement: tank j's answer Y */
#define BALLAST_RESIDUAL_AT(n, i) (12 + 4 * (n) + 16 * (i))    /* 8 bytes, two's complement: row i's residual */
#define BALLAST_REACH_AT(n, i) (20 + 4 * (n) + 16 * (i))       /* 8 bytes, unsigned: row i's reach */

#define BALLAST_RECORD_LENGTH(n) (20 + 20 * (n))
#define BALLAST_RECORD_TANKS(length) (((length) - 20) / 20) /* the n of a record of this length */

/* Place in soundings, the highest byte first; j counts tanks from 0: */
#define BALLAST_DEPTH_AT(j) (2 * (j)) /* 2 bytes, unsigned: tank j's depth in centimetres, 0 to 400 */

/* Reads a case and returns its number of tanks n, 1 to 8, or refuses it with -2 to -7. */
int64_t ballast_check_case(const uint8_t *input, size_t input_length);

/* Works out the case's answer (or takes the trial that it brings), judges it, leaves the record at the front of out and returns the
 * record's length, 20 + 20 n. "Met" in the record means that figures within the case's tolerances balance exactly with that answer, "not
 * met" that none do. Of the rounds' answers the first that is met is taken, and rounds used is its round; where none is met, the one with the
 * least factor, the earliest of equals, and one without a factor only where none has one; rounds used is then the case's number of rounds.
 * Quotients of the rounds' steps are rounded to the nearest whole number, a half to the even one; nothing of the verdict is rounded.
 * Refuses with -1 an out shorter than BALLAST_RECORD_ROOM, then with -2 to -9. */
int64_t ballast_judge_case(const uint8_t *input, size_t input_length, uint8_t *out, size_t out_length);

/* Works out the case's answer (or takes the trial that it brings), the same that the record would hold and met or not, and leaves each tank's
 * depth at the front of out, two bytes each, tank 1 first; returns 2 n. A depth is the greatest, in whole centimetres, at which the reference
 * tank holds no more than the answer; at h centimetres, 0 to 400, it holds 900 h + h h kilograms, and nothing is rounded. No record is
 * written. Refuses with -1 an out shorter than BALLAST_SOUNDINGS_ROOM, then with -2 to -9 what ballast_judge_case refuses so, then with -10
 * an answer of any tank that is negative or above 520,000 kilograms. */
int64_t ballast_soundings(const uint8_t *input, size_t input_length, uint8_t *out, size_t out_length);

/* Writes the printed verdict of a case, as the program `verdict` prints it, to the front of out and returns its length, which is above 0; it
 * ends in a line feed, and no zero byte is written behind it. A refused case has a printed verdict too ("refused 6"), so the only refusal is
 * -1, for an out shorter than BALLAST_TEXT_ROOM. */
int64_t ballast_verdict_text(const uint8_t *input, size_t input_length, uint8_t *out, size_t out_length);

/* Writes the case with these figures to the front of out and returns its length. Coefficients and their tolerances stand row after row,
 * n * n of each; the trial has n figures where rounds is 0, and none otherwise. Refuses with -1 an out shorter than BALLAST_CASE_ROOM, then
 * with -6 an n (1 to 8), exponent (0 to 3) or rounds (0 to 8) outside its limits, then with -4 a list whose count is not the one due, then
 * with -6 any other figure outside its limits: coefficients +-32,767, their tolerances 0 to 32,767, right sides +-1,000,000,000, theirs 0 to
 * 1,000,000,000, trial figures +-10,000,000. */
int64_t ballast_write_case(size_t n, size_t exponent, size_t rounds,
                           const int16_t *coefficients, size_t coefficient_count,
                           const uint16_t *tolerances, size_t tolerance_count,
                           const int32_t *right_sides, size_t right_side_count,
                           const uint32_t *right_tolerances, size_t right_tolerance_count,
                           const int32_t *trial, size_t trial_count,
                           uint8_t *out, size_t out_length);

/* Reads a matrix text, leaves its coefficients at the front of the list, row after row, and returns their n, 1 to 8; n * n places are filled.
 * Lines of the text, each ended by one line feed: first "%%MatrixMarket matrix array integer general", byte for byte; then any number of
 * comment lines, which start with a percent sign; then the size line, the digit n twice with one or more spaces between; then n * n entries,
 * one a line and column after column, each an optional minus and one to five digits, within +-32,767, the limits of a coefficient in
 * ballast_write_case. Nothing follows. Refuses with -1 a list of fewer places than BALLAST_MATRIX_PLACES, then with -11 a wrong first line or
 * size line, then with -12 the first wrong entry, or anything behind the last. No other refusal occurs. */
int64_t ballast_read_matrix(const uint8_t *text, size_t text_length, int16_t *coefficients, size_t coefficient_count);

/* Writes the matrix text of these coefficients, n * n of them row after row, to the front of out and returns its length: no comments, one space
 * in the size line, no leading zeros, a minus only below zero, and no zero byte behind it. ballast_read_matrix reads them back from it. Refuses
 * with -1 an out shorter than BALLAST_MATRIX_ROOM, then with -6 an n outside 1 to 8, then with -4 a count that is not n * n, then with -6 a
 * coefficient outside +-32,767. */
int64_t ballast_write_matrix(size_t n, const int16_t *coefficients, size_t coefficient_count, uint8_t *out, size_t out_length);

#ifdef __cplusplus
}
#endif

#endif
