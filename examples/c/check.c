/* Holds the library to its header: sizes, refusals, what stays untouched, and the printed verdicts of the samples.
 * Arguments: pairs of a case file and the text that it prints. */
#include <stdio.h>
#include <stdlib.h>
#include <string.h>

#include "ballast.h"

_Static_assert(BALLAST_RECORD_ROOM == BALLAST_RECORD_LENGTH(BALLAST_MOST_TANKS), "the longest record");
_Static_assert(BALLAST_RECORD_TANKS(BALLAST_RECORD_LENGTH(5)) == 5, "a record's length tells its tanks");
/* Each field is behind the one before it, with its tag and length of three bytes. */
_Static_assert(BALLAST_ANSWER_AT(0) == BALLAST_ROUNDS_AT + 1 + 3, "the answer is behind the verdict");
_Static_assert(BALLAST_RESIDUAL_AT(5, 0) == BALLAST_ANSWER_AT(5) + 3, "the rows are behind the answer");
_Static_assert(BALLAST_REACH_AT(5, 4) == BALLAST_RESIDUAL_AT(5, 4) + 8, "a row's reach is behind its residual");
_Static_assert(BALLAST_NONE_AT(5) == BALLAST_REACH_AT(5, 4) + 8 + 3, "the factor is behind the rows");
_Static_assert(BALLAST_RECORD_LENGTH(5) == BALLAST_DECIDES_AT(5) + 1 + 3, "the end is behind the factor");
_Static_assert(BALLAST_SOUNDINGS_ROOM == BALLAST_DEPTH_AT(BALLAST_MOST_TANKS), "a depth for each of the most tanks");
_Static_assert(BALLAST_CASE_ROOM == 6 + BALLAST_MOST_TANKS * (11 + 4 * BALLAST_MOST_TANKS) + (3 + 4 * BALLAST_MOST_TANKS) + 3, "the longest case");

#define FIRST_LINE "%%MatrixMarket matrix array integer general\n"
#define CHARACTERS(text) (sizeof text - 1)
_Static_assert(BALLAST_MATRIX_PLACES == BALLAST_MOST_TANKS * BALLAST_MOST_TANKS, "a place for each coefficient of the most tanks");
_Static_assert(BALLAST_MATRIX_ROOM == CHARACTERS(FIRST_LINE) + CHARACTERS("8 8\n") + BALLAST_MATRIX_PLACES * CHARACTERS("-32767\n"),
               "the longest matrix text");

enum { ROOM = 1000, FILLER = 0xA5 };

static int failures;

static void expect(int holds, const char *what)
{
    if (!holds) {
        printf("check: %s\n", what);
        failures++;
    }
}

static int untouched(const uint8_t *buffer, size_t from)
{
    for (size_t i = from; i < ROOM; i++)
        if (buffer[i] != FILLER)
            return 0;
    return 1;
}

static int untouched_places(const int16_t *list, size_t from)
{
    return untouched((const uint8_t *)list, from * sizeof *list);
}

static uint8_t *fresh(void)
{
    static uint8_t buffer[ROOM];
    memset(buffer, FILLER, sizeof buffer);
    return buffer;
}

static int16_t *fresh_list(void)
{
    static int16_t list[ROOM / sizeof(int16_t)];
    memset(list, FILLER, sizeof list);
    return list;
}

/* One tank, e = 1, K = 1: 5 x = -2. */
static int64_t write_one_tank(uint8_t *out, size_t room)
{
    const int16_t coefficient = 5;
    const uint16_t tolerance = 0;
    const int32_t right_side = -2;
    const uint32_t right_tolerance = 0;
    return ballast_write_case(1, 1, 1, &coefficient, 1, &tolerance, 1, &right_side, 1, &right_tolerance, 1, NULL, 0, out, room);
}

static void check_writing(void)
{
    uint8_t *out = fresh();
    expect(write_one_tank(out, BALLAST_CASE_ROOM - 1) == BALLAST_BUFFER_TOO_SHORT, "a buffer of 387 bytes is refused");
    expect(untouched(out, 0), "a refused writing changes no byte");
    expect(ballast_write_case(9, 0, 1, NULL, 0, NULL, 0, NULL, 0, NULL, 0, NULL, 0, out, ROOM) == BALLAST_OUTSIDE_LIMITS, "nine tanks are refused");
    expect(ballast_write_case(1, 0, 1, NULL, 0, NULL, 0, NULL, 0, NULL, 0, NULL, 0, out, ROOM) == BALLAST_WRONG_LENGTH, "an empty list is refused");
    expect(write_one_tank(out, BALLAST_CASE_ROOM) == 24, "the case of one tank has 24 bytes");
    expect(untouched(out, 24), "bytes beyond the case stay");
    expect(ballast_check_case(out, 24) == 1, "what was written is read");
}

static void check_judging(void)
{
    static const uint8_t record[] = {0x10, 0, 3, 1, 0, 1, 0x11, 0, 4, 0xFF, 0xFF, 0xFF, 0xFC, 0x12, 0, 16, 0, 0, 0, 0, 0, 0, 0, 0, 0,
                                     0,    0, 0, 0, 0, 0, 0, 0x13, 0, 2, 0, 1, 0xFF, 0, 0};
    uint8_t input[BALLAST_CASE_ROOM];
    int64_t length = write_one_tank(input, sizeof input);
    uint8_t *out = fresh();
    expect(ballast_judge_case(input, (size_t)length, out, BALLAST_RECORD_ROOM - 1) == BALLAST_BUFFER_TOO_SHORT, "a buffer of 179 bytes is refused");
    expect(ballast_judge_case(NULL, 0, out, ROOM) == BALLAST_FIELD_MISSING, "an empty input is refused");
    expect(ballast_judge_case(input, (size_t)length - 1, out, ROOM) == BALLAST_FIELD_MISSING, "a cut case is refused");
    expect(untouched(out, 0), "a refused judging changes no byte");
    expect(ballast_judge_case(input, (size_t)length, out, BALLAST_RECORD_ROOM) == sizeof record, "the record has 40 bytes");
    expect(memcmp(out, record, sizeof record) == 0, "the record of document 01");
    expect(out[BALLAST_MET_AT] == 1 && out[BALLAST_UNMET_AT] == 0 && out[BALLAST_ROUNDS_AT] == 1, "met, no unmet row, one round");
    expect(out[BALLAST_ANSWER_AT(0) + 3] == 0xFC && out[BALLAST_RESIDUAL_AT(1, 0) + 7] == 0 && out[BALLAST_REACH_AT(1, 0) + 7] == 0,
           "the answer -4, no residual and no reach");
    expect(out[BALLAST_NONE_AT(1)] == 0 && out[BALLAST_DECIDES_AT(1)] == 1, "a factor, of row 1");
    expect(untouched(out, sizeof record), "bytes beyond the record stay");
}

/* Two tanks with a trial in tonnes. Its rows are not met, which plays no part for soundings. */
static size_t write_trial(int32_t first, int32_t second, uint8_t *out)
{
    const int16_t coefficients[4] = {1, 0, 0, 1};
    const uint16_t tolerances[4] = {0};
    const int32_t right_sides[2] = {-1, -1};
    const uint32_t right_tolerances[2] = {0};
    const int32_t trial[2] = {first, second};
    int64_t length = ballast_write_case(2, 0, 0, coefficients, 4, tolerances, 4, right_sides, 2, right_tolerances, 2, trial, 2,
                                        out, BALLAST_CASE_ROOM);
    expect(length > 0, "a trial of two tanks is written");
    return (size_t)length;
}

static void check_refused_soundings(void)
{
    uint8_t input[BALLAST_CASE_ROOM];
    uint8_t *out = fresh();
    size_t length = write_trial(7, 520, input);
    expect(ballast_soundings(input, length, out, BALLAST_SOUNDINGS_ROOM - 1) == BALLAST_BUFFER_TOO_SHORT, "a buffer of 15 bytes is refused");
    expect(ballast_soundings(NULL, 0, out, BALLAST_SOUNDINGS_ROOM) == BALLAST_FIELD_MISSING, "an empty input has no soundings");
    expect(ballast_soundings(input, length - 1, out, ROOM) == BALLAST_FIELD_MISSING, "a cut case has no soundings");
    length = write_trial(7, 521, input);
    expect(ballast_soundings(input, length, out, ROOM) == BALLAST_OUTSIDE_TABLE, "521 tonnes are above the table");
    expect(ballast_soundings(input, length, out, BALLAST_SOUNDINGS_ROOM - 1) == BALLAST_BUFFER_TOO_SHORT, "a short buffer is refused first");
    length = write_trial(7, -1, input);
    expect(ballast_soundings(input, length, out, BALLAST_SOUNDINGS_ROOM) == BALLAST_OUTSIDE_TABLE, "a negative answer has no depth");
    expect(untouched(out, 0), "refused soundings change no byte");
}

static void check_soundings(void)
{
    static const uint8_t depths[] = {0, 7, 400 >> 8, 400 & 0xFF};
    uint8_t input[BALLAST_CASE_ROOM];
    size_t length = write_trial(7, 520, input);
    uint8_t *out = fresh();
    expect(ballast_soundings(input, length, out, BALLAST_SOUNDINGS_ROOM) == sizeof depths, "the soundings of two tanks have 4 bytes");
    expect(memcmp(out, depths, sizeof depths) == 0, "7 and 400 cm");
    expect(out[BALLAST_DEPTH_AT(0) + 1] == 7 && out[BALLAST_DEPTH_AT(1)] == 1, "the places of the depths");
    expect(untouched(out, sizeof depths), "bytes beyond the depths stay");
    out = fresh();
    expect(ballast_soundings(input, length, out, ROOM) == sizeof depths, "a longer buffer is taken");
    expect(untouched(out, sizeof depths), "bytes beyond the depths stay in it too");
}

static int64_t read_matrix(const char *text, int16_t *list)
{
    return ballast_read_matrix((const uint8_t *)text, strlen(text), list, BALLAST_MATRIX_PLACES);
}

static void check_refused_matrices(void)
{
    static const char *const headers[] = {"", "%%MatrixMarket matrix array integer symmetric\n1 1\n5\n", FIRST_LINE, FIRST_LINE "% 1 1",
                                          FIRST_LINE "1 1", FIRST_LINE "\n1 1\n5\n", FIRST_LINE "1 1\r\n5\n", FIRST_LINE "1 2\n5\n5\n",
                                          FIRST_LINE "11\n5\n", FIRST_LINE "0 0\n", FIRST_LINE "9 9\n5\n"};
    static const char *const entries[] = {FIRST_LINE "1 1\n", FIRST_LINE "1 1\n5", FIRST_LINE "1 1\n5\n\n", FIRST_LINE "1 1\n5\n5\n",
                                          FIRST_LINE "1 1\n%\n5\n", FIRST_LINE "1 1\n+5\n", FIRST_LINE "1 1\n000005\n", FIRST_LINE "1 1\n32768\n",
                                          FIRST_LINE "1 1\n-32768\n", FIRST_LINE "2 2\n1\n2\n3\n"};
    int16_t *list = fresh_list();
    for (size_t i = 0; i < sizeof headers / sizeof *headers; i++)
        expect(read_matrix(headers[i], list) == BALLAST_WRONG_MATRIX_HEADER, headers[i]);
    for (size_t i = 0; i < sizeof entries / sizeof *entries; i++)
        expect(read_matrix(entries[i], list) == BALLAST_WRONG_MATRIX_ENTRY, entries[i]);
    expect(ballast_read_matrix(NULL, 0, list, BALLAST_MATRIX_PLACES) == BALLAST_WRONG_MATRIX_HEADER, "an empty text is refused");
    expect(ballast_read_matrix(NULL, 0, list, BALLAST_MATRIX_PLACES - 1) == BALLAST_BUFFER_TOO_SHORT, "a list of 63 places is refused first");
    expect(untouched_places(list, 0), "a refused matrix changes no place");
}

static void check_matrix_reading(void)
{
    static const int16_t coefficients[] = {1, 20, -3, 0};
    int16_t *list = fresh_list();
    expect(read_matrix(FIRST_LINE "%\n% 7 7\n2   2\n1\n-00003\n020\n-0\n", list) == 2, "a text of two tanks is read into 64 places");
    expect(memcmp(list, coefficients, sizeof coefficients) == 0, "the list is row after row, the text column after column");
    expect(untouched_places(list, 4), "places past n * n stay");
}

static void check_refused_matrix_writing(void)
{
    static const int16_t figures[] = {1, 2, 3, -32768, 5};
    uint8_t *out = fresh();
    expect(ballast_write_matrix(0, NULL, 0, out, BALLAST_MATRIX_ROOM - 1) == BALLAST_BUFFER_TOO_SHORT, "a buffer of 495 bytes is refused first");
    expect(ballast_write_matrix(0, NULL, 0, out, ROOM) == BALLAST_OUTSIDE_LIMITS, "a matrix of no tanks is refused");
    expect(ballast_write_matrix(9, NULL, 0, out, ROOM) == BALLAST_OUTSIDE_LIMITS, "a matrix of nine tanks is refused");
    expect(ballast_write_matrix(SIZE_MAX, NULL, 0, out, ROOM) == BALLAST_OUTSIDE_LIMITS, "a matrix of all the tanks that can be counted is refused");
    expect(ballast_write_matrix(1, NULL, 0, out, ROOM) == BALLAST_WRONG_LENGTH, "an empty list of coefficients is refused");
    expect(ballast_write_matrix(2, figures, 5, out, ROOM) == BALLAST_WRONG_LENGTH, "five coefficients of two tanks are refused");
    expect(ballast_write_matrix(2, figures, 4, out, ROOM) == BALLAST_OUTSIDE_LIMITS, "the coefficient -32,768 is refused");
    expect(untouched(out, 0), "a refused writing of a matrix changes no byte");
}

static void check_matrix_writing(void)
{
    static const char text[] = FIRST_LINE "2 2\n1\n-3\n20\n0\n";
    static const int16_t coefficients[] = {1, 20, -3, 0};
    uint8_t *out = fresh();
    expect(ballast_write_matrix(2, coefficients, 4, out, BALLAST_MATRIX_ROOM) == CHARACTERS(text), "a matrix is written into 496 bytes");
    expect(memcmp(out, text, CHARACTERS(text)) == 0, "the text of a matrix");
    expect(untouched(out, CHARACTERS(text)), "bytes beyond the text of a matrix stay");
    int16_t least[BALLAST_MATRIX_PLACES], *list = fresh_list();
    for (size_t i = 0; i < BALLAST_MATRIX_PLACES; i++)
        least[i] = -32767;
    out = fresh();
    expect(ballast_write_matrix(8, least, BALLAST_MATRIX_PLACES, out, BALLAST_MATRIX_ROOM) == BALLAST_MATRIX_ROOM, "the longest text has 496 bytes");
    expect(untouched(out, BALLAST_MATRIX_ROOM), "bytes beyond the longest text stay");
    expect(ballast_read_matrix(out, BALLAST_MATRIX_ROOM, list, BALLAST_MATRIX_PLACES) == 8 && memcmp(list, least, sizeof least) == 0,
           "the longest text is read");
}

static void check_nothing(void)
{
    expect(ballast_check_case(NULL, 0) == BALLAST_FIELD_MISSING, "no input is refused by reading");
    expect(ballast_judge_case(NULL, 0, NULL, 0) == BALLAST_BUFFER_TOO_SHORT, "no buffer is refused by judging");
    expect(ballast_soundings(NULL, 0, NULL, 0) == BALLAST_BUFFER_TOO_SHORT, "no buffer is refused by soundings");
    expect(ballast_verdict_text(NULL, 0, NULL, 0) == BALLAST_BUFFER_TOO_SHORT, "no buffer is refused by printing");
    expect(ballast_write_case(1, 0, 1, NULL, 0, NULL, 0, NULL, 0, NULL, 0, NULL, 0, NULL, 0) == BALLAST_BUFFER_TOO_SHORT,
           "no buffer is refused by writing");
    expect(ballast_read_matrix(NULL, 0, NULL, 0) == BALLAST_BUFFER_TOO_SHORT, "no list is refused by reading a matrix");
    expect(ballast_write_matrix(1, NULL, 0, NULL, 0) == BALLAST_BUFFER_TOO_SHORT, "no buffer is refused by writing a matrix");
}

static size_t read_file(const char *name, uint8_t *into, size_t room)
{
    FILE *file = fopen(name, "rb");
    if (file == NULL) {
        perror(name);
        exit(2);
    }
    size_t length = fread(into, 1, room, file);
    fclose(file);
    return length;
}

static void check_sample(const char *name, const char *text_name)
{
    uint8_t input[ROOM], text[ROOM];
    size_t length = read_file(name, input, sizeof input), text_length = read_file(text_name, text, sizeof text);
    uint8_t *out = fresh();
    expect(ballast_verdict_text(input, length, out, BALLAST_TEXT_ROOM - 1) == BALLAST_BUFFER_TOO_SHORT, "a buffer of 799 bytes is refused");
    expect(untouched(out, 0), "a refused text changes no byte");
    int64_t count = ballast_verdict_text(input, length, out, BALLAST_TEXT_ROOM);
    expect(count == (int64_t)text_length && memcmp(out, text, text_length) == 0, name);
    expect(untouched(out, text_length), "bytes beyond the text stay");
}

int main(int count, char **names)
{
    check_writing();
    check_judging();
    check_refused_soundings();
    check_soundings();
    check_refused_matrices();
    check_matrix_reading();
    check_refused_matrix_writing();
    check_matrix_writing();
    check_nothing();
    for (int i = 1; i + 1 < count; i += 2)
        check_sample(names[i], names[i + 1]);
    printf("check: %d samples, %d failures\n", (count - 1) / 2, failures);
    return failures != 0;
}
