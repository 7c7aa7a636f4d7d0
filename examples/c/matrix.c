/* Prints the coefficients of each Matrix Market file named on the command line, a row a line, or the refusal. Behind --write come n and n * n
 * coefficients, row after row, and their Matrix Market text is printed: matrix --write 2 1 -2 3 4 */
#include <inttypes.h>
#include <stdio.h>
#include <stdlib.h>
#include <string.h>

#include "ballast.h"

static void print_rows(const int16_t *coefficients, size_t n)
{
    for (size_t i = 0; i < n; i++)
        for (size_t j = 0; j < n; j++)
            printf("%" PRId16 "%c", coefficients[n * i + j], j + 1 < n ? ' ' : '\n');
}

static int read_file(const char *name)
{
    static uint8_t text[1 << 20]; /* comments may make a text longer still, which is then not read */
    int16_t coefficients[BALLAST_MATRIX_PLACES];
    FILE *file = fopen(name, "rb");
    if (file == NULL) {
        perror(name);
        return 1;
    }
    size_t length = fread(text, 1, sizeof text, file);
    fclose(file);
    if (length == sizeof text) {
        fprintf(stderr, "%s: too long\n", name);
        return 1;
    }
    int64_t result = ballast_read_matrix(text, length, coefficients, BALLAST_MATRIX_PLACES);
    if (result < 0)
        printf("refused %" PRId64 "\n", -result);
    else
        print_rows(coefficients, (size_t)result);
    return 0;
}

/* The number that a word of the command line is; ends the program if it is none within these bounds. */
static long number(const char *word, long least, long most)
{
    char *end;
    long value = strtol(word, &end, 10);
    if (end == word || *end != '\0' || value < least || most < value) {
        fprintf(stderr, "matrix: '%s' is no whole number from %ld to %ld\n", word, least, most);
        exit(2);
    }
    return value;
}

/* A refusal goes to the standard error and ends with 1, so that it is not taken for a text. */
static int write_text(size_t n, char **words, size_t count)
{
    int16_t coefficients[BALLAST_MATRIX_PLACES + 1]; /* one more than the most, enough to refuse a longer list */
    uint8_t text[BALLAST_MATRIX_ROOM];
    if (count > BALLAST_MATRIX_PLACES + 1)
        count = BALLAST_MATRIX_PLACES + 1;
    for (size_t i = 0; i < count; i++)
        coefficients[i] = (int16_t)number(words[i], INT16_MIN, INT16_MAX);
    int64_t result = ballast_write_matrix(n, coefficients, count, text, sizeof text);
    if (result < 0) {
        fprintf(stderr, "refused %" PRId64 "\n", -result);
        return 1;
    }
    return fwrite(text, 1, (size_t)result, stdout) != (size_t)result;
}

int main(int count, char **words)
{
    int failed = 0;
    if (count > 2 && strcmp(words[1], "--write") == 0)
        return write_text((size_t)number(words[2], 0, INT16_MAX), words + 3, (size_t)count - 3);
    for (int i = 1; i < count; i++)
        failed |= read_file(words[i]);
    return failed;
}
