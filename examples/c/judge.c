/* Prints the verdict of each case file named on the command line: the record's figures, taken from its bytes. */
#include <inttypes.h>
#include <stdio.h>

#include "ballast.h"

static uint64_t big_endian(const uint8_t *bytes, size_t count)
{
    uint64_t value = 0;
    for (size_t i = 0; i < count; i++)
        value = value << 8 | bytes[i];
    return value;
}

static int32_t answer(const uint8_t *record, size_t tank)
{
    return (int32_t)big_endian(record + BALLAST_ANSWER_AT(tank), 4);
}

static void print_record(const uint8_t *record, size_t length)
{
    size_t n = BALLAST_RECORD_TANKS(length);
    printf("%s row %d rounds %d", record[BALLAST_MET_AT] ? "met" : "unmet", record[BALLAST_UNMET_AT], record[BALLAST_ROUNDS_AT]);
    for (size_t tank = 0; tank < n; tank++)
        printf(" %" PRId32, answer(record, tank));
    printf("\n");
}

static int judge_file(const char *name)
{
    uint8_t input[BALLAST_CASE_ROOM + 1]; /* one more than the longest case, enough to refuse a longer file */
    uint8_t record[BALLAST_RECORD_ROOM];
    FILE *file = fopen(name, "rb");
    if (file == NULL) {
        perror(name);
        return 1;
    }
    size_t length = fread(input, 1, sizeof input, file);
    fclose(file);
    int64_t result = ballast_judge_case(input, length, record, sizeof record);
    if (result < 0)
        printf("refused %" PRId64 "\n", -result);
    else
        print_record(record, (size_t)result);
    return 0;
}

int main(int count, char **names)
{
    int failed = 0;
    for (int i = 1; i < count; i++)
        failed |= judge_file(names[i]);
    return failed;
}
