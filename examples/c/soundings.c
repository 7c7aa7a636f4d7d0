/* Prints, for each case file named on the command line, the depth of each tank, or the refusal. */
#include <inttypes.h>
#include <stdio.h>

#include "ballast.h"

static int depth(const uint8_t *depths, size_t tank)
{
    const uint8_t *bytes = depths + BALLAST_DEPTH_AT(tank);
    return bytes[0] << 8 | bytes[1];
}

static void print_depths(const uint8_t *depths, size_t n)
{
    for (size_t tank = 0; tank < n; tank++)
        printf("tank %zu depth %d cm\n", tank + 1, depth(depths, tank));
}

static int sound_file(const char *name)
{
    uint8_t input[BALLAST_CASE_ROOM + 1]; /* one more than the longest case, enough to refuse a longer file */
    uint8_t depths[BALLAST_SOUNDINGS_ROOM];
    FILE *file = fopen(name, "rb");
    if (file == NULL) {
        perror(name);
        return 1;
    }
    size_t length = fread(input, 1, sizeof input, file);
    fclose(file);
    int64_t result = ballast_soundings(input, length, depths, sizeof depths);
    if (result < 0)
        printf("refused %" PRId64 "\n", -result);
    else
        print_depths(depths, (size_t)result / 2);
    return 0;
}

int main(int count, char **names)
{
    int failed = 0;
    for (int i = 1; i < count; i++)
        failed |= sound_file(names[i]);
    return failed;
}
