/* Measures how deep the library's functions reach into the stack: each is called on a painted stack of its own, on every case file named on the
 * command line and on one whose factors take the most steps to compare, those of matrices on the longest text that is written, and what is no longer
 * painted is counted. Prints the most, and ends with 1 if the header promises less. To be linked with -z now, so that no call stops to look for
 * memcpy. */
#define _XOPEN_SOURCE 700
#include <stdio.h>
#include <string.h>
#include <ucontext.h>

#include "ballast.h"

enum { STACK = 1 << 16, PAINT = 0xA5 };

static uint8_t stack[STACK];
static uint8_t input[BALLAST_CASE_ROOM + 1];
static size_t input_length;
static uint8_t out[BALLAST_TEXT_ROOM];
static int16_t list[BALLAST_MATRIX_PLACES];
static uint8_t matrix[BALLAST_MATRIX_ROOM];
static ucontext_t here, there;

static void nothing(void) {}
static void check(void) { ballast_check_case(input, input_length); }
static void judge(void) { ballast_judge_case(input, input_length, out, sizeof out); }
static void sound(void) { ballast_soundings(input, input_length, out, sizeof out); }
static void print(void) { ballast_verdict_text(input, input_length, out, sizeof out); }
static void write_matrix(void) { ballast_write_matrix(BALLAST_MOST_TANKS, list, BALLAST_MATRIX_PLACES, matrix, sizeof matrix); }
static void read_matrix(void) { ballast_read_matrix(matrix, sizeof matrix, list, BALLAST_MATRIX_PLACES); }

/* Rows 1 and 2 have the residuals F60 and F59 and the reaches F61 and F60 of the Fibonacci numbers, the largest that the limits admit: no comparison of
 * factors takes more steps. */
static void write(void)
{
    static const int16_t coefficients[64] = {[0] = -920, [1] = -27401, [2] = -27400, [8] = -41};
    static const uint16_t tolerances[64] = {[0] = 961, [1] = 30095, [2] = 30095, [3] = 30095, [4] = 30095, [5] = 30094,
                                            [8] = 920, [9] = 27401, [10] = 27400};
    static const int32_t right_sides[8] = {999998755, 956722026};
    static const uint32_t right_tolerances[8] = {999990781, 999998755};
    static const int32_t trial[8] = {1, 10000000, 10000000, 10000000, 10000000, 10000000};
    int64_t count = ballast_write_case(8, 3, 0, coefficients, 64, tolerances, 64, right_sides, 8, right_tolerances, 8, trial, 8, input, sizeof input);
    input_length = count < 0 ? 0 : (size_t)count;
}

static size_t reached(void (*call)(void))
{
    memset(stack, PAINT, sizeof stack);
    getcontext(&there);
    there.uc_stack.ss_sp = stack;
    there.uc_stack.ss_size = sizeof stack;
    there.uc_link = &here;
    makecontext(&there, call, 0);
    swapcontext(&here, &there);
    size_t clean = 0;
    while (clean < sizeof stack && stack[clean] == PAINT)
        clean++;
    return sizeof stack - clean;
}

static size_t most(size_t so_far, void (*call)(void))
{
    size_t need = reached(call) - reached(nothing);
    return so_far < need ? need : so_far;
}

static size_t most_of_all(size_t so_far)
{
    return most(most(most(most(so_far, check), judge), sound), print);
}

static size_t most_of_matrices(size_t so_far)
{
    for (size_t i = 0; i < BALLAST_MATRIX_PLACES; i++)
        list[i] = -32767;
    return most(most(so_far, write_matrix), read_matrix);
}

int main(int count, char **names)
{
    size_t need = most_of_matrices(most_of_all(most(0, write)));
    for (int i = 1; i < count; i++) {
        FILE *file = fopen(names[i], "rb");
        if (file == NULL) {
            perror(names[i]);
            return 2;
        }
        input_length = fread(input, 1, sizeof input, file);
        fclose(file);
        need = most_of_all(need);
    }
    printf("stack: %zu bytes at most, %d promised\n", need, BALLAST_STACK_NEED);
    return BALLAST_STACK_NEED < need;
}
