/*
 * Checks the claim that a multiply-and-shift stands in for a division up to a bound, and explains the answer.
 *
 *     check_claim A B D M C K T BOUND
 *
 * The exact quotient at n is (A*n + B) / D, rounded down; the device's is (M*n + C) >> K. A difference is an n at which the two
 * are more than T apart, and the claim says that the least one is BOUND. The exit status is 0 where the claim is accepted and
 * 1 where it is turned down; standard output then says why. It is 2 where there was no claim to check, because a number is
 * missing, is none or is outside its limits, or where the answer could not be written; standard error then says why.
 */
#include <errno.h>
#include <inttypes.h>
#include <stdio.h>
#include <stdlib.h>
#include <string.h>

#include "ovenquill.h"

enum status { ACCEPTED, TURNED_DOWN, TROUBLE };

enum { A, B, D, M, C, K, T, BOUND, NUMBERS };

static const struct {
    const char *name;
    int64_t min, max;
} limits[NUMBERS] = {
    [A] = {"a", OVENQUILL_A_MIN, OVENQUILL_A_MAX}, [B] = {"b", OVENQUILL_B_MIN, OVENQUILL_B_MAX},
    [D] = {"d", OVENQUILL_D_MIN, OVENQUILL_D_MAX}, [M] = {"m", OVENQUILL_M_MIN, OVENQUILL_M_MAX},
    [C] = {"c", OVENQUILL_C_MIN, OVENQUILL_C_MAX}, [K] = {"k", OVENQUILL_K_MIN, OVENQUILL_K_MAX},
    [T] = {"t", OVENQUILL_T_MIN, OVENQUILL_T_MAX}, [BOUND] = {"bound", OVENQUILL_BOUND_MIN, OVENQUILL_BOUND_MAX},
};

static void print_usage(FILE *out)
{
    fprintf(out, "usage: check_claim A B D M C K T BOUND\n"
                 "Is BOUND the least n at which (M*n + C) >> K is more than T away from (A*n + B) / D?\n");
    for (int i = 0; i < NUMBERS; i++)
        fprintf(out, "  %-5s  %" PRId64 " to %" PRId64 "\n", limits[i].name, limits[i].min, limits[i].max);
    fprintf(out, "For instance: check_claim 1 0 10 26 0 8 0 69\n");
}

/* Reads the claim's numbers; answers 0 where an argument is no whole number of 64 bits. */
static int read_numbers(char **arguments, int64_t *n)
{
    for (int i = 0; i < NUMBERS; i++) {
        char *end;
        errno = 0;
        n[i] = strtoll(arguments[i], &end, 10);
        if (end == arguments[i] || *end != '\0' || errno == ERANGE) {
            fprintf(stderr, "check_claim: %s is \"%s\", which is no whole number of 64 bits\n", limits[i].name, arguments[i]);
            return 0;
        }
    }
    return 1;
}

/* Prints both quotients at an input of an allowed claim: neither product leaves 64 bits. */
static void print_quotients(const int64_t *n, int64_t at)
{
    uint64_t input = (uint64_t)at;
    uint64_t exact = ((uint64_t)n[A] * input + (uint64_t)n[B]) / (uint64_t)n[D];
    uint64_t device = ((uint64_t)n[M] * input + (uint64_t)n[C]) >> n[K];
    printf("at n = %" PRIu64 " the exact quotient is %" PRIu64 " and the device's is %" PRIu64 "\n", input, exact, device);
}

static void print_numbers_outside(const int64_t *n)
{
    for (int i = 0; i < NUMBERS; i++)
        if (n[i] < limits[i].min || n[i] > limits[i].max)
            fprintf(stderr, "check_claim: %s is %" PRId64 ", allowed are %" PRId64 " to %" PRId64 "\n", limits[i].name, n[i],
                    limits[i].min, limits[i].max);
}

static void print_refusal(FILE *out, int64_t answer)
{
    fprintf(out, "refused (%" PRId64 "): %s\n", -answer, ovenquill_refusal_text(answer));
}

/* Checks the claim and explains the answer. */
static enum status check(const int64_t *n)
{
    int64_t least;
    int64_t answer = ovenquill_check_bound(n[A], n[B], n[D], n[M], n[C], n[K], n[T], n[BOUND], &least);
    switch (answer) {
    case 0:
        printf("accepted: the least difference is at %" PRId64 "\n", n[BOUND]);
        print_quotients(n, n[BOUND]);
        return ACCEPTED;
    case OVENQUILL_DIFFERENCE_BELOW_BOUND:
        print_refusal(stdout, answer);
        print_quotients(n, least);
        printf("no smaller n has a difference: a claim of %" PRId64 " would be accepted\n", least);
        return TURNED_DOWN;
    case OVENQUILL_NO_DIFFERENCE_UP_TO_BOUND:
        print_refusal(stdout, answer);
        print_quotients(n, n[BOUND]);
        printf("they are at most %" PRId64 " apart there and at every smaller n\n", n[T]);
        return TURNED_DOWN;
    default:
        fprintf(stderr, "check_claim: ");
        print_refusal(stderr, answer);
        print_numbers_outside(n);
        return TROUBLE;
    }
}

/* Closes standard output; answers 0 where not everything could be written to it. */
static int close_output(void)
{
    int failed = ferror(stdout);
    if (fclose(stdout) != 0 || failed) {
        fprintf(stderr, "check_claim: the answer could not be written to standard output\n");
        return 0;
    }
    return 1;
}

int main(int argc, char **argv)
{
    int64_t numbers[NUMBERS];
    if (argc == 2 && strcmp(argv[1], "--help") == 0) {
        print_usage(stdout);
        return close_output() ? 0 : TROUBLE;
    }
    if (argc != NUMBERS + 1) {
        print_usage(stderr);
        return TROUBLE;
    }
    if (!read_numbers(argv + 1, numbers))
        return TROUBLE;
    enum status status = check(numbers);
    return close_output() ? (int)status : TROUBLE;
}
