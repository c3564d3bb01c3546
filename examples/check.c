/* Four checks from C. README.md has the command that builds and runs this. */
#include "leukarion.h"

#include <inttypes.h>
#include <stdio.h>

#define LENGTH(array) (sizeof(array) / sizeof(array)[0])

/*
 * x = 540; assert x - 600 < 0, with a certificate; the same with 660 for 540, with a trace. Their
 * statements have no lines; those of the third, with 599, are at lines 12 and 13 of some text. A
 * constant takes two words: -1, 999400 is -600.
 */
static const int32_t plan_a[] = {
    2, 1, 1, 15, 2, 4, 6, 0, 6, 12, 0, 2, 0, 0, 540, 0, 0, 3, 1, -1, 999400, 1, 1, 0, 0,
};
static const int32_t plan_b[] = {
    2, 1, 1, 15, 2, 4, 6, 0, 6, 12, 0, 2, 0, 0, 660, 0, 0, 3, 1, -1, 999400, 1, 1, 0, 0,
};
static const int32_t plan_with_lines[] = {
    2, 1, 1, 15, 2, 4, 6, 0, 6, 12, 12, 2, 0, 0, 599, 0, 13, 3, 1, -1, 999400, 1, 1, 0, 0,
};
static const int32_t certificate[] = {
    1, 6, 8, 1, 1, 1, 1, 0, 1, 0, 0, 0, 1, -1, 999460, 0, 1, 1, 1, 1, 1, 0, 1, 1, 1,
};
static const int32_t trace[] = {3, 2, 0, 0, 1, 2, 0};

/* The words that the answer is about, from its place to their end. */
static void print_diagnosis(struct leukarion_answer answer, const int32_t *program,
                            size_t program_words, const int32_t *witness, size_t witness_words)
{
    const int32_t *words = answer.part == LEUKARION_PROGRAM ? program : witness;
    size_t length = answer.part == LEUKARION_PROGRAM ? program_words : witness_words;
    if (answer.part == 0)
        return;
    for (size_t at = answer.place; at < length; at++)
        printf(" %" PRId32, words[at]);
}

static void check(const char *name, const int32_t *program, size_t program_words,
                  const int32_t *witness, size_t witness_words)
{
    int64_t values[LEUKARION_MOST_VALUES];
    for (size_t at = 0; at < LENGTH(values); at++)
        values[at] = LEUKARION_NO_VALUE;
    struct leukarion_answer answer = leukarion_check(program, program_words, witness, witness_words,
                                                     values, LENGTH(values));
    printf("%s: ", name);
    switch (answer.kind) {
    case LEUKARION_SAFE:
        printf("safe, %" PRIu64 " entailments\n", answer.number);
        break;
    case LEUKARION_TRACE:
        printf("trace of %" PRIu64 " steps to the values", answer.number);
        for (size_t at = 0; at < LENGTH(values) && values[at] != LEUKARION_NO_VALUE; at++)
            printf(" %" PRId64, values[at]);
        printf("\n");
        break;
    default:
        printf("refused by test %" PRIu64 " at %" PRIu64, answer.number, answer.place);
        if (answer.line != 0)
            printf(", line %" PRIu64, answer.line);
        printf(", words");
        print_diagnosis(answer, program, program_words, witness, witness_words);
        printf("\n");
    }
}

int main(void)
{
    check("plan A", plan_a, LENGTH(plan_a), certificate, LENGTH(certificate));
    check("plan B with a trace", plan_b, LENGTH(plan_b), trace, LENGTH(trace));
    check("plan B with A's certificate", plan_b, LENGTH(plan_b), certificate, LENGTH(certificate));
    check("the plan with lines", plan_with_lines, LENGTH(plan_with_lines), trace, LENGTH(trace));
    return 0;
}
