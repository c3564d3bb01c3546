/*
 * Leukarion: checks a plan (a Linear Program) with the certificate or the trace that came with it,
 * converts a certificate between its two forms, trims one to what is used of it, and replays a
 * trace by the report's grammar.
 *
 * `scripts/build leukarion_c` proves the checker, the converters and the trimmer and writes
 * target/staticlib/libleukarion_c.a, for x86-64 Linux; `scripts/build leukarion_grammar_c` does it for
 * leukarion_replay_by_grammar. To build a program with them:
 *
 *     cc -Iinclude program.c -Ltarget/staticlib -lleukarion_c -lleukarion_grammar_c
 *
 * A program that doesn't call leukarion_replay_by_grammar needs the first alone. `scripts/build
 * leukarion_trim_c` writes a library of leukarion_trim alone; it may stand beside them, in any order.
 */
#ifndef LEUKARION_H
#define LEUKARION_H

#include <stddef.h>
#include <stdint.h>

#ifdef __cplusplus
extern "C" {
#endif

/* The version of this header and of the libraries that it declares. */
#define LEUKARION_VERSION_MAJOR 0
#define LEUKARION_VERSION_MINOR 8
#define LEUKARION_VERSION_PATCH 0
#define LEUKARION_VERSION "0.8.0"

/*
 * The libraries define these names alone. Each has the version with which the struct, its parameters,
 * or the meaning of words and answers that there were, last changed (CHANGELOG.md has the rule). So a
 * program that was compiled with the header of another interface doesn't link with this library:
 * compile it anew, with the header that came with the library.
 *
 * A process may have two interfaces: compile each caller with its own header, and link both
 * libraries by their paths. Each caller gets its own. Up to 0.4.0 all versions had one name,
 * leukarion_check, so there can be only one of these.
 */
#define leukarion_check leukarion_check_0_5
#define leukarion_to_sparse leukarion_to_sparse_0_6
#define leukarion_to_dense leukarion_to_dense_0_6
#define leukarion_trim leukarion_trim_0_7
#define leukarion_replay_by_grammar leukarion_replay_by_grammar_0_8

/* What is answered, in `kind`. None is 0: a struct that was cleared is no answer. */
#define LEUKARION_SAFE 1    /* no assertion of the plan can fail */
#define LEUKARION_TRACE 2   /* the trace is a run of the plan that fails an assertion */
#define LEUKARION_REFUSED 3 /* a test failed; this says nothing about the plan */
#define LEUKARION_WRITTEN 4 /* the new certificate stands in the result */

/* No plan has more words, and no certificate or trace: longer ones are refused with 1 and 4. */
#define LEUKARION_MOST_PROGRAM_WORDS 14116
#define LEUKARION_MOST_WITNESS_WORDS 1000000

/* The stack that a call needs is less than this many bytes (measured, not proved). */
#define LEUKARION_STACK 131072

/* The stack that leukarion_trim needs, likewise. */
#define LEUKARION_TRIM_STACK 262144

/* The stack that leukarion_replay_by_grammar needs, likewise. */
#define LEUKARION_GRAMMAR_STACK 131072

/* A buffer of this many numbers is never too short: a plan has at most 8 globals and 8 locals. */
#define LEUKARION_MOST_VALUES 16

/* A number that no value can be: values lie within -1,000,000,000,000 and 1,000,000,000,000. */
#define LEUKARION_NO_VALUE INT64_MIN

/* Which of the two inputs a refusal is about, in `part`; 0 is neither. */
#define LEUKARION_PROGRAM 1
#define LEUKARION_WITNESS 2

/* The largest line that a statement may have, and so the largest in `line`. */
#define LEUKARION_MOST_LINE 1000000

/*
 * kind                number                       place             part          line
 * LEUKARION_SAFE      how many entailments         0                 0             0
 * LEUKARION_TRACE     how many steps               0                 0             0
 * LEUKARION_REFUSED   which test failed            where it failed   which input   in the text
 * LEUKARION_WRITTEN   how many words               0                 0             0
 *
 * The place of a refusal counts words from 0. What the caller may want to look at, the diagnosis,
 * is the part of its own array from there to the end, with nothing copied:
 *
 *     LEUKARION_PROGRAM (numbers 1 to 3):
 *         program + place   up to   program + program_words
 *     LEUKARION_WITNESS (numbers 4 to 12, 14, 15 and 25):
 *         witness + place   up to   witness + witness_words
 *     0 (number 13):
 *         nothing; the place is how many numbers the buffer must hold
 *     0 (number 26, of a conversion or a trimming alone):
 *         nothing; the result is too short, or would be longer than a certificate may be
 *
 * A place in an input is never past its end; it is the end itself where words are missing.
 *
 * The line of a refusal is one of the text that the plan was made from, counted from 1, as the
 * plan's words have it; 0 is none:
 *
 *     number 3:
 *         that of the statement that is wrong, which is the first word of its row, whatever else is
 *         wrong with it; 0 if that word isn't there or isn't 0 to LEUKARION_MOST_LINE
 *     numbers 10 to 12:
 *         that of the statement which the refused step of the trace leaves; 0 if it leaves an exit
 *         or a failed assertion, or if the first vertex is refused
 *     other numbers:
 *         0
 *
 * Where it isn't 0, it is what to tell the plan's author, who knows lines and neither words nor
 * vertices. Where it is 0, go by number, part and place.
 *
 * README.md says what each number means and what to do about it.
 */
struct leukarion_answer {
    uint64_t kind;
    uint64_t number;
    uint64_t place;
    uint64_t part;
    uint64_t line;
};

/*
 * Checks the words of a plan with those of a certificate or a trace.
 *
 * program, witness: arrays of so many words, in the byte order of the machine. Any words and any
 * numbers of words will do: whatever they are, the function ends with an answer.
 *
 * values: where the values at the failed assertion go, globals before locals, after
 * LEUKARION_TRACE; there are as many as the procedure of that assertion has variables. Behind
 * them, and after any other answer, the buffer is as it was. To see how many there are, fill the
 * buffer with LEUKARION_NO_VALUE before the call. Where it is too short for them the answer is
 * refusal 13 instead.
 *
 * Memory: the three arrays are the caller's before and after the call. The function reads the
 * first two and writes to the third alone, inside the given lengths; it allocates nothing and
 * keeps no pointer. `values` must not overlap the others; `program` and `witness` may be one
 * array. Each pointer is aligned as its type asks. An array of length 0 is not touched, and its
 * pointer may be null.
 *
 * Threads: the function has no state of its own, so any number of threads may call it at once,
 * each with its own `values`. It takes no locks, makes no system calls, and needs less than
 * LEUKARION_STACK bytes of stack.
 */
struct leukarion_answer leukarion_check(const int32_t *program, size_t program_words,
                                        const int32_t *witness, size_t witness_words,
                                        int64_t *values, size_t values_length);

/*
 * Writes a dense certificate of a plan, one that begins with 1, with sparse rows, so that it begins
 * with 4; and a sparse one with dense rows. Both are judged alike but for places, and there and back
 * gives the same certificate, laid out in order.
 *
 * program, certificate: as above. They are tested as leukarion_check tests them, up to the witness
 * words, which are copied and not judged: numbers 1 to 5, 25 and 15. Any kind of certificate but the
 * one that is read, and a trace, is refused with 4.
 *
 * result: where the words go, from its front on, after LEUKARION_WRITTEN; behind them, and after a
 * refusal, it is as it was. Where it is too short for them, or they are more than
 * LEUKARION_MOST_WITNESS_WORDS, the answer is refusal 26. With that many words it is never too short.
 *
 * Memory and threads: as above, with `result` for `values`.
 */
struct leukarion_answer leukarion_to_sparse(const int32_t *program, size_t program_words,
                                            const int32_t *certificate, size_t certificate_words,
                                            int32_t *result, size_t result_words);
struct leukarion_answer leukarion_to_dense(const int32_t *program, size_t program_words,
                                           const int32_t *certificate, size_t certificate_words,
                                           int32_t *result, size_t result_words);

/*
 * Writes what is used of an accepted certificate, of either form, with dense rows: the disjuncts that
 * the start's witness names, and again those that the witness of an entailment names whose own
 * disjunct, and at a return whose summary disjunct, is kept. The result is accepted too, with at most
 * as many entailments, and trimming it again gives the same words.
 *
 * program, certificate: as above. What leukarion_check refuses of a certificate is refused with the
 * same number, place and line, and a trace with 4.
 *
 * result, memory and threads: as above; it needs less than LEUKARION_TRIM_STACK bytes of stack.
 */
struct leukarion_answer leukarion_trim(const int32_t *program, size_t program_words,
                                       const int32_t *certificate, size_t certificate_words,
                                       int32_t *result, size_t result_words);

/*
 * Checks the words of a plan with those of a trace, which is read by the two nonterminals of the
 * Linear Programs report: a valid path is level stretches and unmatched calls, and a level stretch
 * holds calls with level stretches inside. To a trace it answers what leukarion_check answers, and
 * leaves the buffer as that does. A certificate, and whatever is no trace, is refused with 4.
 *
 * program, trace, values, memory and threads: as with leukarion_check; it needs less than
 * LEUKARION_GRAMMAR_STACK bytes of stack.
 */
struct leukarion_answer leukarion_replay_by_grammar(const int32_t *program, size_t program_words,
                                                    const int32_t *trace, size_t trace_words,
                                                    int64_t *values, size_t values_length);

#ifdef __cplusplus
}
#endif

#endif
