/* What `cgs_bench` does with polynomials, done by FLINT, for arithmetic.sh to call: `flint OPERATION TERMS TIMES`. The operations are
   `add`, `product`, `divide` and `divide_far`; divisions are done, each to its end, until so many units are spent. A line for each call
   of FLINT that does the operation gives its name and nanoseconds for each part, the least of three rounds. The status is 1 where the
   words say something else, and for `divide_far` of more than 30,000 terms, whose division is too long. */
#include <flint/nmod_mpoly.h>
#include <stdio.h>
#include <stdlib.h>
#include <string.h>
#include <time.h>

static nmod_mpoly_ctx_t ring;

/* Does an operation on f and g, and tells how many parts it has. */
typedef slong operation(const nmod_mpoly_t f, const nmod_mpoly_t g);

static slong add(const nmod_mpoly_t f, const nmod_mpoly_t g)
{
    nmod_mpoly_t sum;
    nmod_mpoly_init(sum, ring);
    nmod_mpoly_add(sum, f, g, ring);
    nmod_mpoly_clear(sum, ring);
    return f->length + g->length;
}

static slong multiply(const nmod_mpoly_t f, const nmod_mpoly_t g)
{
    nmod_mpoly_t product;
    nmod_mpoly_init(product, ring);
    nmod_mpoly_mul(product, f, g, ring);
    nmod_mpoly_clear(product, ring);
    return f->length * g->length;
}

static slong multiply_by_heap(const nmod_mpoly_t f, const nmod_mpoly_t g)
{
    nmod_mpoly_t product;
    nmod_mpoly_init(product, ring);
    nmod_mpoly_mul_johnson(product, f, g, ring);
    nmod_mpoly_clear(product, ring);
    return f->length * g->length;
}

/* A step of a division has as many units as g has terms, and a term of the remainder is one. */
static slong divide(const nmod_mpoly_t f, const nmod_mpoly_t g)
{
    nmod_mpoly_t quotient, remainder;
    nmod_mpoly_init(quotient, ring);
    nmod_mpoly_init(remainder, ring);
    nmod_mpoly_divrem(quotient, remainder, f, g, ring);
    slong units = quotient->length * g->length + remainder->length;
    nmod_mpoly_clear(quotient, ring);
    nmod_mpoly_clear(remainder, ring);
    return units;
}

static const struct {
    const char *word, *name;
    operation *call;
} calls[] = {
    {"add", "nmod_mpoly_add", add},
    {"product", "nmod_mpoly_mul", multiply},
    {"product", "nmod_mpoly_mul_johnson", multiply_by_heap},
    {"divide", "nmod_mpoly_divrem", divide},
    {"divide_far", "nmod_mpoly_divrem", divide},
};

/* The sum of so many terms, of which the number's digits to a base, the last times `step`, are the exponents. */
static void spread(nmod_mpoly_t f, ulong base, ulong step, ulong terms)
{
    nmod_mpoly_init(f, ring);
    for (ulong number = 0; number < terms; number++) {
        ulong exponents[2] = {number / base, number % base * step};
        nmod_mpoly_push_term_ui_ui(f, number % 32002 + 1, exponents, ring);
    }
    nmod_mpoly_sort_terms(f, ring);
    nmod_mpoly_combine_like_terms(f, ring);
}

static double now(void)
{
    struct timespec time;
    clock_gettime(CLOCK_MONOTONIC, &time);
    return time.tv_sec * 1e9 + time.tv_nsec;
}

/* Nanoseconds for each part, of so many calls, or of a division of so many units. */
static double nanoseconds(operation *call, const nmod_mpoly_t f, const nmod_mpoly_t g, slong times)
{
    slong parts = 0;
    double start = now();
    for (slong done = 0; done < times;) {
        slong more = call(f, g);
        parts += more;
        done += call == divide ? more : 1;
    }
    return (now() - start) / parts;
}

int main(int count, char **words)
{
    slong terms = count == 4 ? atol(words[2]) : 0;
    slong times = count == 4 ? atol(words[3]) : 0;
    int is_far = count == 4 && !strcmp(words[1], "divide_far");
    if (terms < 1 || times < 1 || (is_far && terms > 30000))
        return 1;
    int status = 1;
    nmod_mpoly_ctx_init(ring, 2, ORD_LEX, 32003);
    nmod_mpoly_t f, g;
    spread(f, 300, 2, terms);
    if (is_far)
        spread(g, 9, 37, 10);
    else
        spread(g, 300, 3, strcmp(words[1], "divide") ? terms : 10);
    nmod_mpoly_make_monic(g, g, ring);
    for (size_t i = 0; i < sizeof calls / sizeof calls[0]; i++) {
        if (strcmp(words[1], calls[i].word))
            continue;
        double least = nanoseconds(calls[i].call, f, g, times);
        for (int round = 1; round < 3; round++) {
            double again = nanoseconds(calls[i].call, f, g, times);
            least = again < least ? again : least;
        }
        printf("%s %.2f\n", calls[i].name, least);
        status = 0;
    }
    return status;
}
