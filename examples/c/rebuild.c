/* Rebuilds the assembly at a place of an archive.
 *
 *     rebuild M < archive
 *
 * prints the kinds and sizes of the archive, each of its first M jobs in a line as a schedule's `journal` shows it, and
 * the value of each record after these jobs. What is refused is told by its number and place, with status 1.
 */
#include <inttypes.h>
#include <stdio.h>
#include <stdlib.h>

#include "bozhirka.h"

/* One byte more than an archive may have, so that a longer one is seen to be too long. */
static uint8_t archive[BOZHIRKA_LONGEST + 1];
static uint8_t forms[BOZHIRKA_VALUE_BYTES * BOZHIRKA_MOST_RECORDS];

/* The number in the first bytes of a form, high byte first. */
static uint64_t number(const uint8_t *form, size_t bytes)
{
    uint64_t n = 0;
    for (size_t i = 0; i < bytes; i++)
        n = n << 8 | form[i];
    return n;
}

static void print_stamp(uint8_t kind, const uint8_t *form)
{
    if (kind == BOZHIRKA_WHOLE_STAMPS)
        printf("%" PRIu64, number(form, 8));
    else
        printf("%" PRIu64 "/%" PRIu64, number(form, 4), number(form + 4, 4));
}

static void print_card(const uint8_t *form)
{
    static const char *const units[] = {"mm", "cm", "m", "inch"};
    printf("%" PRIu64 ":%s:%" PRIu64, number(form, 4), units[form[4]], number(form + 8, 4));
}

static void print_item(const uint8_t *form)
{
    if (form[0] == 0)
        printf("withdrawn");
    else if (form[0] == 1)
        printf("solid:%" PRIu64, number(form + 4, 4));
    else
        printf("sub:%" PRIu64 ":%" PRIu64, number(form + 4, 2), number(form + 6, 2));
}

static void print_value(uint8_t kind, const uint8_t *form)
{
    if (kind == BOZHIRKA_CARDS)
        print_card(form);
    else
        print_item(form);
}

static int refused(bozhirka_answer answer)
{
    printf("refused %u", answer.number);
    if (answer.number != BOZHIRKA_SPACE_WRONG)
        printf(" at %zu", answer.place);
    printf("\n");
    return EXIT_FAILURE;
}

/* The job number k, which the archive has. */
static void print_job(size_t length, bozhirka_sizes sizes, size_t k)
{
    bozhirka_job job = bozhirka_read_job(archive, length, k);
    print_stamp(sizes.stamp_kind, job.stamp);
    printf(" ticket %" PRIu32 " looks", job.ticket);
    for (size_t i = 0; i < job.looks; i++) {
        bozhirka_look look = bozhirka_read_look(archive, length, k, i);
        printf(" %zu@", look.number);
        print_stamp(sizes.stamp_kind, look.stamp);
        printf("=");
        print_value(sizes.record_kind, look.value);
    }
    printf(" puts");
    for (size_t i = 0; i < job.puts; i++) {
        bozhirka_put put = bozhirka_read_put(archive, length, k, i);
        printf(" %zu=", put.number);
        print_value(sizes.record_kind, put.value);
    }
    printf("\n");
}

static int rebuild(size_t length, size_t jobs)
{
    bozhirka_inspected inspected = bozhirka_inspect(archive, length);
    if (inspected.answer.number != BOZHIRKA_DONE)
        return refused(inspected.answer);
    bozhirka_sizes sizes = bozhirka_read_sizes(archive, length);
    bozhirka_answer played = bozhirka_play(archive, length, jobs, forms, BOZHIRKA_VALUE_BYTES * sizes.records);
    if (played.number != BOZHIRKA_DONE)
        return refused(played);
    printf("stamp kind %u, record kind %u, %zu records, %zu of %zu jobs\n", sizes.stamp_kind, sizes.record_kind, sizes.records, jobs, inspected.jobs);
    for (size_t k = 0; k < jobs; k++)
        print_job(length, sizes, k);
    for (size_t x = 0; x < sizes.records; x++) {
        printf("%zu: ", x);
        print_value(sizes.record_kind, forms + BOZHIRKA_VALUE_BYTES * x);
        printf("\n");
    }
    return EXIT_SUCCESS;
}

int main(int argc, char **argv)
{
    char *end = NULL;
    size_t jobs = argc == 2 ? (size_t)strtoull(argv[1], &end, 10) : 0;
    if (end == NULL || end == argv[1] || *end != '\0') {
        fprintf(stderr, "usage: rebuild M < archive\n");
        return 2;
    }
    size_t length = fread(archive, 1, sizeof archive, stdin);
    if (ferror(stdin)) {
        perror("rebuild");
        return 2;
    }
    return rebuild(length, jobs);
}
