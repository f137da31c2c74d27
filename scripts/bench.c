/* SPDX-License-Identifier: Apache-2.0 OR MIT */
/*
 * The calls of libbactool on each record of a file of frames, for scripts/bench: `bench WORD ROUNDS FRAMES`, where the
 * word is show, check, normalise, decode or encode. It prints the least time that a round over all the records took, in
 * microseconds. For encode the first records are decoded before, and the time is as if all were like them.
 *
 * The file is read before the first round, and what a call writes is left in one place, so that the calls alone are
 * measured.
 */
#define _POSIX_C_SOURCE 199309L
#include "bactool.h"
#include <stdio.h>
#include <stdlib.h>
#include <string.h>
#include <time.h>

/* Room for what a call writes: the records of scripts/bench are short. */
static char line[1 << 16];
static uint8_t canonical[1 << 16];
static struct bactool_field fields[1 << 12];

static void show(const uint8_t *octets, size_t length, struct bactool_outcome *told)
{
    bactool_show(octets, length, line, sizeof line, told);
}

static void check(const uint8_t *octets, size_t length, struct bactool_outcome *told)
{
    bactool_check(octets, length, false, told);
}

static void normalise(const uint8_t *octets, size_t length, struct bactool_outcome *told)
{
    bactool_normalise(octets, length, canonical, sizeof canonical, told);
}

static void decode(const uint8_t *octets, size_t length, struct bactool_outcome *told)
{
    bactool_decode(octets, length, canonical, sizeof canonical, fields, sizeof fields / sizeof fields[0], told);
}

static const struct {
    const char *word;
    void (*call)(const uint8_t *octets, size_t length, struct bactool_outcome *told);
} calls[] = {{"show", show}, {"check", check}, {"normalise", normalise}, {"decode", decode}, {"encode", NULL}};

static const size_t known = sizeof calls / sizeof calls[0];

/* The octets of a file, of which the length is told in `size`, or NULL. */
static uint8_t *octets_of(const char *name, size_t *size)
{
    FILE *file = fopen(name, "rb");
    long end = file != NULL && fseek(file, 0, SEEK_END) == 0 ? ftell(file) : -1;
    uint8_t *octets = end > 0 ? malloc((size_t)end) : NULL;
    if (octets != NULL) {
        rewind(file);
        *size = fread(octets, 1, (size_t)end, file);
    }
    if (file != NULL)
        fclose(file);
    return octets;
}

/* Microseconds of one round: each record is a length of two octets, the high one first, and a frame. */
static double round_of(size_t call, const uint8_t *octets, size_t size)
{
    struct timespec start, end;
    struct bactool_outcome told;
    clock_gettime(CLOCK_MONOTONIC, &start);
    for (size_t at = 0; at + 2 <= size;) {
        size_t length = (size_t)octets[at] << 8 | octets[at + 1];
        if (length > size - at - 2)
            break;
        calls[call].call(octets + at + 2, length, &told);
        at += 2 + length;
    }
    clock_gettime(CLOCK_MONOTONIC, &end);
    return (double)(end.tv_sec - start.tv_sec) * 1e6 + (double)(end.tv_nsec - start.tv_nsec) / 1e3;
}

/* Records that were decoded: the fields of each, and its canonical octets. */
enum { MOST_RECORDS = 20000 };

static struct {
    struct bactool_field *fields;
    uint8_t *octets;
    size_t count, length;
} decoded[MOST_RECORDS];

/* A copy of octets, or an end of the program. */
static void *copied(const void *octets, size_t length)
{
    void *copy = malloc(length + 1);
    if (copy == NULL)
        exit(2);
    return memcpy(copy, octets, length);
}

/* Decodes the first records. Returns how many, and in `all` how many there are. */
static size_t decode_first(const uint8_t *octets, size_t size, size_t *all)
{
    size_t first = 0;
    for (size_t at = 0; at + 2 <= size; at += 2 + ((size_t)octets[at] << 8 | octets[at + 1]), ++*all) {
        struct bactool_outcome told = {0, 0, 0, 0};
        if (first == MOST_RECORDS)
            continue;
        decode(octets + at + 2, (size_t)octets[at] << 8 | octets[at + 1], &told);
        decoded[first].fields = copied(fields, told.fields * sizeof fields[0]);
        decoded[first].octets = copied(canonical, told.count);
        decoded[first].count = told.fields;
        decoded[first++].length = told.count;
    }
    return first;
}

/* Microseconds of one round of encode, over so many records that were decoded. */
static double round_of_encode(size_t first)
{
    struct timespec start, end;
    struct bactool_outcome told;
    clock_gettime(CLOCK_MONOTONIC, &start);
    for (size_t k = 0; k < first; k++)
        bactool_encode(decoded[k].fields, decoded[k].count, decoded[k].octets, decoded[k].length, canonical,
                       sizeof canonical, &told);
    clock_gettime(CLOCK_MONOTONIC, &end);
    return (double)(end.tv_sec - start.tv_sec) * 1e6 + (double)(end.tv_nsec - start.tv_nsec) / 1e3;
}

/* The least time of so many rounds. */
static double least_of(size_t call, int rounds, const uint8_t *octets, size_t size)
{
    size_t all = 0, first = calls[call].call == NULL ? decode_first(octets, size, &all) : 0;
    double least = 0;
    for (int round = 0; round < rounds; round++) {
        double took = first == 0 ? round_of(call, octets, size) : round_of_encode(first) * (double)all / (double)first;
        least = round == 0 || took < least ? took : least;
    }
    return least;
}

int main(int count, char **words)
{
    size_t call = 0, size = 0;
    int rounds = count == 4 ? atoi(words[2]) : 0;
    while (count == 4 && call < known && strcmp(calls[call].word, words[1]) != 0)
        call++;
    uint8_t *octets = rounds > 0 && call < known ? octets_of(words[3], &size) : NULL;
    if (octets == NULL) {
        fprintf(stderr, "usage: bench show|check|normalise|decode|encode ROUNDS FRAMES\n");
        return 2;
    }
    printf("%.0f\n", least_of(call, rounds, octets, size));
    free(octets);
    return 0;
}
