/* SPDX-License-Identifier: Apache-2.0 OR MIT */
/*
 * Reports of each record of a frame file whether it is canonical, as `bactool check` does:
 *
 *     cc examples/c/check.c $(pkg-config --cflags --libs bactool) -o check
 *     ./check < examples/every-kind.frames
 *
 * The status is 0 if each record is accepted, 1 if one is refused, and 2 if the input cannot be read or ends within a
 * record, if the output cannot be written, if memory is refused, or if there is a word after the command.
 */
#include <bactool.h>
#include <stdio.h>

enum { ACCEPTED = 0, REFUSED = 1, FAILED = 2 };

/* Reads the next record: two octets of length, and so many octets. Returns 1 if there is one, 0 at the end of the file,
   and -1 if there is a fault, which it reports. */
static int read_record(unsigned number, uint8_t *frame, size_t *length)
{
    uint8_t head[2];
    size_t taken = fread(head, 1, sizeof head, stdin);
    if (taken == sizeof head) {
        *length = (size_t)head[0] << 8 | head[1];
        if (fread(frame, 1, *length, stdin) == *length)
            return 1;
        taken = 1;
    }
    if (ferror(stdin)) {
        perror("check: standard input");
        return -1;
    }
    if (taken > 0) {
        fprintf(stderr, "check: the file ends within record %u\n", number);
        return -1;
    }
    return 0;
}

/* Prints the line of one record. Returns the status for it. */
static int check(unsigned number, const uint8_t *frame, size_t length)
{
    struct bactool_outcome outcome;
    char name[16];
    switch (bactool_check(frame, length, false, &outcome)) {
    case BACTOOL_OK:
        printf("%u ok\n", number);
        return ACCEPTED;
    case BACTOOL_TOLERATED:
        printf("%u tolerated at %zu\n", number, outcome.place);
        return ACCEPTED;
    case BACTOOL_REFUSED: {
        size_t count = bactool_reason(outcome.why, name, sizeof name);
        printf("%u refused %.*s at %zu\n", number, (int)count, name, outcome.place);
        return REFUSED;
    }
    default:
        fprintf(stderr, "check: out of memory\n");
        return FAILED;
    }
}

int main(int count, char **words)
{
    if (count > 1) {
        fprintf(stderr, "check: unexpected word '%s'\nusage: check < FILE\n", words[1]);
        return FAILED;
    }
    static uint8_t frame[65535];
    size_t length = 0;
    int status = ACCEPTED;
    int more;
    unsigned number = 1;
    while ((more = read_record(number, frame, &length)) > 0 && status != FAILED) {
        int one = check(number++, frame, length);
        if (one > status)
            status = one;
    }
    if (fflush(stdout) != 0 || ferror(stdout)) {
        perror("check: standard output");
        return FAILED;
    }
    return more < 0 ? FAILED : status;
}
