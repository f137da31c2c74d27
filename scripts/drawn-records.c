/* SPDX-License-Identifier: Apache-2.0 OR MIT */
/*
 * Writes frames with drawn lengths, for scripts/try-memory: `drawn-records SEED COUNT` writes COUNT records of frames that
 * are accepted, as a frame file, and `drawn-records SEED COUNT digits` the same as the lines that `bactool pack` takes, with
 * blanks in them, and each as long as a line may be at most. `drawn-records SEED COUNT refused` writes records that are
 * refused. With more records these are shorter.
 */
#include "drawn-frames.h"
#include <stdio.h>
#include <stdlib.h>

/* A record has at most so many octets, and the counts and lengths of all of them are at most so many together. */
enum { LONGEST = 65535, IN_ALL = 1 << 23 };

/* The octets as a line, with a blank after each so many of them, and with CR LF at its end one time in two. With the most
   blanks it has three octets for each of a record, which are fewer than a line may have. */
static void put_line(const uint8_t *octets, size_t length, uint64_t *state)
{
    size_t blank = 1 + (size_t)(drawn(state) % 16);
    for (size_t k = 0; k < length; k++)
        printf(k % blank == blank - 1 ? "%02X " : "%02x", octets[k]);
    fputs(drawn(state) % 2 == 0 ? "\r\n" : "\n", stdout);
}

int main(int count, char **words)
{
    uint64_t state = count > 2 ? strtoull(words[1], NULL, 10) : 0, blanks = state;
    unsigned long records = count > 2 ? strtoul(words[2], NULL, 10) : 0;
    const char *form = count > 3 ? words[3] : "";
    struct frame frame = {.octets = malloc(ROOM), .state = &state};
    if (state == 0 || records == 0 || frame.octets == NULL)
        return 2;
    size_t most = IN_ALL / records < LONGEST ? IN_ALL / records : LONGEST;
    for (unsigned long left = records; left > 0; left--) {
        do
            draw_frame(&frame, drawn_size(&state, most));
        while (frame.length > LONGEST || frame.verdict == UNKNOWN || frame.verdict == REFUSED);
        if (strcmp(form, "digits") == 0) {
            put_line(frame.octets, frame.length, &blanks);
            continue;
        }
        /* a version that is not 1 */
        frame.octets[0] = strcmp(form, "refused") == 0 ? 2 : 1;
        putchar((int)(frame.length >> 8));
        putchar((int)(frame.length & 0xFF));
        fwrite(frame.octets, 1, frame.length, stdout);
    }
    return 0;
}
