/* An input that comes in parts of seven bytes: the listing of docs/STORE.md, 17.7, and the line of each item. */
#include <stdio.h>
#include "dawnstook.h"

enum { PART = 7 };

static const uint8_t input[] = {
    3,                                                                                                /* reset, where there is no store */
    6, 2, 2,                                                                                          /* fresh: 2 rows, 2 slots */
    1, 1, 0, 0x04, 0x99, 0x00, 0x02, 0xae, 0x7c, 0x18, 0, 0, 0, 0, 0, 0, 0, 0, 0, 0, 0, 0, 0, 0, 0,   /* word 6 of E01 on E1B */
    1, 1, 0, 0x04, 0x99, 0x00, 0x02, 0xae, 0x7c, 0x28, 0, 0, 0, 0, 0, 0, 0, 0, 0, 0, 0, 0, 0, 0, 0,   /* its word 10 */
    2, 1, DAWNSTOOK_TIMING, 1, 40, DAWNSTOOK_OPERATIONAL, 1, 0x04, 0x99, 0x00, 0x02, 0xae, 0x9a,      /* a tag of 40 bits, verdict yes */
    5, 1,                                                                                             /* ask for timing parameters */
    10,                                                                                               /* no kind byte */
};

static uint8_t room[DAWNSTOOK_ROOM_SIZE(2, 2)];

int main(void) {
    uint8_t reader[DAWNSTOOK_READER_BYTES] = { 0 }, out[DAWNSTOOK_LONGEST_LINE], number = DAWNSTOOK_DONE;
    for (size_t from = 0; from < sizeof input && number == DAWNSTOOK_DONE; from += PART) {
        size_t end = sizeof input - from < PART ? sizeof input : from + PART;
        /* the output has room for one line, so that a part with the ends of two items is offered again from where it stopped */
        for (size_t at = from; at < end;) {
            dawnstook_heard heard = dawnstook_part(reader, room, sizeof room, input + at, end - at, out, sizeof out);
            fwrite(out, 1, heard.said, stdout);
            at += heard.took;
            number = heard.number;
        }
    }
    dawnstook_closed closed = dawnstook_end(reader, room, sizeof room, out, sizeof out);
    fwrite(out, 1, closed.said, stdout);
    /* how the input ended: 13 here; 0 between items and 14 inside one, whether the line of that fits or not */
    return closed.taken && closed.number == DAWNSTOOK_UNKNOWN_KIND ? 0 : 1;
}
