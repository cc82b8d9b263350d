/* A day's start: a fresh store, the words of one satellite, a tag over them, and the authenticated answer. */
#include <stdio.h>
#include <string.h>
#include "dawnstook.h"

static uint8_t room[DAWNSTOOK_ROOM_SIZE(13, 36)];

int main(void) {
    const uint16_t week = 1177;
    const uint32_t start = 175740;
    /* A crane stands in a shed at times: what it heard before is then as old as the time says, and not one subframe old. */
    const uint8_t rule = DAWNSTOOK_AGE_BY_TIME;
    printf("fresh %d, %zu bytes\n", dawnstook_fresh(room, sizeof room, 13, 36, rule), dawnstook_room_size(13, 36));

    for (uint8_t type = 1; type <= 5; type++) {
        uint8_t word[DAWNSTOOK_WORD_BYTES];
        memset(word, type, sizeof word);
        word[0] = (uint8_t)(type << 2);
        printf("word %d: %d\n", type,
               dawnstook_feed(room, sizeof room, word, sizeof word, 11, week, start + 2u * type, DAWNSTOOK_E1B));
    }
    dawnstook_told early = dawnstook_get_ced_and_status(room, sizeof room, 11);
    printf("before the tag: %d\n", early.number);

    /* The tag comes a subframe later. Its data is copied out of the room, and the receiver checks it with the key. */
    dawnstook_moment mack = dawnstook_add_subframes(week, start, 1);
    dawnstook_shown seen = dawnstook_candidate(room, sizeof room, 11, DAWNSTOOK_CED, 1, mack.week, mack.time);
    uint8_t data[DAWNSTOOK_CED_BYTES];
    memcpy(data, room + seen.offset, seen.bytes);
    dawnstook_taken tag = dawnstook_tag(room, sizeof room, 11, DAWNSTOOK_CED, 1, 40, DAWNSTOOK_OPERATIONAL,
                                        mack.week, mack.time, data, seen.bytes, true);
    printf("candidate %d, %zu bytes; tag %d, records %u\n", seen.number, seen.bytes, tag.number, tag.records);

    dawnstook_told told = dawnstook_get_ced_and_status(room, sizeof room, 11);
    printf("E11: %d, %u bits, week %u, time %u: ", told.number, told.authbits, told.week, told.time);
    for (size_t i = 0; i < told.bytes; i++) printf("%02x", room[told.offset + i]);
    printf("\nreset %d\n", dawnstook_reset_authbits(room, sizeof room));
    printf("after the reset: %d\n", dawnstook_get_ced_and_status(room, sizeof room, 11).number);
    return 0;
}
