/* From the words to an authenticated answer: the message that a tag was made over, what stands here in the place of a MAC, and the tag
 * given with the data of that very message. */
#include <stdio.h>
#include <string.h>
#include "dawnstook.h"

enum { SAT = 11, SENDER = 2, WEEK = 1177, START = 175740, MACK = START + DAWNSTOOK_SUBFRAME_SECONDS, WORDS = 5, COP = 1, BITS = 40 };

static uint8_t room[DAWNSTOOK_ROOM_SIZE(13, 36)];

static void make_word(uint8_t *word, uint8_t type) {
    memset(word, type, DAWNSTOOK_WORD_BYTES);
    word[0] = (uint8_t)(type << 2);
}

/* The sender's side: the message of its tag bit by bit, from its own words. A receiver has none of this, but the tag alone. */
static uint8_t sent[DAWNSTOOK_CED_MESSAGE_BYTES];
static unsigned sent_bits;
static void put(unsigned bits, uint32_t value) {
    for (; bits > 0; bits--, sent_bits++)
        if (value >> (bits - 1) & 1) sent[sent_bits / 8] |= (uint8_t)(128 >> sent_bits % 8);
}
static void send_tag(uint8_t form, uint8_t prna, uint8_t counter) {
    static const unsigned owned[WORDS] = { 120, 120, 122, 120, 67 }; /* the bits of words 1 to 5 behind their type */
    memset(sent, 0, sizeof sent);
    sent_bits = 0;
    if (form != DAWNSTOOK_FORM_TAG0) put(8, SAT);
    put(8, prna), put(12, WEEK), put(20, MACK), put(8, counter), put(2, DAWNSTOOK_OPERATIONAL);
    for (uint8_t type = 1; type <= WORDS; type++) {
        uint8_t word[DAWNSTOOK_WORD_BYTES];
        make_word(word, type);
        for (unsigned i = 6; i < 6 + owned[type - 1]; i++) put(1, (uint32_t)word[i / 8] >> (7 - i % 8));
    }
}

/* A STAND-IN. A receiver forms the MAC of the message here, with the key that is disclosed later, cuts it to the tag's length and compares
 * it with the tag. This compares the message with the sender's, has no key and no secret, and authenticates nothing. */
static bool stand_in_for_the_mac(const uint8_t *message, size_t bytes) {
    return bytes == (sent_bits + 7) / 8 && memcmp(message, sent, bytes) == 0;
}

/* A tag over the data of SAT has come in the MACK, and the verdict over its message is given with that message's data. */
static void receive(uint8_t form, uint8_t prna, uint32_t counter) {
    uint8_t message[DAWNSTOOK_CED_MESSAGE_BYTES], data[DAWNSTOOK_CED_BYTES];
    dawnstook_shown seen = dawnstook_candidate(room, sizeof room, SAT, DAWNSTOOK_CED, COP, WEEK, MACK);
    dawnstook_message_built built = dawnstook_build_message(message, sizeof message, room + seen.offset, seen.bytes, prna, SAT, WEEK, MACK,
                                                            form, DAWNSTOOK_OPERATIONAL, counter);
    printf("candidate %d, %zu bytes; message %d, %zu bytes: ", seen.number, seen.bytes, built.number, built.bytes);
    for (size_t i = 0; i < built.bytes; i++) printf("%02x", message[i]);
    bool right = stand_in_for_the_mac(message, built.bytes);

    dawnstook_message_read read = dawnstook_read_message(data, sizeof data, message, built.bytes, form);
    printf("\nread back %d: by E%02u, week %u, time %u, counter %u, status %u\n", read.number, read.prna, read.week, read.time,
           read.counter, read.status);
    if (read.number != DAWNSTOOK_DONE) return;
    dawnstook_taken taken = dawnstook_tag(room, sizeof room, SAT, DAWNSTOOK_CED, COP, BITS, read.status, read.week, read.time, data,
                                          sizeof data, right);
    printf("verdict %s; tag %d, records %u\n", right ? "yes" : "no", taken.number, taken.records);
}

int main(void) {
    printf("fresh %d\n", dawnstook_fresh(room, sizeof room, 13, 36, DAWNSTOOK_AGE_BY_TIME));
    for (uint8_t type = 1; type <= WORDS; type++) {
        uint8_t word[DAWNSTOOK_WORD_BYTES];
        make_word(word, type);
        printf("word %d: %d\n", type,
               dawnstook_feed(room, sizeof room, word, sizeof word, SAT, WEEK, START + 2u * type, DAWNSTOOK_E1B));
    }

    /* The third tag of E02, taken for its second, and rightly. */
    send_tag(DAWNSTOOK_FORM_CED, SENDER, 3);
    receive(DAWNSTOOK_FORM_CED, SENDER, 2);
    printf("before the right one: %d\n", dawnstook_get_ced_and_status(room, sizeof room, SAT).number);
    receive(DAWNSTOOK_FORM_CED, SENDER, 3);
    /* Tag 0 of E11, which is of its own data. */
    send_tag(DAWNSTOOK_FORM_TAG0, SAT, 1);
    receive(DAWNSTOOK_FORM_TAG0, SAT, 1);

    dawnstook_told told = dawnstook_get_ced_and_status(room, sizeof room, SAT);
    printf("E%02d: %d, %u bits, week %u, time %u: ", SAT, told.number, told.authbits, told.week, told.time);
    for (size_t i = 0; i < told.bytes; i++) printf("%02x", room[told.offset + i]);
    printf("\n");
    return 0;
}
