/* An orbit as numbers: the words of one satellite, tags over them, and what they authenticated, as whole numbers and as doubles. */
#include <stdio.h>
#include <string.h>
#include "dawnstook.h"

enum { SAT = 11, WEEK = 1177, START = 175740, ISSUE = 42, WORDS = 7, MOST_FIELDS = 15 };

/* The words of the satellite, as far as the store keeps them: the bits of each field and its number. */
static const struct {
    uint8_t type;
    struct { unsigned bits; int64_t value; } fields[MOST_FIELDS];
} sent[WORDS] = {
    { 1, { { 6, 1 }, { 10, ISSUE }, { 14, 2920 }, { 32, -1234567890 }, { 32, 1288490 }, { 32, 2852441293 } } },
    { 2, { { 6, 2 }, { 10, ISSUE }, { 32, 1395864371 }, { 32, 666900512 }, { 32, -429496730 }, { 14, -723 } } },
    { 3, { { 6, 3 }, { 10, ISSUE }, { 24, -15397 }, { 16, 8379 }, { 16, -2684 }, { 16, 4295 }, { 16, 4810 }, { 16, -3521 }, { 8, 107 } } },
    { 4, { { 6, 4 }, { 10, ISSUE }, { 6, SAT }, { 16, 31 }, { 16, -17 }, { 14, 2920 }, { 31, -7215545 }, { 21, -493 }, { 6, 0 } } },
    { 5, { { 6, 5 }, { 11, 240 }, { 11, 26 }, { 14, 328 }, { 1, 0 }, { 1, 0 }, { 1, 0 }, { 1, 0 }, { 1, 0 }, { 10, -13 }, { 10, -15 },
           { 2, 0 }, { 2, 0 }, { 1, 0 }, { 1, 0 } } },
    { 6, { { 6, 6 }, { 32, 2 }, { 24, -4 }, { 8, 18 }, { 8, 48 }, { 8, 153 }, { 8, 137 }, { 3, 7 }, { 8, 18 } } },
    { 10, { { 6, 10 }, { 80, 0 }, { 16, -9 }, { 12, -2 }, { 8, 48 }, { 6, 25 } } }, /* behind the almanac's 80 bits */
};

static uint8_t room[DAWNSTOOK_ROOM_SIZE(13, 36)];

static void make(uint8_t *word, int which) {
    unsigned at = 0;
    memset(word, 0, DAWNSTOOK_WORD_BYTES);
    for (int f = 0; f < MOST_FIELDS; f++)
        for (unsigned i = sent[which].fields[f].bits; i-- > 0; at++)
            if (i < 64 && ((uint64_t)sent[which].fields[f].value >> i & 1)) word[at / 8] |= (uint8_t)(128 >> at % 8);
}

/* A tag comes a subframe later. Its data is copied out of the room, and the receiver checks it with the key. */
static void tag(uint8_t kind) {
    dawnstook_moment mack = dawnstook_add_subframes(WEEK, START, 1);
    dawnstook_shown seen = dawnstook_candidate(room, sizeof room, SAT, kind, 1, mack.week, mack.time);
    uint8_t data[DAWNSTOOK_CED_BYTES];
    memcpy(data, room + seen.offset, seen.bytes);
    dawnstook_taken taken = dawnstook_tag(room, sizeof room, SAT, kind, 1, 40, DAWNSTOOK_OPERATIONAL, mack.week, mack.time, data,
                                          seen.bytes, true);
    printf("candidate %d, %zu bytes; tag %d, records %u\n", seen.number, seen.bytes, taken.number, taken.records);
}

/* A field that is a whole number alone, and one that is a double too. */
static void whole(const char *name, int64_t value, const char *unit) {
    printf("%-12s %11lld%s%s\n", name, (long long)value, *unit ? " " : "", unit);
}
static void scaled(const char *name, int64_t value, double number, const char *unit) {
    printf("%-12s %11lld = %.16e%s%s\n", name, (long long)value, number, *unit ? " " : "", unit);
}

static void show(const dawnstook_orbit *orbit) {
    const dawnstook_word1 *w1 = &orbit->word1;
    const dawnstook_word2 *w2 = &orbit->word2;
    const dawnstook_word3 *w3 = &orbit->word3;
    const dawnstook_word4 *w4 = &orbit->word4;
    const dawnstook_word5 *w5 = &orbit->word5;
    const dawnstook_scaled *s = &orbit->scaled;
    whole("IODnav", w1->iodnav, "");
    whole("SVID", w4->svid, "");
    whole("t0e", w1->t0e, "x 60 s");
    scaled("M0", w1->m0, s->m0, "semicircles");
    scaled("e", w1->e, s->e, "");
    scaled("root A", w1->root_a, s->root_a, "m^(1/2)");
    scaled("Omega0", w2->omega0, s->omega0, "semicircles");
    scaled("i0", w2->i0, s->i0, "semicircles");
    scaled("omega", w2->omega, s->omega, "semicircles");
    scaled("i-dot", w2->i_dot, s->i_dot, "semicircles/s");
    scaled("Omega-dot", w3->omega_dot, s->omega_dot, "semicircles/s");
    scaled("delta n", w3->delta_n, s->delta_n, "semicircles/s");
    scaled("Cuc", w3->cuc, s->cuc, "rad");
    scaled("Cus", w3->cus, s->cus, "rad");
    scaled("Crc", w3->crc, s->crc, "m");
    scaled("Crs", w3->crs, s->crs, "m");
    scaled("Cic", w4->cic, s->cic, "rad");
    scaled("Cis", w4->cis, s->cis, "rad");
    whole("SISA", w3->sisa, "");
    whole("t0c", w4->t0c, "x 60 s");
    scaled("af0", w4->af0, s->af0, "s");
    scaled("af1", w4->af1, s->af1, "s/s");
    scaled("af2", w4->af2, s->af2, "s/s^2");
    scaled("ai0", w5->ai0, s->ai0, "sfu");
    scaled("ai1", w5->ai1, s->ai1, "sfu/degree");
    scaled("ai2", w5->ai2, s->ai2, "sfu/degree^2");
    printf("regions      %u %u %u %u %u\n", w5->region1, w5->region2, w5->region3, w5->region4, w5->region5);
    scaled("BGD(E1,E5a)", w5->bgd_e1_e5a, s->bgd_e1_e5a, "s");
    scaled("BGD(E1,E5b)", w5->bgd_e1_e5b, s->bgd_e1_e5b, "s");
    printf("health       E5b %u, E1-B %u\n", w5->e5b_health, w5->e1b_health);
    printf("validity     E5b %u, E1-B %u\n", w5->e5b_validity, w5->e1b_validity);
}

static void show_timing(const dawnstook_timing *timing) {
    const dawnstook_word6 *w6 = &timing->word6;
    const dawnstook_word10 *w10 = &timing->word10;
    const dawnstook_scaled_timing *s = &timing->scaled;
    scaled("A0", w6->a0, s->a0, "s");
    scaled("A1", w6->a1, s->a1, "s/s");
    whole("t0t", w6->t0t, "x 3600 s");
    whole("WN0t", w6->wn0t, "weeks, modulo 256");
    whole("dtLS", w6->dt_ls, "s");
    whole("WNLSF", w6->wn_lsf, "weeks, modulo 256");
    whole("DN", w6->dn, "day of 1 to 7");
    whole("dtLSF", w6->dt_lsf, "s");
    scaled("A0G", w10->a0g, s->a0g, "s");
    scaled("A1G", w10->a1g, s->a1g, "s/s");
    whole("t0G", w10->t0g, "x 3600 s");
    whole("WN0G", w10->wn0g, "weeks, modulo 64");
}

int main(void) {
    printf("fresh %d\n", dawnstook_fresh(room, sizeof room, 13, 36, DAWNSTOOK_AGE_BY_TIME));
    for (int i = 0; i < WORDS; i++) {
        uint8_t word[DAWNSTOOK_WORD_BYTES];
        make(word, i);
        printf("word %d: %d\n", sent[i].type,
               dawnstook_feed(room, sizeof room, word, sizeof word, SAT, WEEK, START + 2u * (unsigned)i, DAWNSTOOK_E1B));
    }
    printf("before the tag: %d\n", dawnstook_get_orbit(room, sizeof room, SAT).number);

    tag(DAWNSTOOK_CED);
    dawnstook_orbit orbit = dawnstook_get_orbit(room, sizeof room, SAT);
    printf("orbit of E%d: %d, %u bits, week %u, time %u\n", SAT, orbit.number, orbit.authbits, orbit.week, orbit.time);
    if (orbit.number == DAWNSTOOK_DONE) show(&orbit);

    tag(DAWNSTOOK_TIMING);
    dawnstook_timing timing = dawnstook_get_timing_numbers(room, sizeof room, SAT);
    printf("timing of E%d: %d, %u bits, week %u, time %u\n", SAT, timing.number, timing.authbits, timing.week, timing.time);
    if (timing.number == DAWNSTOOK_DONE) show_timing(&timing);
    return 0;
}
