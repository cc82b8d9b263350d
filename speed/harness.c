/* Calls the port and the unchanged Rust on the same inputs, requires the same answers, the same messages and the same room after each part,
 * and has the instructions of each part counted by callgrind: collection is on only inside COUNT, and each part is dumped under its name.
 * The Rust ages by moves. Where the port ages by time, which is its own, no subframe is left out: the two differ in the rule's byte alone.
 *
 * usage: harness D N         all parts at this size, each dump named SIDE/PART/CALLS
 *        harness D N stack   the stack that each call of the port needs, by a painted stack */
#include <stdio.h>
#include <stdlib.h>
#include <string.h>
#include <ucontext.h>
#include <valgrind/callgrind.h>
#include "dawnstook.h"

typedef struct store store;
typedef struct { uint8_t number; uint16_t authbits; uint16_t week; uint32_t time; size_t bits; } beside_told;
store *beside_fresh(uint8_t d, uint8_t n);
void beside_feed(store *s, const uint8_t *word, uint8_t sat, uint16_t week, uint32_t time, uint8_t band);
uint8_t beside_tag(store *s, uint8_t sat, uint8_t kind, uint8_t cop, uint8_t bits, uint16_t week, uint32_t time);
beside_told beside_ask(const store *s, bool timing, uint8_t sat);
void beside_room(const store *s, uint8_t *room, size_t bytes);
typedef struct beside_mac_key beside_mac_key;
const beside_mac_key *beside_key(void);
bool beside_message(const beside_mac_key *key, uint8_t form, uint8_t prna, uint8_t prnd, uint16_t week, uint32_t time, uint8_t status,
                    uint8_t counter, const uint8_t *data);
size_t beside_noted(uint8_t *out); /* room for NOTED bytes */

enum { WEEK = 1177, CALLS = 8, NOTED = 128, MOST = DAWNSTOOK_ROOM_SIZE(16, 36), RULE_AT = 3 };
static const uint8_t types[15] = {2, 4, 6, 10, 0, 0, 0, 0, 1, 3, 5, 0, 0, 0, 0};
static uint8_t room[MOST], others[MOST];
static size_t size;
static uint8_t d, n, rule = DAWNSTOOK_AGE_BY_MOVES;
static store *rust;
static const beside_mac_key *key;
static uint32_t now = 30000;

static void dump(const char *side, const char *part, int calls) {
    char name[80];
    snprintf(name, sizeof name, "%s/%s/%d", side, part, calls);
    CALLGRIND_DUMP_STATS_AT(name);
}
#define COUNT(call) do { CALLGRIND_TOGGLE_COLLECT; call; CALLGRIND_TOGGLE_COLLECT; } while (0)
#define NEED(fact) do { if (!(fact)) { fprintf(stderr, "harness: line %d: %s does not hold\n", __LINE__, #fact); exit(1); } } while (0)

static void same_room(void) {
    beside_room(rust, others, size);
    others[RULE_AT] = rule;
    NEED(memcmp(room, others, size) == 0);
}

/* Words 1 to 4 have one IODnav, and word 4 names its satellite, so that an orbit can be read. */
static void make_word(uint8_t *word, uint8_t sat, uint8_t type) {
    for (int i = 0; i < 16; i++) word[i] = (uint8_t)(sat * 37 + type * 11 + i * 5);
    word[0] = (uint8_t)((type << 2) | (sat & 3));
    if (type >= 1 && type <= 4) word[1] = (uint8_t)(sat * 37);
    if (type == 4) word[2] = (uint8_t)(sat << 2 | (word[2] & 3));
}

static bool rust_side;
static void word(uint8_t sat, uint8_t type, bool counted) {
    uint8_t w[16], number = 0;
    make_word(w, sat, type);
    if (rust_side) {
        if (counted) COUNT(beside_feed(rust, w, sat, WEEK, now, 0));
        else beside_feed(rust, w, sat, WEEK, now, 0);
    } else {
        if (counted) COUNT(number = dawnstook_feed(room, size, w, 16, sat, WEEK, now, 0));
        else number = dawnstook_feed(room, size, w, 16, sat, WEEK, now, 0);
        NEED(number == 0);
    }
}

static void tag(uint8_t sat, uint8_t kind, uint32_t mack, bool shown) {
    uint8_t asked = 0, data[69];
    dawnstook_taken taken = {0, 0};
    dawnstook_shown seen;
    if (rust_side) {
        COUNT(asked = beside_tag(rust, sat, kind, 1, 40, WEEK, mack));
        NEED(asked == 1);
        return;
    }
    if (shown) COUNT(seen = dawnstook_candidate(room, size, sat, kind, 1, WEEK, mack));
    else seen = dawnstook_candidate(room, size, sat, kind, 1, WEEK, mack);
    NEED(seen.number == 0);
    memcpy(data, room + seen.offset, seen.bytes);
    COUNT(taken = dawnstook_tag(room, size, sat, kind, 1, 40, 2, WEEK, mack, data, seen.bytes, true));
    NEED(taken.number == 0 && taken.records > 0);
}

static beside_told told[2][64];
static void ask(bool timing, uint8_t sat, int i) {
    beside_told got = {0, 0, 0, 0, 0};
    if (rust_side) {
        COUNT(got = beside_ask(rust, timing, sat));
    } else {
        dawnstook_told t;
        if (timing) COUNT(t = dawnstook_get_timing_parameters(room, size, sat));
        else COUNT(t = dawnstook_get_ced_and_status(room, size, sat));
        got.number = t.number, got.authbits = t.authbits, got.week = t.week, got.time = t.time;
        got.bits = t.bytes == 69 ? 549 : t.bytes == 18 ? 141 : 0;
    }
    told[rust_side][i] = got;
}

/* Both sides of one part: the Rust first, so that the clock can be set back for the port. */
static void part(const char *name, void (*body)(void), int calls) {
    uint32_t before = now;
    for (int side = 1; side >= 0; side--) {
        now = before;
        rust_side = side;
        memset(told[side], 0, sizeof told[side]);
        CALLGRIND_ZERO_STATS;
        body();
        if (name) dump(side ? "rust" : "port", name, calls);
    }
    for (int i = 0; i < 64; i++) NEED(memcmp(&told[0][i], &told[1][i], sizeof told[0][i]) == 0);
    same_room();
}

static uint8_t sats(void) { return n < 20 ? n : 20; }
static uint8_t some(int i) { return (uint8_t)(1 + i * (n - 1) / (CALLS - 1)); }
static void nothing(void) { for (int i = 0; i < CALLS; i++) COUNT((void)0); }
static void first_fill(void) { for (int i = 0; i < CALLS; i++) word((uint8_t)(i + 1), 1, true); }
static void fill_row(uint8_t most) {
    for (uint8_t s = 1; s <= most; s++)
        for (int t = 0; t < 15; t++) word(s, types[t], false);
}
static void fill_rows(void) { for (int r = 0; r <= d; r++) { now += 30; fill_row(n); } }
static void again(void) { for (int i = 0; i < CALLS; i++) word(some(i), 1, true); }
/* A row in which each record is a subframe older than the one behind it. */
static void rising(void) { for (uint8_t k = 0; k < n; k++) { now += 30; fill_row((uint8_t)(n - k)); } }
/* Satellites that have no slot, in a row that is full. */
static void replaced(void) { for (int i = 0; i < CALLS; i++) word((uint8_t)(n + 1 + i), 1, true); }
static void new_subframe(void) { for (int i = 0; i < CALLS; i++) { now += 30; word(some(i), 1, true); } }
static void ced_tag(void) { for (int i = 0; i < CALLS; i++) tag(some(i), 0, now + 30, false); }
static void timing_tag(void) { for (int i = 0; i < CALLS; i++) tag(some(i), 4, now + 30, false); }
static void ask_ced(void) { for (int i = 0; i < CALLS; i++) ask(false, some(i), i); }
static void ask_timing(void) { for (int i = 0; i < CALLS; i++) ask(true, some(i), i); }
/* The port's own, which the Rust has no call for. */
static void read_orbit(void) {
    dawnstook_orbit orbit;
    if (rust_side) return;
    for (int i = 0; i < CALLS; i++) {
        COUNT(orbit = dawnstook_get_orbit(room, size, some(i)));
        NEED(orbit.number == 0 && orbit.word4.svid == some(i));
    }
}
static void read_timing(void) {
    dawnstook_timing timing;
    if (rust_side) return;
    for (int i = 0; i < CALLS; i++) {
        COUNT(timing = dawnstook_get_timing_numbers(room, size, some(i)));
        NEED(timing.number == 0);
    }
}
/* Messages, whose cost hangs on no store. Those of the Rust are what it gives to the MAC, and are kept for the port's. */
static uint8_t form, message[DAWNSTOOK_CED_MESSAGE_BYTES], data[DAWNSTOOK_CED_BYTES], noted[CALLS][NOTED];
static size_t noted_bytes[CALLS];
static size_t data_bytes(void) { return form == DAWNSTOOK_FORM_TIMING ? DAWNSTOOK_TIMING_BYTES : DAWNSTOOK_CED_BYTES; }
static dawnstook_message_built build(int i, bool counted) {
    dawnstook_message_built got;
    size_t bytes = data_bytes();
    uint8_t prna = some(i), prnd = some(CALLS - 1 - i);
    uint32_t counter = (uint32_t)(i + 1);
    if (counted) COUNT(got = dawnstook_build_message(message, sizeof message, data, bytes, prna, prnd, WEEK, 30000, form, 2, counter));
    else got = dawnstook_build_message(message, sizeof message, data, bytes, prna, prnd, WEEK, 30000, form, 2, counter);
    NEED(got.number == 0);
    return got;
}
static void rust_build(int i) {
    bool valid;
    uint8_t prna = some(i), prnd = some(CALLS - 1 - i), counter = (uint8_t)(i + 1);
    COUNT(valid = beside_message(key, form, prna, prnd, WEEK, 30000, 2, counter, data));
    NEED(valid);
    noted_bytes[i] = beside_noted(noted[i]);
}
static void built(void) {
    for (size_t i = 0; i < sizeof data; i++) data[i] = (uint8_t)(i * 37 + form);
    for (int i = 0; i < CALLS; i++) {
        if (rust_side) { rust_build(i); continue; }
        size_t bytes = build(i, true).bytes;
        NEED(bytes == noted_bytes[i] && memcmp(message, noted[i], bytes) == 0);
    }
}
static void read_back(void) {
    dawnstook_message_read got;
    if (rust_side) return;
    for (int i = 0; i < CALLS; i++) {
        size_t bytes = build(i, false).bytes;
        COUNT(got = dawnstook_read_message(data, sizeof data, message, bytes, form));
        NEED(got.number == 0 && got.counter == (uint32_t)(i + 1));
    }
}
static void messages(void) {
    static const char *const parts[3][2] = {
        {"CED message", "CED message, read back"}, {"tag 0 message", "tag 0 message, read back"}, {"timing message", "timing message, read back"}};
    for (form = 0; form < 3; form++) part(parts[form][0], built, CALLS), part(parts[form][1], read_back, CALLS);
}
static void test(void) {
    uint8_t w[16] = {0}, number = 0;
    if (rust_side) return;
    for (int i = 0; i < CALLS; i++) {
        COUNT(number = dawnstook_feed(room, size, w, 16, 0, WEEK, now, 0));
        NEED(number == 4);
    }
}
static bool with_candidates;
static void yard_before(void) { for (int r = 0; r <= d; r++) { now += 30; fill_row(sats()); } }
static void yard_words(void) {
    now += 30;
    for (int t = 0; t < 15; t++) for (uint8_t s = 1; s <= sats(); s++) word(s, types[t], true);
}
static void yard_tags(void) {
    static const uint8_t kinds[6] = {0, 0, 4, 12, 0, 4};
    for (uint8_t s = 1; s <= sats(); s++)
        for (int k = 0; k < 6; k++) tag((uint8_t)(1 + (s + k) % sats()), kinds[k], now, with_candidates);
}
static void yard_asks(void) { for (uint8_t s = 1; s <= sats(); s++) ask(false, s, 2 * s), ask(true, s, 2 * s + 1); }

static void fresh(void) {
    rust = beside_fresh(d, n);
    NEED(dawnstook_fresh(room, size, d, n, rule) == 0);
    same_room();
}

/* A call run on a stack of its own, painted before; what is painted no more was needed. */
static ucontext_t here, there;
static uint8_t stack[1 << 16];
static uint8_t given[69];
static void on_nothing(void) {}
static void on_fresh(void) { dawnstook_fresh(room, size, d, n, rule); }
static void on_feed(void) { uint8_t w[16]; make_word(w, 1, 1); dawnstook_feed(room, size, w, 16, 1, WEEK, now, 0); }
static void on_candidate(void) { dawnstook_candidate(room, size, 1, 0, 1, WEEK, now + 30); }
static void on_tag(void) { dawnstook_tag(room, size, 1, 0, 1, 40, 2, WEEK, now + 30, given, 69, true); }
static void on_ask(void) { dawnstook_get_ced_and_status(room, size, 1); dawnstook_get_timing_parameters(room, size, 1); }
static uint8_t read_number;
static void on_orbit(void) { read_number = dawnstook_get_orbit(room, size, 1).number; }
static void on_timing_numbers(void) { read_number = dawnstook_get_timing_numbers(room, size, 1).number; }
static void on_build(void) { read_number = dawnstook_build_message(message, sizeof message, data, sizeof data, 2, 1, WEEK, 30000, 0, 2, 3).number; }
static void on_read_back(void) { read_number = dawnstook_read_message(data, sizeof data, message, sizeof message, form).number; }
static void on_reset(void) { dawnstook_reset_authbits(room, size); }
static size_t needed(void (*body)(void)) {
    size_t i = 0;
    memset(stack, 0xa5, sizeof stack);
    getcontext(&there);
    there.uc_stack.ss_sp = stack, there.uc_stack.ss_size = sizeof stack, there.uc_link = &here;
    makecontext(&there, body, 0);
    swapcontext(&here, &there);
    while (i < sizeof stack && stack[i] == 0xa5) i++;
    return sizeof stack - i;
}
static void stacks(void) {
    size_t none = needed(on_nothing);
    rust_side = false;
    printf("stack, bytes with the return address: fresh %zu", needed(on_fresh) - none);
    size_t word_needs = 0;
    for (int by_time = 1; by_time >= 0; by_time--) {
        rule = by_time ? DAWNSTOOK_AGE_BY_TIME : DAWNSTOOK_AGE_BY_MOVES;
        fresh();
        fill_rows();
        now += 30;
        for (int k = 0; k < 2; k++) { /* the ring moves, and stays */
            size_t bytes = needed(on_feed) - none;
            if (bytes > word_needs) word_needs = bytes;
        }
        now -= 30;
    }
    dawnstook_shown seen = dawnstook_candidate(room, size, 1, 0, 1, WEEK, now + 30);
    memcpy(given, room + seen.offset, 69);
    printf(", word %zu, candidate %zu", word_needs, needed(on_candidate) - none);
    printf(", tag %zu, ask %zu", needed(on_tag) - none, needed(on_ask) - none);
    tag(1, 4, now + 30, false);
    printf(", read orbit %zu", needed(on_orbit) - none);
    NEED(read_number == 0);
    printf(", read timing numbers %zu", needed(on_timing_numbers) - none);
    NEED(read_number == 0);
    printf(", build message %zu", needed(on_build) - none);
    NEED(read_number == 0);
    printf(", read message %zu", needed(on_read_back) - none);
    NEED(read_number == 0);
    printf(", reset %zu\n", needed(on_reset) - none);
}

int main(int argc, char **argv) {
    NEED(argc >= 3);
    d = (uint8_t)atoi(argv[1]), n = (uint8_t)atoi(argv[2]);
    size = dawnstook_room_size(d, n);
    key = beside_key();
    fresh();
    if (argc > 3) return stacks(), 0;
    part("nothing", nothing, CALLS);
    part("the room's test, fresh", test, CALLS);
    part("word, first fill", first_fill, CALLS);
    part(NULL, fill_rows, 0);
    part("same word again", again, CALLS);
    part("CED tag", ced_tag, CALLS);
    part("timing tag", timing_tag, CALLS);
    part("ask CED", ask_ced, CALLS);
    part("ask timing", ask_timing, CALLS);
    part("read orbit", read_orbit, CALLS);
    part("read timing numbers", read_timing, CALLS);
    part("word, new subframe", new_subframe, CALLS);
    part("the room's test", test, CALLS);
    messages();
    if (n + CALLS <= 36) {
        part("word, satellite replaced", replaced, CALLS);
        fresh();
        part(NULL, rising, 0);
        part("word, satellite replaced, at worst", replaced, CALLS);
    }
    rule = DAWNSTOOK_AGE_BY_TIME;
    fresh();
    part(NULL, fill_rows, 0);
    part(NULL, ced_tag, 0);
    part(NULL, timing_tag, 0);
    part("word, new subframe, by time", new_subframe, CALLS);
    rule = DAWNSTOOK_AGE_BY_MOVES;
    for (int k = 0; k < 2; k++) {
        fresh();
        part(NULL, yard_before, 0);
        part(k ? NULL : "yard, words", yard_words, 15 * sats());
        with_candidates = k == 1;
        part(k ? "yard, tags with candidates" : "yard, tags", yard_tags, 6 * sats());
        part(k ? NULL : "yard, askings", yard_asks, 2 * sats());
        part(k ? NULL : "yard, the room's test", test, CALLS);
    }
    return 0;
}
