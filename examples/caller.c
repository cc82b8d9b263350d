/* What the header says of the calls and asks of the caller, tried: NULL with length 0, no alignment, no byte outside of a range, sizes,
 * texts, every number, any bytes as a reader, any rounding mode, the stack. For x86-64 on a system with mmap. */
#define _DEFAULT_SOURCE
#include <stdio.h>
#include <stdlib.h>
#include <string.h>
#include <sys/mman.h>
#include <unistd.h>
#include "dawnstook.h"

enum { D = 2, N = 3, SAT = 11, WEEK = 1177, START = 175740, MACK = START + DAWNSTOOK_SUBFRAME_SECONDS, ISSUE = 42 };
enum { SENDER = 2, COUNTER = 3 };
#define SIZE DAWNSTOOK_ROOM_SIZE(D, N)

static void need(bool truth, const char *what) {
    if (truth) return;
    printf("not so: %s\n", what);
    exit(1);
}

/* A word of equal bytes behind its type; words 1 to 4 are of one issue, and word 4 names the satellite. */
static void make_word(uint8_t *word, uint8_t type, uint8_t byte) {
    memset(word, byte, DAWNSTOOK_WORD_BYTES);
    word[0] = (uint8_t)(type << 2);
    if (type >= 1 && type <= 4) word[1] = ISSUE;
    if (type == 4) word[2] = SAT << 2;
}

/* The words of one satellite, at a place that the caller chooses. */
static void words(uint8_t *room, size_t len, uint8_t *word) {
    for (uint8_t type = 1; type <= 10; type++) {
        make_word(word, type, type);
        need(dawnstook_feed(room, len, word, DAWNSTOOK_WORD_BYTES, SAT, WEEK, START, DAWNSTOOK_E1B) == DAWNSTOOK_DONE, "a word is taken");
    }
}

/* A tag of 40 bits of the satellite's data, which came in the subframe before. */
static void tag(uint8_t *room, size_t len, uint8_t kind, uint32_t mack) {
    uint8_t given[DAWNSTOOK_CED_BYTES];
    dawnstook_shown seen = dawnstook_candidate(room, len, SAT, kind, 1, WEEK, mack);
    need(seen.number == DAWNSTOOK_DONE && seen.bytes <= sizeof given, "a candidate");
    memcpy(given, room + seen.offset, seen.bytes);
    dawnstook_taken taken = dawnstook_tag(room, len, SAT, kind, 1, 40, DAWNSTOOK_OPERATIONAL, WEEK, mack, given, seen.bytes, true);
    need(taken.number == DAWNSTOOK_DONE && taken.records > 0, "a tag is taken");
}

/* Whether numbers are the same to the bit, and whether all but the number is 0. The bytes between the fields do not count. */
#define SAME(field) (memcmp(&a.field, &b.field, sizeof a.field) == 0)
static bool same_orbit(dawnstook_orbit a, dawnstook_orbit b) {
    return SAME(number) && SAME(authbits) && SAME(week) && SAME(time) && SAME(word1) && SAME(word2) && SAME(word3) && SAME(word4)
        && SAME(word5) && SAME(scaled);
}
static bool same_timing(dawnstook_timing a, dawnstook_timing b) {
    return SAME(number) && SAME(authbits) && SAME(week) && SAME(time) && SAME(word6) && SAME(word10) && SAME(scaled);
}
static bool bare_orbit(dawnstook_orbit o) {
    dawnstook_orbit none;
    memset(&none, 0, sizeof none);
    none.number = o.number;
    return same_orbit(o, none);
}
static bool bare_timing(dawnstook_timing t) {
    dawnstook_timing none;
    memset(&none, 0, sizeof none);
    none.number = t.number;
    return same_timing(t, none);
}

/* A store that ages by time through all its calls, with the data given at a place that the caller chooses. */
static void use(uint8_t *room, size_t len, uint8_t *word, uint8_t *given) {
    need(dawnstook_fresh(room, len, D, N, DAWNSTOOK_AGE_BY_TIME) == DAWNSTOOK_DONE, "a fresh store");
    words(room, len, word);
    static const uint8_t kinds[] = { DAWNSTOOK_CED, DAWNSTOOK_TIMING, DAWNSTOOK_SLOW_CED };
    static const uint8_t lengths[] = DAWNSTOOK_TAG_BITS;
    for (size_t k = 0; k < sizeof kinds; k++) {
        dawnstook_shown seen = dawnstook_candidate(room, len, SAT, kinds[k], 1, WEEK, MACK);
        need(seen.number == DAWNSTOOK_DONE && seen.bytes <= DAWNSTOOK_CED_BYTES, "a candidate");
        /* the data stands at the end of the place, so that its last byte is the last that may be read */
        uint8_t *data = given + DAWNSTOOK_CED_BYTES - seen.bytes;
        memcpy(data, room + seen.offset, seen.bytes);
        for (size_t i = 0; i < sizeof lengths; i++) {
            dawnstook_taken taken = dawnstook_tag(room, len, SAT, kinds[k], 1, lengths[i], DAWNSTOOK_OPERATIONAL, WEEK, MACK, data,
                                                  seen.bytes, true);
            need(taken.number == DAWNSTOOK_DONE && taken.records == 1, "a tag is taken");
        }
    }
    dawnstook_told ced = dawnstook_get_ced_and_status(room, len, SAT), timing = dawnstook_get_timing_parameters(room, len, SAT);
    need(ced.number == DAWNSTOOK_DONE && ced.authbits == 2 * 144 && ced.bytes == DAWNSTOOK_CED_BYTES, "asking CED");
    need(timing.number == DAWNSTOOK_DONE && timing.authbits == 144 && timing.bytes == DAWNSTOOK_TIMING_BYTES, "asking timing");
    dawnstook_orbit orbit = dawnstook_get_orbit(room, len, SAT);
    dawnstook_timing numbers = dawnstook_get_timing_numbers(room, len, SAT);
    need(orbit.number == DAWNSTOOK_DONE && orbit.authbits == ced.authbits && orbit.week == ced.week && orbit.time == ced.time, "an orbit");
    need(orbit.word1.iodnav == ISSUE && orbit.word4.svid == SAT, "the issue and the satellite of an orbit");
    need(orbit.word1.e == 0x40404040 && orbit.scaled.e == 0x40404040 / 8589934592.0, "a number of an orbit");
    need(numbers.number == DAWNSTOOK_DONE && numbers.authbits == timing.authbits, "timing as numbers");
    need(numbers.week == timing.week && numbers.time == timing.time, "the time of timing as numbers");
    need(numbers.word10.a0g == -32126 && numbers.scaled.a0g == -32126 / 34359738368.0, "a number of timing");
}

/* The forms of a message, the bytes of each and of its data. */
static const struct { uint8_t form; size_t bytes, data; } forms[] = {
    { DAWNSTOOK_FORM_CED, DAWNSTOOK_CED_MESSAGE_BYTES, DAWNSTOOK_CED_BYTES },
    { DAWNSTOOK_FORM_TAG0, DAWNSTOOK_TAG0_MESSAGE_BYTES, DAWNSTOOK_CED_BYTES },
    { DAWNSTOOK_FORM_TIMING, DAWNSTOOK_TIMING_MESSAGE_BYTES, DAWNSTOOK_TIMING_BYTES },
};
enum { FORMS = sizeof forms / sizeof *forms };

static dawnstook_message_built build(uint8_t *out, size_t len, const uint8_t *given, size_t given_len, uint8_t form) {
    return dawnstook_build_message(out, len, given, given_len, SENDER, SAT, WEEK, MACK, form, DAWNSTOOK_OPERATIONAL, COUNTER);
}

/* Whether all but the number is 0. */
static bool bare_message(dawnstook_message_read m) {
    return m.prnd == 0 && m.prna == 0 && m.status == 0 && m.week == 0 && m.time == 0 && m.counter == 0;
}

/* A message built and read back, with data, message and data read back at places that the caller chooses, and what the two buffers have
 * behind it. */
static void speak(size_t f, uint8_t *given, uint8_t *message, uint8_t *back, size_t behind) {
    static const uint8_t head[] = { SAT, SENDER, 0x49, 0x92, 0xae, 0x9a, COUNTER };
    const uint8_t form = forms[f].form;
    const size_t skip = form == DAWNSTOOK_FORM_TAG0, bytes = forms[f].bytes, data = forms[f].data;
    for (size_t i = 0; i < data; i++) given[i] = (uint8_t)(31 * i + 7);
    given[data - 1] |= 7;
    memset(message, 0xa5, bytes + behind);
    memset(back, 0xa5, data + behind);
    dawnstook_message_built built = build(message, bytes + behind, given, data, form);
    need(built.number == DAWNSTOOK_DONE && built.bytes == bytes, "a message");
    need(memcmp(message, head + skip, sizeof head - skip) == 0, "what stands in front of the data");
    need(message[sizeof head - skip] == (0x80 | given[0] >> 2), "the status and the first bits of the data");
    need(message[bytes - 1] == (uint8_t)(given[data - 2] << 6 | (given[data - 1] & 0xf8) >> 2), "the last bits of the data and a zero");
    dawnstook_message_read read = dawnstook_read_message(back, data + behind, message, bytes, form);
    need(read.number == DAWNSTOOK_DONE && read.prnd == (skip ? 0 : SAT) && read.prna == SENDER && read.status == DAWNSTOOK_OPERATIONAL,
         "the satellites and the status read back");
    need(read.week == WEEK && read.time == MACK && read.counter == COUNTER, "the time and the counter read back");
    given[data - 1] &= 0xf8;
    need(memcmp(back, given, data) == 0, "the data read back, with zeros behind it");
    for (size_t i = 0; i < behind; i++) need(message[bytes + i] == 0xa5 && back[data + i] == 0xa5, "bytes behind a message stay");
}

/* Items of an input (STORE 17.2): each answers how many bytes it wrote. */
static size_t put_time(uint8_t *at, uint32_t time) {
    const uint8_t bytes[] = { WEEK >> 8, WEEK & 255, (uint8_t)(time >> 24), (uint8_t)(time >> 16), (uint8_t)(time >> 8), (uint8_t)time };
    memcpy(at, bytes, sizeof bytes);
    return sizeof bytes;
}
static size_t put_word(uint8_t *at, uint8_t type, uint32_t time) {
    at[0] = 1, at[1] = SAT, at[2] = DAWNSTOOK_E1B;
    make_word(at + 3 + put_time(at + 3, time), type, type);
    return 9 + DAWNSTOOK_WORD_BYTES;
}
static size_t put_tag(uint8_t *at, uint8_t kind, uint8_t bits, uint32_t mack) {
    at[0] = 2, at[1] = SAT, at[2] = kind, at[3] = 1, at[4] = bits, at[5] = DAWNSTOOK_OPERATIONAL, at[6] = 1;
    return 7 + put_time(at + 7, mack);
}

/* The calls of `use` as an input, through a reader in parts of so many bytes, all at places that the caller chooses. */
static void hear(uint8_t *reader, uint8_t *room, size_t len, uint8_t *place, size_t bytes, uint8_t *out) {
    static const uint8_t kinds[] = { DAWNSTOOK_CED, DAWNSTOOK_TIMING, DAWNSTOOK_SLOW_CED }, asking[] = { 4, SAT, 5, SAT };
    static const uint8_t lengths[] = DAWNSTOOK_TAG_BITS;
    uint8_t input[4 + 10 * 25 + sizeof kinds * sizeof lengths * 13 + sizeof asking] = { 9, D, N, DAWNSTOOK_AGE_BY_TIME };
    size_t whole = 4, lines = 0;
    for (uint8_t type = 1; type <= 10; type++) whole += put_word(input + whole, type, START);
    for (size_t k = 0; k < sizeof kinds; k++)
        for (size_t i = 0; i < sizeof lengths; i++) whole += put_tag(input + whole, kinds[k], lengths[i], MACK);
    memcpy(input + whole, asking, sizeof asking);
    need(whole + sizeof asking == sizeof input, "the records of an input");
    memset(reader, 0, DAWNSTOOK_READER_BYTES);
    for (size_t from = 0; from < sizeof input; from += bytes) {
        size_t part = sizeof input - from < bytes ? sizeof input - from : bytes;
        /* the part stands at the end of the place, as the data of a tag does */
        uint8_t *at = place + bytes - part, *end = place + bytes;
        memcpy(at, input + from, part);
        while (at < end) {
            dawnstook_heard heard = dawnstook_part(reader, room, len, at, (size_t)(end - at), out, DAWNSTOOK_LONGEST_LINE);
            need(heard.number == DAWNSTOOK_DONE && heard.took > 0 && heard.took <= (size_t)(end - at), "bytes of a part are taken");
            need(heard.said == 0 || (heard.said >= 4 && heard.said <= DAWNSTOOK_LONGEST_LINE && memcmp(out + 1, " 0", 2) == 0
                                     && memchr(out, '\n', heard.said) == out + heard.said - 1), "a record is answered 0 in one line");
            lines += heard.said > 0;
            at += heard.took;
        }
    }
    need(lines == 1 + 10 + 15 + 2, "a line for each record");
    dawnstook_closed closed = dawnstook_end(reader, room, len, out, DAWNSTOOK_LONGEST_LINE);
    need(closed.number == DAWNSTOOK_DONE && closed.taken && closed.said == 0, "an end between records");
}

/* A range of memory with no byte before it, or none behind it, that may be touched. */
static uint8_t *fenced(size_t bytes, bool at_end) {
    size_t page = (size_t)sysconf(_SC_PAGESIZE), pages = (bytes + page - 1) / page * page;
    uint8_t *all = mmap(NULL, pages + 2 * page, PROT_NONE, MAP_PRIVATE | MAP_ANONYMOUS, -1, 0);
    need(all != MAP_FAILED, "memory with fences");
    need(pages == 0 || mprotect(all + page, pages, PROT_READ | PROT_WRITE) == 0, "memory between fences");
    return at_end ? all + page + pages - bytes : all + page;
}

static void ranges(void) {
    static uint8_t first[SIZE], room[SIZE + 16], word[DAWNSTOOK_WORD_BYTES + 16], given[DAWNSTOOK_CED_BYTES + 16];
    static uint8_t reader[DAWNSTOOK_READER_BYTES + 16], place[40 + 16], out[DAWNSTOOK_LONGEST_LINE + 16];
    static uint8_t message[DAWNSTOOK_CED_MESSAGE_BYTES + 32], back[DAWNSTOOK_CED_BYTES + 32];
    use(first, sizeof first, word, given);
    for (size_t i = 0; i < 16; i++) {
        use(room + i, SIZE, word + (i * 3) % 16, given + (i * 7) % 16);
        need(memcmp(room + i, first, SIZE) == 0, "the same room at any place");
        memset(room, 0, sizeof room);
        hear(reader + (i * 5) % 16, room + i, SIZE, place + (i * 11) % 16, 40 - i, out + (i * 13) % 16);
        need(memcmp(room + i, first, SIZE) == 0, "the same room through a reader at any place");
        for (size_t f = 0; f < FORMS; f++) speak(f, given + (i * 3) % 16, message + i, back + (i * 7) % 16, i);
    }
    puts("no alignment: the same room and the same messages at 16 places");
    for (int at_end = 0; at_end < 2; at_end++) {
        uint8_t *fence = fenced(SIZE, at_end);
        use(fence, SIZE, fenced(DAWNSTOOK_WORD_BYTES, at_end), fenced(DAWNSTOOK_CED_BYTES, at_end));
        need(memcmp(fence, first, SIZE) == 0, "the same room between fences");
        memset(fence, 0, SIZE);
        uint8_t *fenced_reader = fenced(DAWNSTOOK_READER_BYTES, at_end), *fenced_out = fenced(DAWNSTOOK_LONGEST_LINE, at_end);
        for (size_t bytes = 1; bytes <= 64; bytes *= 2) hear(fenced_reader, fence, SIZE, fenced(bytes, at_end), bytes, fenced_out);
        need(memcmp(fence, first, SIZE) == 0, "the same room through a reader between fences");
        for (size_t len = 0; len < DAWNSTOOK_LONGEST_LINE; len += 47) {
            uint8_t *reset = fenced(1, at_end), *part = fenced(len, at_end);
            *reset = 3;
            memset(fenced_reader, 0, DAWNSTOOK_READER_BYTES);
            need(dawnstook_part(fenced_reader, fence, SIZE, reset, 1, part, len).took == 0, "a part of a line's room is too short");
        }
        for (size_t f = 0; f < FORMS; f++) {
            uint8_t *data = fenced(forms[f].data, at_end), *whole = fenced(forms[f].bytes, at_end);
            speak(f, data, whole, fenced(forms[f].data, at_end), 0);
            for (size_t len = 0; len < forms[f].bytes; len++) {
                uint8_t *part = fenced(len, at_end);
                memset(part, 0xa5, len);
                dawnstook_message_built built = build(part, len, data, forms[f].data, forms[f].form);
                need(built.number == DAWNSTOOK_NOT_ALLOWED && built.bytes == 0, "a part of a message's room is too short");
                dawnstook_message_read read = dawnstook_read_message(data, forms[f].data, part, len, forms[f].form);
                need(read.number == DAWNSTOOK_NOT_ALLOWED && bare_message(read), "a part of a message is none");
                if (len < forms[f].data) {
                    read = dawnstook_read_message(part, len, whole, forms[f].bytes, forms[f].form);
                    need(read.number == DAWNSTOOK_NOT_ALLOWED && bare_message(read), "a part of the data's room is too short");
                    built = build(whole, forms[f].bytes, part, len, forms[f].form);
                    need(built.number == DAWNSTOOK_NOT_ALLOWED && built.bytes == 0, "a part of the data is none");
                }
                for (size_t i = 0; i < len; i++) need(part[i] == 0xa5, "a refusal leaves the buffer");
            }
        }
        need(dawnstook_reset_authbits(fence, SIZE) == DAWNSTOOK_DONE, "a reset");
        for (size_t len = 0; len < SIZE; len += len < 16 ? 1 : 97) {
            uint8_t *part = fenced(len, at_end);
            memcpy(part, first, len);
            need(dawnstook_reset_authbits(part, len) == DAWNSTOOK_NOT_A_STORE, "a part of a store is none");
            need(dawnstook_fresh(part, len, D, N, DAWNSTOOK_AGE_BY_TIME) == DAWNSTOOK_TOO_SHORT, "a part is too short");
        }
    }
    puts("no byte outside of a range is touched: room, word, data, reader, part, output, message and buffer between fences");
    memset(room, 7, sizeof room);
    need(dawnstook_fresh(room, sizeof room, D, N, DAWNSTOOK_AGE_BY_TIME) == DAWNSTOOK_DONE, "a fresh store in a longer room");
    for (size_t i = SIZE; i < sizeof room; i++) need(room[i] == 7, "bytes past the size stay");
    puts("bytes past the size, and behind a message, stay");
}

/* Whether all but the number is 0. */
static bool bare_shown(dawnstook_shown s) { return s.offset == 0 && s.bytes == 0; }
static bool bare_told(dawnstook_told t) { return t.authbits == 0 && t.week == 0 && t.time == 0 && t.offset == 0 && t.bytes == 0; }

static void nothing(void) {
    static uint8_t room[SIZE], word[DAWNSTOOK_WORD_BYTES];
    dawnstook_shown seen = dawnstook_candidate(NULL, 0, SAT, DAWNSTOOK_CED, 1, WEEK, MACK);
    dawnstook_told ced = dawnstook_get_ced_and_status(NULL, 0, SAT), timing = dawnstook_get_timing_parameters(NULL, 0, SAT);
    dawnstook_taken taken = dawnstook_tag(NULL, 0, SAT, DAWNSTOOK_CED, 1, 40, DAWNSTOOK_OPERATIONAL, WEEK, MACK, NULL, 0, true);
    dawnstook_orbit orbit = dawnstook_get_orbit(NULL, 0, SAT);
    dawnstook_timing numbers = dawnstook_get_timing_numbers(NULL, 0, SAT);
    need(bare_shown(seen) && bare_told(ced) && bare_told(timing) && taken.records == 0 && bare_orbit(orbit) && bare_timing(numbers),
         "a refusal carries no data");
    printf("NULL as a room of 0 bytes: fresh %d, %d and %d, feed %d and %d, candidate %d, tag %d, asking %d and %d, numbers %d and %d, "
           "reset %d\n", dawnstook_fresh(NULL, 0, D, N, DAWNSTOOK_AGE_BY_MOVES), dawnstook_fresh(NULL, 0, 0, 0, DAWNSTOOK_AGE_BY_TIME),
           dawnstook_fresh(NULL, 0, D, N, DAWNSTOOK_AGE_BY_TIME + 1),
           dawnstook_feed(NULL, 0, word, sizeof word, SAT, WEEK, START, DAWNSTOOK_E1B),
           dawnstook_feed(NULL, 0, NULL, 0, SAT, WEEK, START, DAWNSTOOK_E1B), seen.number, taken.number, ced.number, timing.number,
           orbit.number, numbers.number, dawnstook_reset_authbits(NULL, 0));
    need(dawnstook_fresh(room, sizeof room, D, N, DAWNSTOOK_AGE_BY_MOVES) == DAWNSTOOK_DONE, "a fresh store");
    words(room, sizeof room, word);
    printf("NULL as a word of 0 bytes: %d\n", dawnstook_feed(room, sizeof room, NULL, 0, SAT, WEEK, START, DAWNSTOOK_E1B));
    for (int timing_tag = 0; timing_tag < 2; timing_tag++) {
        taken = dawnstook_tag(room, sizeof room, SAT, timing_tag ? DAWNSTOOK_TIMING : DAWNSTOOK_CED, 1, 40, DAWNSTOOK_OPERATIONAL, WEEK,
                              MACK, NULL, 0, true);
        printf("NULL as data of 0 bytes given with a %s tag: %d\n", timing_tag ? "timing" : "CED", taken.number);
    }
    uint8_t reader[DAWNSTOOK_READER_BYTES] = { 0 }, out[DAWNSTOOK_LONGEST_LINE];
    const uint8_t fresh[] = { 6, D, N };
    dawnstook_heard heard = dawnstook_part(reader, NULL, 0, fresh, sizeof fresh, out, sizeof out);
    printf("NULL as a room of 0 bytes for a record: %d, %zu of %zu bytes taken: %.*s", heard.number, heard.took, sizeof fresh,
           (int)heard.said, (const char *)out);
    heard = dawnstook_part(reader, room, sizeof room, NULL, 0, out, sizeof out);
    printf("NULL as a part of 0 bytes: %d, %zu bytes taken\n", heard.number, heard.took);
    heard = dawnstook_part(reader, room, sizeof room, fresh, sizeof fresh, NULL, 0);
    printf("NULL as an output of 0 bytes: %d, %zu of %zu bytes taken\n", heard.number, heard.took, sizeof fresh);
    dawnstook_closed early = dawnstook_end(reader, room, sizeof room, NULL, 0);
    dawnstook_closed closed = dawnstook_end(reader, NULL, 0, out, sizeof out), again = dawnstook_end(reader, NULL, 0, NULL, 0);
    need(!early.taken && closed.taken && again.taken && early.said == 0 && closed.said == 5 && again.said == 0, "an end is taken once");
    printf("NULL as an output at the end: %d, not taken; as a room there: %d; as both, later: %d\n", early.number, closed.number,
           again.number);
    static uint8_t data[DAWNSTOOK_CED_BYTES], message[DAWNSTOOK_CED_MESSAGE_BYTES];
    for (size_t f = 0; f < FORMS; f++) {
        const uint8_t form = forms[f].form;
        dawnstook_message_built nowhere = build(NULL, 0, data, forms[f].data, form);
        dawnstook_message_built of_nothing = build(message, sizeof message, NULL, 0, form);
        need(nowhere.bytes == 0 && of_nothing.bytes == 0, "a refusal carries no data");
        need(build(message, sizeof message, data, forms[f].data, form).number == DAWNSTOOK_DONE, "a message");
        dawnstook_message_read lost = dawnstook_read_message(NULL, 0, message, forms[f].bytes, form);
        dawnstook_message_read none = dawnstook_read_message(data, sizeof data, NULL, 0, form);
        need(bare_message(lost) && bare_message(none), "a refusal carries no data");
        printf("NULL as a buffer, as data and as both, form %d: %d, %d, %d; as a buffer, as a message and as both: %d, %d, %d\n", form,
               nowhere.number, of_nothing.number, build(NULL, 0, NULL, 0, form).number, lost.number, none.number,
               dawnstook_read_message(NULL, 0, NULL, 0, form).number);
    }
}

/* Any bytes are a reader: it takes a part with room for its lines, and ends once. */
static void readers(void) {
    static uint8_t room[SIZE], reader[DAWNSTOOK_READER_BYTES], out[2 * DAWNSTOOK_LONGEST_LINE];
    const uint8_t part[] = { 4, SAT };
    for (unsigned fill = 0; fill < 256; fill++)
        for (unsigned last = 0; last < 4 * 256; last++) {
            memset(reader, (int)fill, sizeof reader);
            /* how many bytes it keeps, whether it has ended and with what */
            reader[25] = (uint8_t)(last / 4), reader[26] = (uint8_t)(last & 1), reader[27] = (uint8_t)(last & 2);
            dawnstook_heard heard = dawnstook_part(reader, room, SIZE, part, sizeof part, out, sizeof out);
            need(heard.took == sizeof part && heard.said <= sizeof out, "any bytes take a part");
            if (last & 1) need(heard.number == (last & 2) && heard.said == 0, "a reader that has ended says with what");
            dawnstook_closed closed = dawnstook_end(reader, room, SIZE, out, sizeof out);
            dawnstook_closed again = dawnstook_end(reader, room, SIZE, NULL, 0);
            need(closed.taken && again.taken && again.number == closed.number && again.said == 0, "a second end is the first");
        }
    puts("any bytes are a reader");
}

static void constants(void) {
    for (unsigned d = 0; d < 256; d++)
        for (unsigned n = 0; n < 256; n++) {
            bool allowed = d >= 1 && d <= DAWNSTOOK_MOST_ROWS && n >= 1 && n <= DAWNSTOOK_MOST_SLOTS;
            need(dawnstook_room_size((uint8_t)d, (uint8_t)n) == (allowed ? DAWNSTOOK_ROOM_SIZE(d, n) : 0), "the macro is the call");
        }
    printf("version %s is %d.%d.%d; the largest room is %zu bytes\n", DAWNSTOOK_VERSION, DAWNSTOOK_VERSION_MAJOR,
           DAWNSTOOK_VERSION_MINOR, DAWNSTOOK_VERSION_PATCH, DAWNSTOOK_MOST_ROOM);
    const char *unlisted = dawnstook_text(255);
    for (int number = 0; number < 256; number++)
        if (strcmp(dawnstook_text((uint8_t)number), unlisted) != 0) printf("%d %s\n", number, dawnstook_text((uint8_t)number));
    printf("others %s\n", unlisted);
}

/* The number of reading an orbit once this word has come and a tag over all of them. */
static uint8_t unreadable(uint8_t *room, const uint8_t *word) {
    need(dawnstook_feed(room, SIZE, word, DAWNSTOOK_WORD_BYTES, SAT, WEEK, START, DAWNSTOOK_E1B) == DAWNSTOOK_DONE, "a word is taken");
    need(dawnstook_get_orbit(room, SIZE, SAT).number == DAWNSTOOK_NOT_ENOUGH, "what is not authenticated is not looked into");
    tag(room, SIZE, DAWNSTOOK_CED, MACK);
    need(dawnstook_get_ced_and_status(room, SIZE, SAT).number == DAWNSTOOK_DONE, "asking CED");
    dawnstook_orbit orbit = dawnstook_get_orbit(room, SIZE, SAT);
    need(bare_orbit(orbit), "a refusal carries no data");
    return orbit.number;
}

/* The number of all four askings, a tag being taken over the words of both families, once so many subframes have gone by. */
static uint8_t aged(uint8_t *room, uint32_t subframes) {
    uint8_t word[DAWNSTOOK_WORD_BYTES], before[SIZE];
    const uint32_t now = START + subframes * DAWNSTOOK_SUBFRAME_SECONDS;
    tag(room, SIZE, DAWNSTOOK_CED, MACK);
    tag(room, SIZE, DAWNSTOOK_TIMING, MACK);
    make_word(word, 0, 0);
    need(dawnstook_feed(room, SIZE, word, sizeof word, SAT + 1, WEEK, now, DAWNSTOOK_E1B) == DAWNSTOOK_DONE, "a word behind a gap");
    memcpy(before, room, SIZE);
    dawnstook_told ced = dawnstook_get_ced_and_status(room, SIZE, SAT), timing = dawnstook_get_timing_parameters(room, SIZE, SAT);
    dawnstook_orbit orbit = dawnstook_get_orbit(room, SIZE, SAT);
    dawnstook_timing numbers = dawnstook_get_timing_numbers(room, SIZE, SAT);
    need(timing.number == ced.number && orbit.number == ced.number && numbers.number == ced.number, "four askings are answered alike");
    if (ced.number == DAWNSTOOK_DONE) need(ced.week == WEEK && ced.time == START && timing.time == START, "the time that the data is of");
    else need(bare_told(ced) && bare_told(timing) && bare_orbit(orbit) && bare_timing(numbers), "a refusal carries no data");
    need(memcmp(room, before, SIZE) == 0, "asking changes no byte");
    return ced.number;
}

/* Every number that a call may answer, once. */
static void numbers(void) {
    static uint8_t room[SIZE], before[SIZE], word[DAWNSTOOK_WORD_BYTES], given[DAWNSTOOK_CED_BYTES];
    static uint8_t ended[DAWNSTOOK_READER_BYTES], cut[DAWNSTOOK_READER_BYTES], out[DAWNSTOOK_LONGEST_LINE], other[SIZE];
    static uint8_t message[DAWNSTOOK_CED_MESSAGE_BYTES], kept[DAWNSTOOK_CED_BYTES];
    const uint8_t op = DAWNSTOOK_OPERATIONAL, unknown = 0, fresh = 6;
    need(dawnstook_fresh(room, sizeof room, D, N, DAWNSTOOK_AGE_BY_TIME) == DAWNSTOOK_DONE, "a fresh store");
    words(room, sizeof room, word);
    memcpy(given, room + dawnstook_candidate(room, SIZE, SAT, DAWNSTOOK_CED, 1, WEEK, MACK).offset, sizeof given);
    memcpy(before, room, SIZE);
    for (unsigned rule = DAWNSTOOK_AGE_BY_TIME + 1; rule < 256; rule++) {
        need(dawnstook_fresh(room, SIZE, D, N, (uint8_t)rule) == DAWNSTOOK_SIZES, "an unknown rule");
        need(dawnstook_fresh(room, SIZE - 1, D, N, (uint8_t)rule) == DAWNSTOOK_SIZES, "1 comes before 2");
    }
    printf("numbers: %d", dawnstook_fresh(room, SIZE, DAWNSTOOK_MOST_ROWS + 1, N, DAWNSTOOK_AGE_BY_TIME));
    printf(" %d", dawnstook_fresh(room, SIZE - 1, D, N, DAWNSTOOK_AGE_BY_MOVES));
    printf(" %d", dawnstook_reset_authbits(room, SIZE - 1));
    printf(" %d", dawnstook_feed(room, SIZE, word, sizeof word, DAWNSTOOK_MOST_SATELLITES + 1, WEEK, START, DAWNSTOOK_E1B));
    printf(" %d", dawnstook_feed(room, SIZE, word, sizeof word, SAT, WEEK, DAWNSTOOK_WEEK_SECONDS, DAWNSTOOK_E1B));
    printf(" %d", dawnstook_candidate(room, SIZE, SAT, DAWNSTOOK_CED, 1, WEEK, MACK + 1).number);
    printf(" %d", dawnstook_add_subframes(WEEK, START, DAWNSTOOK_MOST_SUBFRAMES + 1).number);
    printf(" %d", dawnstook_candidate(room, SIZE, SAT, DAWNSTOOK_CED, DAWNSTOOK_MOST_COP + 1, WEEK, MACK).number);
    printf(" %d", dawnstook_feed(room, SIZE, word, sizeof word, SAT, WEEK, START, DAWNSTOOK_E5B + 1));
    printf(" %d", dawnstook_candidate(room, SIZE, SAT + 1, DAWNSTOOK_CED, 1, WEEK, MACK).number);
    given[0] ^= 1;
    printf(" %d", dawnstook_tag(room, SIZE, SAT, DAWNSTOOK_CED, 1, 40, op, WEEK, MACK, given, sizeof given, true).number);
    given[0] ^= 1;
    printf(" %d", dawnstook_get_ced_and_status(room, SIZE, SAT).number);
    printf(" %d", dawnstook_part(ended, room, SIZE, &unknown, 1, out, sizeof out).number);
    need(dawnstook_part(cut, room, SIZE, &fresh, 1, out, sizeof out).number == DAWNSTOOK_DONE, "the beginning of a record");
    printf(" %d", dawnstook_end(cut, room, SIZE, out, sizeof out).number);
    need(dawnstook_feed(room, SIZE, word, 0, SAT, WEEK, START - 1, DAWNSTOOK_E5B + 1) == DAWNSTOOK_NOT_ALLOWED, "8 comes before 15");
    need(dawnstook_feed(room, SIZE, word, sizeof word, SAT, WEEK, START - 1, DAWNSTOOK_E5B + 1) == DAWNSTOOK_UNKNOWN_CODE,
         "9 comes before 15");
    need(dawnstook_feed(room, SIZE, word, sizeof word, SAT, WEEK - 1, START + 1, DAWNSTOOK_E1B) == DAWNSTOOK_EARLIER, "an earlier week");
    printf(" %d", dawnstook_feed(room, SIZE, word, sizeof word, SAT + 1, WEEK, START - 1, DAWNSTOOK_E1B));
    printf(" %d", dawnstook_tag(room, SIZE, SAT, DAWNSTOOK_CED, 0, 40, op, WEEK, MACK, given, sizeof given, true).number);
    printf(" %d", dawnstook_tag(room, SIZE, SAT, DAWNSTOOK_CED, 1, 40, op, WEEK, MACK, given, sizeof given, false).number);
    printf(" %d", dawnstook_tag(room, SIZE, SAT, DAWNSTOOK_CED, 1, 40, DAWNSTOOK_DONT_USE, WEEK, MACK, given, sizeof given, true).number);
    memcpy(other, room, SIZE);
    make_word(word, 1, 1);
    word[1] ^= 1;
    printf(" %d", unreadable(other, word));
    memcpy(other, room, SIZE);
    make_word(word, 4, 4);
    word[2] = (SAT + 1) << 2;
    printf(" %d", unreadable(other, word));
    memcpy(other, room, SIZE);
    need(aged(other, 254) == DAWNSTOOK_DONE, "an age of 254 is known");
    memcpy(other, room, SIZE);
    printf(" %d", aged(other, 255));
    need(build(message, sizeof message, given, sizeof given, DAWNSTOOK_FORM_CED).number == DAWNSTOOK_DONE, "a message");
    message[sizeof message - 1] |= 1;
    given[0] ^= 1;
    memcpy(kept, given, sizeof given);
    dawnstook_message_read padded = dawnstook_read_message(given, sizeof given, message, sizeof message, DAWNSTOOK_FORM_CED);
    need(bare_message(padded) && memcmp(given, kept, sizeof given) == 0, "a refusal carries no data, and leaves the buffer");
    printf(" %d\n", padded.number);
    need(memcmp(room, before, SIZE) == 0, "a refusal changes no byte");
    puts("a refusal changes no byte");
}

/* The control register of the vector unit: 0x3f its flags, 0x1f80 their masks, 0x6000 the rounding mode, 0x8040 the smallest as zeros. */
static uint32_t control(void) {
    uint32_t bits;
    __asm__ volatile("stmxcsr %0" : "=m"(bits) : : "memory");
    return bits;
}
static void set_control(uint32_t bits) { __asm__ volatile("ldmxcsr %0" : : "m"(bits) : "memory"); }

static void rounding(void) {
    static const uint8_t bytes[] = { 0x00, 0x01, 0x5a, 0x7f, 0x80, 0xff };
    static uint8_t room[SIZE], word[DAWNSTOOK_WORD_BYTES];
    const uint32_t usual = control();
    for (size_t i = 0; i < sizeof bytes; i++) {
        need(dawnstook_fresh(room, SIZE, D, N, DAWNSTOOK_AGE_BY_MOVES) == DAWNSTOOK_DONE, "a fresh store");
        for (uint8_t type = 1; type <= 10; type++) {
            make_word(word, type, bytes[i]);
            need(dawnstook_feed(room, SIZE, word, sizeof word, SAT, WEEK, START, DAWNSTOOK_E1B) == DAWNSTOOK_DONE, "a word is taken");
        }
        tag(room, SIZE, DAWNSTOOK_CED, MACK);
        tag(room, SIZE, DAWNSTOOK_TIMING, MACK);
        dawnstook_orbit orbit = dawnstook_get_orbit(room, SIZE, SAT);
        dawnstook_timing timing = dawnstook_get_timing_numbers(room, SIZE, SAT);
        need(orbit.number == DAWNSTOOK_DONE && timing.number == DAWNSTOOK_DONE, "numbers");
        for (uint32_t mode = 0; mode < 16; mode++) {
            /* the rounding mode, masks on or off, the smallest numbers as they are or as zeros */
            const uint32_t chosen = (mode & 3) << 13 | (mode & 4 ? 0x1f80 : 0) | (mode & 8 ? 0x8040 : 0);
            set_control(chosen);
            dawnstook_orbit again = dawnstook_get_orbit(room, SIZE, SAT);
            dawnstook_timing timing_again = dawnstook_get_timing_numbers(room, SIZE, SAT);
            const uint32_t after = control();
            set_control(usual);
            need(after == chosen, "no flag is raised, and no mode is changed");
            need(same_orbit(again, orbit) && same_timing(timing_again, timing), "the rounding mode does not matter");
        }
        const dawnstook_scaled plus_zero = { 0, 0, 0, 0, 0, 0, 0, 0, 0, 0, 0, 0, 0, 0, 0, 0, 0, 0, 0, 0, 0, 0, 0 };
        need(bytes[i] != 0 || memcmp(&orbit.scaled, &plus_zero, sizeof plus_zero) == 0, "0 is plus zero");
    }
    puts("the rounding mode does not matter, and no flag is raised");
}

/* A call made on a stack of its own, painted before: what is painted no more was needed, the return address with it. Eight arguments are
 * passed as the calling convention has it, six in registers and two on the stack, whether the call takes them or not. Compilers do not see
 * which function is called, so that what it reads and writes by name is volatile. */
enum { ARGUMENTS = 8, STACKED_BYTES = 2 * 8 };
static uint8_t stack[1 << 14], stack_room[DAWNSTOOK_ROOM_SIZE(DAWNSTOOK_MOST_ROWS, DAWNSTOOK_MOST_SLOTS)];
static uint8_t stack_word[DAWNSTOOK_WORD_BYTES], stack_given[DAWNSTOOK_CED_BYTES];
static uint8_t stack_reader[DAWNSTOOK_READER_BYTES], stack_record[9 + DAWNSTOOK_WORD_BYTES], stack_out[DAWNSTOOK_LONGEST_LINE];
static uint8_t stack_message[DAWNSTOOK_CED_MESSAGE_BYTES];
static volatile uint32_t stack_time = START;
static volatile uint8_t stack_number, stack_form, stack_rule;
static volatile size_t stack_data, stack_bytes;
static size_t stack_most;
static size_t needed(void (*call)(void), const uint64_t *arguments) {
    uint8_t *top = stack + sizeof stack - (uintptr_t)(stack + sizeof stack) % 16;
    const size_t whole = (size_t)(top - stack);
    size_t i = 0;
    memset(stack, 0xa5, sizeof stack);
    __asm__ volatile("movq %%rsp, %%rbx\n\tmovq %0, %%rsp\n\tpushq 56(%2)\n\tpushq 48(%2)\n\tmovq 40(%2), %%r9\n\tmovq 32(%2), %%r8\n\t"
                     "movq 24(%2), %%rcx\n\tmovq 16(%2), %%rdx\n\tmovq 8(%2), %%rsi\n\tmovq (%2), %%rdi\n\tcallq *%1\n\tmovq %%rbx, %%rsp"
                     : "+&r"(top), "+&r"(call), "+&r"(arguments)
                     :
                     : "rax", "rbx", "rcx", "rdx", "rsi", "rdi", "r8", "r9", "r10", "r11", "memory", "cc", "xmm0", "xmm1", "xmm2", "xmm3",
                       "xmm4", "xmm5", "xmm6", "xmm7", "xmm8", "xmm9", "xmm10", "xmm11", "xmm12", "xmm13", "xmm14", "xmm15");
    while (i < whole && stack[i] == 0xa5) i++;
    return whole - i;
}
static void on_nothing(void) {}
static void on_fresh(void) {
    stack_number = dawnstook_fresh(stack_room, sizeof stack_room, DAWNSTOOK_MOST_ROWS, DAWNSTOOK_MOST_SLOTS, stack_rule);
}
static void on_feed(void) {
    stack_number = dawnstook_feed(stack_room, sizeof stack_room, stack_word, sizeof stack_word, SAT, WEEK, stack_time, DAWNSTOOK_E1B);
}
static void on_candidate(void) {
    stack_number = dawnstook_candidate(stack_room, sizeof stack_room, SAT, DAWNSTOOK_CED, 1, WEEK, stack_time + 30).number;
}
static void on_tag(void) {
    stack_number = dawnstook_tag(stack_room, sizeof stack_room, SAT, DAWNSTOOK_CED, 1, 40, DAWNSTOOK_OPERATIONAL, WEEK, stack_time + 30,
                                 stack_given, sizeof stack_given, true).number;
}
static void on_ced(void) { stack_number = dawnstook_get_ced_and_status(stack_room, sizeof stack_room, SAT).number; }
static void on_timing(void) { stack_number = dawnstook_get_timing_parameters(stack_room, sizeof stack_room, SAT).number; }
static void on_reset(void) { stack_number = dawnstook_reset_authbits(stack_room, sizeof stack_room); }
static void on_times(void) {
    stack_number = dawnstook_add_seconds(WEEK, START, -1).number | dawnstook_add_subframes(WEEK, START, -1).number
        | dawnstook_gst_subframe(WEEK, START).number | dawnstook_is_subframe(WEEK, START).number
        | dawnstook_subframes_difference(WEEK, START, WEEK, 0).number;
}
static void on_build(void) {
    stack_number = build(stack_message, sizeof stack_message, stack_given, stack_data, stack_form).number;
}
static void on_read(void) {
    stack_number = dawnstook_read_message(stack_given, sizeof stack_given, stack_message, stack_bytes, stack_form).number;
}
static void on_end(void) {
    stack_number = dawnstook_end(stack_reader, stack_room, sizeof stack_room, stack_out, sizeof stack_out).number;
}
static void count(size_t bytes) {
    if (bytes > stack_most) stack_most = bytes;
}
static void within(void (*body)(void), uint8_t number, const char *what) {
    static const uint64_t none[ARGUMENTS];
    count(needed(body, none) - needed(on_nothing, none)); /* the call's arguments and result, its return address and all below */
    need(stack_number == number, what);
}
/* The deepest calls hand back their result in memory, whose place is the first argument. They are made without a function around them, in
 * which compilers leave different bytes free beside a result: here it is not on this stack, and its own bytes are added. */

/* An item in one part, with what its line begins with. */
static void record_within(size_t bytes, uint8_t number, const char *line) {
    static dawnstook_heard heard;
    const uint64_t arguments[ARGUMENTS] = { (uintptr_t)&heard, (uintptr_t)stack_reader, (uintptr_t)stack_room, sizeof stack_room,
                                            (uintptr_t)stack_record, bytes, (uintptr_t)stack_out, sizeof stack_out };
    count(needed((void (*)(void))dawnstook_part, arguments) + sizeof heard);
    need(heard.number == number && heard.said >= strlen(line) && memcmp(stack_out, line, strlen(line)) == 0, line);
}
/* Data read as numbers. */
static void numbers_within(void (*call)(void), void *result, size_t bytes) {
    const uint64_t arguments[ARGUMENTS] = { (uintptr_t)result, (uintptr_t)stack_room, sizeof stack_room, SAT };
    count(needed(call, arguments) - STACKED_BYTES + bytes);
}
static void orbit_within(uint8_t number, const char *what) {
    static dawnstook_orbit orbit;
    numbers_within((void (*)(void))dawnstook_get_orbit, &orbit, sizeof orbit);
    need(orbit.number == number, what);
}
static void timing_within(uint8_t number, const char *what) {
    static dawnstook_timing timing;
    numbers_within((void (*)(void))dawnstook_get_timing_numbers, &timing, sizeof timing);
    need(timing.number == number, what);
}
/* Words of each type. */
static void words_within(void) {
    for (uint8_t type = 0; type < 64; type++) {
        make_word(stack_word, type, 0x5a);
        within(on_feed, DAWNSTOOK_DONE, "feed");
    }
}
/* A word that stores nothing, after so long that no age is known. */
static void behind_a_gap(void) {
    stack_time += 255 * DAWNSTOOK_SUBFRAME_SECONDS;
    make_word(stack_word, 0, 0x5a);
    within(on_feed, DAWNSTOOK_DONE, "feed behind a gap");
}
/* The two calls that read numbers, with each answer that hangs on the data. */
static void number_stacks(void) {
    orbit_within(DAWNSTOOK_NOT_ENOUGH, "an orbit without a tag");
    timing_within(DAWNSTOOK_NOT_ENOUGH, "timing as numbers without a tag");
    tag(stack_room, sizeof stack_room, DAWNSTOOK_CED, stack_time + 30);
    tag(stack_room, sizeof stack_room, DAWNSTOOK_TIMING, stack_time + 30);
    orbit_within(DAWNSTOOK_DONE, "an orbit");
    timing_within(DAWNSTOOK_DONE, "timing as numbers");
    make_word(stack_word, 4, 0x5a);
    stack_word[2] = (SAT + 1) << 2;
    on_feed();
    tag(stack_room, sizeof stack_room, DAWNSTOOK_CED, stack_time + 30);
    orbit_within(DAWNSTOOK_OTHER_SATELLITE, "an orbit that names another satellite");
    stack_word[1] ^= 1;
    on_feed();
    tag(stack_room, sizeof stack_room, DAWNSTOOK_CED, stack_time + 30);
    orbit_within(DAWNSTOOK_ISSUES_DIFFER, "an orbit of two issues");
    behind_a_gap();
    orbit_within(DAWNSTOOK_AGE_UNKNOWN, "an orbit of unknown age");
    timing_within(DAWNSTOOK_AGE_UNKNOWN, "timing of unknown age as numbers");
    fprintf(stderr, "caller: the deepest call that reads numbers needed %zu bytes of stack\n", stack_most);
    need(stack_most <= DAWNSTOOK_NUMBERS_STACK_BYTES, "the stack is enough for numbers");
    printf("no call that reads numbers needed more than %d bytes of stack\n", DAWNSTOOK_NUMBERS_STACK_BYTES);
}
static void stacks(void) {
    for (stack_rule = DAWNSTOOK_AGE_BY_MOVES; stack_rule <= DAWNSTOOK_AGE_BY_TIME; stack_rule++) {
        within(on_fresh, DAWNSTOOK_DONE, "fresh");
        for (int row = 0; row < 2 * DAWNSTOOK_MOST_ROWS; row++, stack_time += DAWNSTOOK_SUBFRAME_SECONDS) words_within();
    }
    stack_time -= 2 * DAWNSTOOK_SUBFRAME_SECONDS;
    within(on_feed, DAWNSTOOK_EARLIER, "an earlier word");
    stack_time += DAWNSTOOK_SUBFRAME_SECONDS;
    within(on_candidate, DAWNSTOOK_DONE, "candidate");
    dawnstook_shown seen = dawnstook_candidate(stack_room, sizeof stack_room, SAT, DAWNSTOOK_CED, 1, WEEK, stack_time + 30);
    memcpy(stack_given, stack_room + seen.offset, sizeof stack_given);
    within(on_tag, DAWNSTOOK_DONE, "tag");
    within(on_ced, DAWNSTOOK_DONE, "asking CED");
    within(on_timing, DAWNSTOOK_NOT_ENOUGH, "asking timing");
    behind_a_gap();
    within(on_ced, DAWNSTOOK_AGE_UNKNOWN, "asking CED of unknown age");
    words_within();
    within(on_reset, DAWNSTOOK_DONE, "reset");
    within(on_times, DAWNSTOOK_DONE, "times");
    for (size_t f = 0; f < FORMS; f++) {
        stack_form = forms[f].form, stack_data = forms[f].data, stack_bytes = forms[f].bytes;
        within(on_build, DAWNSTOOK_DONE, "a message");
        within(on_read, DAWNSTOOK_DONE, "a message read back");
        stack_message[stack_bytes - 1] |= 1;
        within(on_read, DAWNSTOOK_PADDING_SET, "a message with a bit behind its data");
        stack_data--, stack_bytes--;
        within(on_build, DAWNSTOOK_NOT_ALLOWED, "a message of data that is too short");
        within(on_read, DAWNSTOOK_NOT_ALLOWED, "a message that is too short");
    }
    fprintf(stderr, "caller: the deepest call needed %zu bytes of stack\n", stack_most);
    need(stack_most <= DAWNSTOOK_STACK_BYTES, "the stack is enough");
    printf("no call needed more than %d bytes of stack\n", DAWNSTOOK_STACK_BYTES);
    stack_most = 0;
    number_stacks();
    stack_most = 0;
    for (int row = 0; row < 2; row++) {
        stack_time += DAWNSTOOK_SUBFRAME_SECONDS;
        for (uint8_t type = 0; type < 64; type++) record_within(put_word(stack_record, type, stack_time), DAWNSTOOK_DONE, "w 0\n");
    }
    record_within(put_tag(stack_record, DAWNSTOOK_CED, 40, stack_time + 30), DAWNSTOOK_DONE, "t 0 ");
    record_within(put_tag(stack_record, DAWNSTOOK_TIMING, 40, stack_time + 30), DAWNSTOOK_DONE, "t 0 ");
    for (uint8_t kind = 4; kind <= 5; kind++) {
        stack_record[0] = kind, stack_record[1] = SAT;
        record_within(2, DAWNSTOOK_DONE, kind == 4 ? "c 0 E11 40 1177 " : "p 0 E11 40 1177 ");
    }
    record_within(put_word(stack_record, 1, stack_time - 1), DAWNSTOOK_DONE, "w 15\n");
    record_within(put_word(stack_record, 0, stack_time + 255 * DAWNSTOOK_SUBFRAME_SECONDS), DAWNSTOOK_DONE, "w 0\n");
    for (uint8_t kind = 4; kind <= 5; kind++) {
        stack_record[0] = kind, stack_record[1] = SAT;
        record_within(2, DAWNSTOOK_DONE, kind == 4 ? "c 24\n" : "p 24\n");
    }
    stack_record[0] = 3;
    record_within(1, DAWNSTOOK_DONE, "r 0\n");
    stack_record[0] = 9, stack_record[1] = DAWNSTOOK_MOST_ROWS, stack_record[2] = DAWNSTOOK_MOST_SLOTS;
    for (uint8_t rule = DAWNSTOOK_AGE_BY_MOVES; rule <= DAWNSTOOK_AGE_BY_TIME + 1; rule++) {
        stack_record[3] = rule;
        record_within(4, DAWNSTOOK_DONE, rule <= DAWNSTOOK_AGE_BY_TIME ? "f 0\n" : "f 1\n");
    }
    stack_record[0] = 6, stack_record[1] = DAWNSTOOK_MOST_ROWS, stack_record[2] = DAWNSTOOK_MOST_SLOTS;
    record_within(3, DAWNSTOOK_DONE, "f 0\n");
    record_within(2, DAWNSTOOK_DONE, "");
    within(on_end, DAWNSTOOK_CUT_SHORT, "an end inside a record");
    memset(stack_reader, 0, sizeof stack_reader);
    stack_record[0] = 0;
    record_within(1, DAWNSTOOK_UNKNOWN_KIND, "x 13\n");
    fprintf(stderr, "caller: the deepest part needed %zu bytes of stack\n", stack_most);
    need(stack_most <= DAWNSTOOK_READER_STACK_BYTES, "the stack is enough for a reader");
    printf("no part and no end needed more than %d bytes of stack\n", DAWNSTOOK_READER_STACK_BYTES);
}

int main(void) {
    nothing();
    readers();
    ranges();
    constants();
    numbers();
    rounding();
    stacks();
    return 0;
}
