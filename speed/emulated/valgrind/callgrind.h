/* What the harness says to callgrind, said to speed/emulated/counter.c where an emulator runs it: each is a call of an empty function that
 * the counter knows by its name. A dump's label goes to standard output, and what was counted behind it. */
#include <string.h>
#include <unistd.h>

#define COUNTER_MARK(name) __attribute__((noinline, used)) static void name(void) { __asm__ volatile("" ::: "memory"); }
COUNTER_MARK(counter_toggle)
COUNTER_MARK(counter_zero)
COUNTER_MARK(counter_dump)

#define CALLGRIND_TOGGLE_COLLECT counter_toggle()
#define CALLGRIND_ZERO_STATS counter_zero()
#define CALLGRIND_DUMP_STATS_AT(label) do { \
        if (write(1, label, strlen(label)) < 0 || write(1, "\t", 1) < 0) _exit(1); \
        counter_dump(); \
    } while (0)
