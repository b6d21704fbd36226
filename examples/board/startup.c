/* SPDX-License-Identifier: MIT
 *
 * From reset to main on the emulated board: the vector table, the memory of C, and the words of the command line, which semihosting hands
 * over. A fault ends the run with a failure. It relies on board.ld and on newlib's semihosting (-lrdimon); a real board has its own.
 */
#include <stdint.h>
#include <stdlib.h>
#include <string.h>

extern uint8_t stack_top[], data_start[], data_end[], data_load[], bss_start[], bss_end[];
extern void initialise_monitor_handles(void);
extern int main(int count, char **words);
void reset(void);
void _init(void);
void _fini(void);

/* newlib calls these two; there is nothing to do. */
void _init(void) {}
void _fini(void) {}

enum { WRITE_TEXT = 0x04, GET_COMMAND_LINE = 0x15, EXIT = 0x18, WORDS_MOST = 8, LINE_MOST = 512 };
static const uintptr_t internal_error = 0x20024;

/* A request to the emulator, by its number. */
static uintptr_t semihosting(uintptr_t request, uintptr_t argument) {
    register uintptr_t r0 __asm__("r0") = request;
    register uintptr_t r1 __asm__("r1") = argument;
    __asm__ volatile("bkpt 0xAB" : "+r"(r0) : "r"(r1) : "memory");
    return r0;
}

static void fault(void) {
    static const char said[] = "fault\n";
    semihosting(WRITE_TEXT, (uintptr_t)said);
    semihosting(EXIT, internal_error);
    for (;;) {
    }
}

__attribute__((section(".vectors"), used)) static const uintptr_t vectors[16] = {
    (uintptr_t)stack_top, (uintptr_t)reset, (uintptr_t)fault, (uintptr_t)fault, (uintptr_t)fault, (uintptr_t)fault,
    (uintptr_t)fault,     (uintptr_t)fault, (uintptr_t)fault, (uintptr_t)fault, (uintptr_t)fault, (uintptr_t)fault,
    (uintptr_t)fault,     (uintptr_t)fault, (uintptr_t)fault, (uintptr_t)fault};

/* The words after `-semihosting-config arg=`, the program's name first. */
static int command_line(char **words) {
    static char line[LINE_MOST];
    uintptr_t asked[2] = {(uintptr_t)line, sizeof line};
    int count = 0;
    if (semihosting(GET_COMMAND_LINE, (uintptr_t)asked) != 0)
        return 0;
    for (char *word = strtok(line, " "); word && count < WORDS_MOST; word = strtok(NULL, " "))
        words[count++] = word;
    return count;
}

void reset(void) {
    static char *words[WORDS_MOST + 1];
    memcpy(data_start, data_load, (size_t)(data_end - data_start));
    memset(bss_start, 0, (size_t)(bss_end - bss_start));
    initialise_monitor_handles();
    exit(main(command_line(words), words));
}
