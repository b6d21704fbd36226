/* SPDX-License-Identifier: MIT
 *
 * How many bytes of stack a call takes: paint the stack below the caller, make the call, and look how far down the paint is gone.
 *
 *     stack_paint();
 *     number = splicelog_tidy(store, sizeof store, work, sizeof work);
 *     used = stack_used();
 *
 * It relies on a stack that grows downwards and has STACK_PAINTED bytes left, and on no interrupt that uses it meanwhile. Used bytes that
 * happen to hold the paint at the deepest end are not seen: that is at most a word or two.
 */
#ifndef STACK_H
#define STACK_H

#include <stddef.h>
#include <stdint.h>

/* The bytes nearest to the caller may be stack_paint's own frame: they are not painted, and count as used. */
enum { STACK_NEAR = 128, STACK_PAINTED = 40 * 1024 };

static const uint32_t stack_colour = UINT32_C(0xC3A5C35A);
static uintptr_t stack_top_painted;

__attribute__((noinline)) static void stack_paint(void) {
    volatile uint32_t here = 0;
    stack_top_painted = (uintptr_t)&here;
    for (size_t below = STACK_NEAR; below < STACK_PAINTED; below += sizeof here)
        *(volatile uint32_t *)(stack_top_painted - below) = stack_colour;
}

__attribute__((noinline)) static size_t stack_used(void) {
    size_t below = STACK_PAINTED - sizeof stack_colour;
    while (below >= STACK_NEAR && *(volatile uint32_t *)(stack_top_painted - below) == stack_colour)
        below -= sizeof stack_colour;
    return below;
}

#endif
