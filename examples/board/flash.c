/* SPDX-License-Identifier: MIT
 *
 * The flash of flash.h in memory of its own, which board.ld keeps apart from RAM: nothing but these functions writes it. */
#include "flash.h"

#include <string.h>

__attribute__((section(".flash"))) static uint8_t bytes[FLASH_BYTES];

const uint8_t *flash_bytes(void) { return bytes; }

int flash_erase(size_t address) {
    if (address >= FLASH_BYTES || address % FLASH_SECTOR != 0)
        return 0;
    memset(bytes + address, 0xFF, FLASH_SECTOR);
    return 1;
}

int flash_program(size_t address, const uint8_t *from, size_t length) {
    if (address > FLASH_BYTES || length > FLASH_BYTES - address)
        return 0;
    for (size_t i = 0; i < length; i++)
        if (from[i] & ~bytes[address + i])
            return 0;
    for (size_t i = 0; i < length; i++)
        bytes[address + i] &= from[i];
    return 1;
}
