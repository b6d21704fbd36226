/* SPDX-License-Identifier: MIT
 *
 * A simulated flash of 64 KiB in sectors of 4 KiB: erased bytes are FF, a sector is erased whole, and programming can only clear bits. A
 * board's driver has functions like these. See flash.c. */
#ifndef FLASH_H
#define FLASH_H

#include <stddef.h>
#include <stdint.h>

enum { FLASH_BYTES = 64 * 1024, FLASH_SECTOR = 4096 };

/* The bytes, as the processor reads them. */
const uint8_t *flash_bytes(void);

/* The sector that begins at this address. Gives 0 for an address where none begins. */
int flash_erase(size_t address);

/* Gives 0, and programs nothing, where a bit would have to be set. */
int flash_program(size_t address, const uint8_t *from, size_t length);

#endif
