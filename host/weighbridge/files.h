/* Whole files, up to a limit. */
#ifndef FILES_H
#define FILES_H

#include <stdbool.h>
#include <stddef.h>
#include <stdint.h>

/* Reads the first `limit` bytes of a file, or all of it when it is shorter. False when it cannot be read; errno says why. */
bool file_read(const char *path, uint8_t *bytes, size_t limit, size_t *len);

/* Makes the file hold exactly these bytes: written beside it, flushed to the disk and renamed, so that a fault leaves what it held. False when it cannot
 * be written; errno says why. */
bool file_write(const char *path, const uint8_t *bytes, size_t len);

#endif
