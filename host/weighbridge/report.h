/* What the clerk reads: answers, refusals and the contents of an image, on standard output. */
#ifndef REPORT_H
#define REPORT_H

#include <stddef.h>
#include <stdint.h>

/* An answer of the engine in words; `accepted` is what to say for an accepted call. */
void report_answer(uint32_t answer, const char *accepted);

/* The answer on a list of so many entries in words. */
void report_list(uint32_t answer, size_t entries);

/* The answer to a turn in words, with the lane where it is some lane's. */
void report_turn(uint32_t answer);

/* The answer on a log in words, with the index of its first wrong entry. */
void report_log(uint32_t answer, uint64_t index);

/* The moves whose bits are set. */
void report_moves(const char *what, uint64_t bits);

/* The variables of an image with their values. */
void report_weights(const uint8_t *image);

/* The components of an image with their locations and last ports. */
void report_locations(const uint8_t *image);

/* The marked moves of an image. */
void report_marks(const uint8_t *image);

/* A file that could not be read or written; the reason is in errno. */
void report_file_fault(const char *verb, const char *path);

#endif
