/* The commands of the weighbridge: one line, one call of the engine or one look at the image. */
#ifndef COMMANDS_H
#define COMMANDS_H

#include "box.h"
#include "yard.h"

#include <stdbool.h>

enum {
    PLAN_BYTES = 16128,       /* the longest lawful plan */
    LOG_BYTES = 16 * 1048576, /* the longest log that is taken */
    MOVES_BYTES = 1048576,    /* the longest log that is kept of a lane's moves */
    LIST_BYTES = 256          /* the longest list that a line can say */
};

struct bridge {
    uint8_t plan[PLAN_BYTES + 1]; /* with one byte more, the engine refuses a longer file as it would the whole */
    size_t plan_len;
    uint8_t image[YARD_IMAGE_BYTES]; /* zeros until there is a lane, then an image that the engine wrote or accepted */
    bool has_lane;
    uint8_t moves[MOVES_BYTES]; /* the moves since the lane was started, as a log */
    size_t moves_len;
    bool has_moves; /* all of them are kept, and the plan is still that of the start */
    struct box box; /* the lanes that are served in turn, apart from the one above */
    bool done;      /* the clerk has said quit */
};

/* Takes up a plan and starts a lane. What goes wrong is reported, and commands may follow. */
void bridge_open(struct bridge *bridge, const char *plan_path);

/* Obeys one line; it is cut into words in place. Blank lines and lines that begin with # say nothing. */
void bridge_obey(struct bridge *bridge, char *line);

#endif
