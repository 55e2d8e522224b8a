/* The box: the lanes that are served in turn, each from a file of its own. What is done or goes wrong is reported. */
#ifndef BOX_H
#define BOX_H

#include "yard.h"

#include <stdbool.h>

enum {
    BOX_LANES = YARD_ROSTER_LANES + 1, /* with one lane more, the engine refuses the roster */
    PATH_CHARS = 255                   /* the longest file name that a line can say */
};

struct box {
    size_t lanes;
    struct yard_lane roster[BOX_LANES];
    uint8_t images[BOX_LANES * YARD_IMAGE_BYTES]; /* end to end */
    char paths[BOX_LANES][PATH_CHARS + 1];
    bool changed[BOX_LANES]; /* by a turn, since the lane was read or saved */
};

/* Takes up a lane behind the others, free and with no wait. Its image is judged when it has a turn. */
void box_take(struct box *box, const char *path);

/* Holds or frees a lane of the box. */
void box_mark(struct box *box, size_t lane, bool held);

/* Gives one turn under a plan. */
void box_turn(struct box *box, const uint8_t *plan, size_t plan_len);

/* Shows the roster. */
void box_show(const struct box *box);

/* Saves every lane that changed to its file. */
void box_store(struct box *box);

/* Saves the last lane in the same way and gives it up; where it cannot be saved it stays. */
void box_leave(struct box *box);

#endif
