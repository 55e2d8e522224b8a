#include "box.h"

#include "files.h"
#include "report.h"

#include <stdio.h>
#include <string.h>

_Static_assert(sizeof(struct yard_lane) == 4, "a lane's record has 4 bytes");
_Static_assert(_Alignof(struct yard_lane) == 2, "a lane's record begins at an even address");
_Static_assert(offsetof(struct yard_lane, number) == 0, "the lane's number is byte 0");
_Static_assert(offsetof(struct yard_lane, held) == 1, "the held flag is byte 1");
_Static_assert(offsetof(struct yard_lane, wait) == 2, "the wait is bytes 2 and 3");

/* Reads a file of exactly the length of an image. */
static bool read_image(const char *path, uint8_t image[YARD_IMAGE_BYTES])
{
    uint8_t bytes[YARD_IMAGE_BYTES + 1];
    size_t len;
    if (!file_read(path, bytes, sizeof bytes, &len))
        report_file_fault("read", path);
    else if (len != YARD_IMAGE_BYTES)
        printf("cannot take %s: it is not %d bytes long\n", path, YARD_IMAGE_BYTES);
    else {
        memcpy(image, bytes, YARD_IMAGE_BYTES);
        return true;
    }
    return false;
}

/* The lane with this file; the number of lanes where none has it. */
static size_t lane_of(const struct box *box, const char *path)
{
    size_t lane = 0;
    while (lane < box->lanes && strcmp(box->paths[lane], path) != 0)
        lane++;
    return lane;
}

void box_take(struct box *box, const char *path)
{
    size_t lane = lane_of(box, path);
    if (lane < box->lanes)
        printf("cannot take %s: it is lane %zu\n", path, lane);
    else if (lane == BOX_LANES)
        printf("cannot take %s: the box has %zu lanes\n", path, lane);
    else if (read_image(path, box->images + lane * YARD_IMAGE_BYTES)) {
        snprintf(box->paths[lane], sizeof box->paths[lane], "%s", path);
        box->roster[lane] = (struct yard_lane){.number = (uint8_t)lane};
        box->changed[lane] = false;
        box->lanes++;
        printf("lane %zu taken\n", lane);
    }
}

void box_mark(struct box *box, size_t lane, bool held)
{
    box->roster[lane].held = held;
    printf("lane %zu is %s\n", lane, held ? "held" : "free");
}

void box_turn(struct box *box, const uint8_t *plan, size_t plan_len)
{
    uint32_t answer = yard_turn(plan, plan_len, box->roster, box->lanes, box->images, box->lanes * YARD_IMAGE_BYTES);
    if (YARD_KIND(answer) == YARD_COMMITTED || YARD_KIND(answer) == YARD_PENNED)
        box->changed[YARD_LANE(answer)] = true;
    report_turn(answer);
}

/* The commands that look at the lanes need one. */
static bool lanes_there(const struct box *box)
{
    if (box->lanes == 0)
        puts("the box has no lanes");
    return box->lanes > 0;
}

void box_show(const struct box *box)
{
    lanes_there(box);
    for (size_t n = 0; n < box->lanes; n++) {
        const struct yard_lane *lane = &box->roster[n];
        printf("lane %u: %s, waited %u, %s\n", lane->number, lane->held ? "held" : "free", lane->wait, box->paths[n]);
    }
}

/* Brings a lane's file up to date. */
static bool save(struct box *box, size_t lane)
{
    if (!box->changed[lane])
        printf("lane %zu is as it was\n", lane);
    else if (file_write(box->paths[lane], box->images + lane * YARD_IMAGE_BYTES, YARD_IMAGE_BYTES)) {
        box->changed[lane] = false;
        printf("lane %zu saved\n", lane);
    } else
        report_file_fault("write", box->paths[lane]);
    return !box->changed[lane];
}

void box_store(struct box *box)
{
    lanes_there(box);
    for (size_t lane = 0; lane < box->lanes; lane++)
        save(box, lane);
}

void box_leave(struct box *box)
{
    if (lanes_there(box) && save(box, box->lanes - 1))
        printf("lane %zu left\n", --box->lanes);
}
