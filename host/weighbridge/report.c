#include "report.h"

#include "yard.h"

#include <errno.h>
#include <inttypes.h>
#include <stdio.h>
#include <string.h>

enum { NO_PORT = 255 };

/* By refusal number; 0 stands for a number that yard.h does not list. */
static const char *const refusals[] = {
    "for a reason that this program does not know (ask the programmer)",
    "the file is not a plan: it is too short or its head is damaged (ask the planner)",
    "a count of the plan is out of range (ask the planner)",
    "the sections or the length of the plan do not fit its counts (ask the planner)",
    "a component of the plan is faulty (ask the planner)",
    "a variable of the plan is faulty (ask the planner)",
    "a transition of the plan is faulty (ask the planner)",
    "an interaction of the plan is faulty (ask the planner)",
    "the ranks of the plan are in conflict (ask the planner)",
    "the oracle of the plan is faulty (ask the planner)",
    "a guard, action, transfer or proposition of the plan is faulty (ask the planner)",
    "the image is not 312 bytes long (ask the programmer)",
    "the image is not a lane of this plan (ask the keeper of the image)",
    "the image holds a bad or impossible state (ask the keeper of the image)",
    "the image has a mark on a move that must have none (ask the keeper of the image)",
    "the starting state of the plan is not good (ask the site)",
    "the plan has no move of this number (choose another)",
    "the move is not enabled now (choose another)",
    "a move of higher rank is enabled and not marked (choose another)",
    "the move was tried in this state and ends badly (choose another)",
    "an added oracle of the plan is faulty (ask the planner)",
    "the log has an odd number of bytes (ask whoever wrote it)",
    "the list has no moves, more than 8, or an odd number of bytes (hand in 1 to 8 moves)",
    "the box has no lanes or more than 8, or their numbers or images do not fit (take 1 to 8 lanes)",
};

static void report_refusal(uint32_t number)
{
    size_t known = sizeof refusals / sizeof refusals[0];
    printf("refused %" PRIu32 ": %s\n", number, refusals[number < known ? number : 0]);
}

void report_answer(uint32_t answer, const char *accepted)
{
    uint32_t number = YARD_NUMBER(answer);
    switch (YARD_KIND(answer)) {
    case YARD_ACCEPTED:
        puts(accepted);
        break;
    case YARD_COMMITTED:
        printf("move %" PRIu32 " is done\n", number);
        break;
    case YARD_CANCELLED:
        printf("move %" PRIu32 " is cancelled: it ends badly and is now marked\n", number);
        break;
    case YARD_STALLED:
        puts("stalled: no move is enabled");
        break;
    case YARD_PENNED:
        puts("penned: every enabled move ends badly and is now marked");
        break;
    case YARD_REFUSED:
        report_refusal(number);
        break;
    case YARD_IDLE:
        puts("idle: every lane is held");
        break;
    default:
        printf("answer %" PRIu32 " is unknown to this program (ask the programmer)\n", answer);
    }
}

void report_list(uint32_t answer, size_t entries)
{
    uint32_t number = YARD_NUMBER(answer);
    if (YARD_KIND(answer) == YARD_COMMITTED)
        printf("list of %" PRIu32 " move%s is done\n", number, number == 1 ? "" : "s");
    else if (YARD_KIND(answer) != YARD_CANCELLED)
        report_answer(answer, "accepted");
    else if (number < entries)
        printf("list is cancelled, nothing is changed: entry %" PRIu32 " is not allowed there\n", number);
    else
        puts("list is cancelled, nothing is changed: after its last move the lane would not be good");
}

void report_turn(uint32_t answer)
{
    if (YARD_OF_LANE(answer))
        printf("lane %" PRIu32 ": ", YARD_LANE(answer));
    report_answer(answer, "accepted");
}

/* Why an entry of a log is wrong. */
static const char *cause(uint32_t number)
{
    switch (number) {
    case 0:
        return "bad, the move ends badly";
    case YARD_NO_SUCH_MOVE:
        return "16, the plan has no move of this number";
    case YARD_NOT_ENABLED:
        return "17, the move is not enabled there";
    case YARD_OUTRANKED:
        return "18, a move of higher rank is enabled there and ends well";
    default:
        return "for a cause that this program does not know (ask the programmer)";
    }
}

void report_log(uint32_t answer, uint64_t index)
{
    if (YARD_KIND(answer) == YARD_WRONG)
        printf("entry %" PRIu64 ": %s\n", index, cause(YARD_NUMBER(answer)));
    else
        report_answer(answer, "log accepted");
}

void report_moves(const char *what, uint64_t bits)
{
    printf("moves %s:", what);
    for (unsigned move = 0; move < 64; move++)
        if (bits >> move & 1)
            printf(" %u", move);
    printf("%s (bits %" PRIu64 ")\n", bits == 0 ? " none" : "", bits);
}

/* A number of `size` bytes, lowest byte first. */
static uint64_t number_at(const uint8_t *bytes, unsigned size)
{
    uint64_t number = 0;
    while (size-- > 0)
        number = number << 8 | bytes[size];
    return number;
}

static int64_t signed_at(const uint8_t *bytes)
{
    int64_t number = (int64_t)number_at(bytes, 4);
    return number <= INT32_MAX ? number : number - ((int64_t)1 << 32);
}

void report_weights(const uint8_t *image)
{
    unsigned count = image[YARD_IMAGE_VARIABLES];
    if (count == 0)
        puts("the lane has no variables");
    for (unsigned n = 0; n < count; n++)
        printf("variable %u: %" PRId64 "\n", n, signed_at(image + YARD_IMAGE_VALUES + 4 * n));
}

void report_locations(const uint8_t *image)
{
    for (unsigned n = 0; n < image[YARD_IMAGE_COMPONENTS]; n++) {
        printf("component %u: location %u, ", n, image[YARD_IMAGE_LOCATIONS + n]);
        if (image[YARD_IMAGE_LAST_PORTS + n] == NO_PORT)
            puts("no last port yet");
        else
            printf("last port %u\n", image[YARD_IMAGE_LAST_PORTS + n]);
    }
}

void report_marks(const uint8_t *image)
{
    report_moves("marked", number_at(image + YARD_IMAGE_MARKS, 8));
}

void report_file_fault(const char *verb, const char *path)
{
    printf("cannot %s %s: %s\n", verb, path, strerror(errno));
}
