/* What the macros of yard.h say of a turn's answers: each that can be written, and some of the library. Prints the first ten that are wrong. */
#include "yard.h"

#include <stdbool.h>
#include <stdio.h>

#define ANSWER(lane, kind, number) ((lane) * 16777216u + (kind) * 65536u + (number))

/* They can be used where a constant is needed. */
_Static_assert(YARD_OF_LANE(ANSWER(0, YARD_COMMITTED, 0)), "a move of lane 0 is its own");
_Static_assert(YARD_OF_LANE(ANSWER(0, YARD_REFUSED, YARD_OTHER_PLAN)), "so is the refusal of its image");
_Static_assert(!YARD_OF_LANE(ANSWER(0, YARD_REFUSED, YARD_BAD_ROSTER)), "a refused roster is no lane's");
_Static_assert(!YARD_OF_LANE(ANSWER(0, YARD_IDLE, 0)), "idle is no lane's");

static int failed;

static void expect(bool holds, const char *what, uint32_t answer)
{
    if (!holds && failed++ < 10)
        printf("answer %#x: %s\n", (unsigned)answer, what);
}

/* The rule in plain words: not idle, and refused for the image alone. */
static bool of_lane(uint32_t kind, uint32_t number)
{
    return kind < YARD_REFUSED || (kind == YARD_REFUSED && number >= YARD_OTHER_PLAN && number <= YARD_FALSE_MARK);
}

static void every_answer(void)
{
    for (uint32_t lane = 0; lane < YARD_ROSTER_LANES; lane++)
        for (uint32_t kind = YARD_ACCEPTED; kind <= YARD_IDLE; kind++)
            for (uint32_t number = 0; number <= UINT16_MAX; number++) {
                uint32_t answer = ANSWER(lane, kind, number), once = answer;
                expect(YARD_OF_LANE(once++) == of_lane(kind, number), "YARD_OF_LANE is wrong", answer);
                expect(once == answer + 1, "YARD_OF_LANE reads its argument more than once", answer);
                expect(YARD_LANE(answer) == lane && YARD_KIND(answer) == kind && YARD_NUMBER(answer) == number, "is taken apart wrongly", answer);
            }
}

static void expect_turn(uint32_t answer, bool lanes_own, enum yard_kind kind, uint32_t number)
{
    expect(YARD_LANE(answer) == 0 && YARD_KIND(answer) == kind && YARD_NUMBER(answer) == number, "is not the one that was expected", answer);
    expect(YARD_OF_LANE(answer) == lanes_own, "YARD_OF_LANE is wrong", answer);
}

/* Lane 0's own answers and the turn's own, in all of which YARD_LANE is 0. */
static void turns(const uint8_t *plan, size_t plan_len)
{
    uint8_t image[YARD_IMAGE_BYTES];
    struct yard_lane lane = {0, 0, 0};
    yard_start(plan, plan_len, image, sizeof image);
    expect_turn(yard_turn(plan, plan_len, &lane, 1, image, sizeof image), true, YARD_COMMITTED, 1);
    expect_turn(yard_turn(plan, plan_len, &lane, 0, image, 0), false, YARD_REFUSED, YARD_BAD_ROSTER);
    expect_turn(yard_turn(plan, 0, &lane, 1, image, sizeof image), false, YARD_REFUSED, YARD_BAD_HEAD);
    image[0] = 0;
    expect_turn(yard_turn(plan, plan_len, &lane, 1, image, sizeof image), true, YARD_REFUSED, YARD_OTHER_PLAN);
    lane.held = 1;
    expect_turn(yard_turn(plan, plan_len, &lane, 1, image, sizeof image), false, YARD_IDLE, 0);
}

int main(void)
{
    static uint8_t plan[65536];
    every_answer();
    turns(plan, fread(plan, 1, sizeof plan, stdin));
    return failed != 0;
}
