/*
 * Yoblitan: the yard move supervisor, called from C. Link with libyard.a.
 *
 * An answer is one number: its kind times 65536 plus its own number (YARD_KIND, YARD_NUMBER); that of a turn has
 * the lane's number times 16777216 on top (YARD_LANE) where it is a lane's (YARD_OF_LANE).
 * A call reads inside the lengths given to it, ends, keeps nothing, and needs no test before it:
 * a refusal is an answer like any other and changes no byte, but for the waits where a turn's lane is refused.
 * A lawful plan has at most 16128 bytes.
 *
 * The caller owes that each pointer is not null, even where the length is 0, and valid for its length (a roster for
 * its lanes), that the image does not overlap the plan or a list, that roster and images do not overlap each other or
 * the plan, and that nobody else writes plan, image, log, list, roster or images during the call.
 */
#ifndef YARD_H
#define YARD_H

#include <stddef.h>
#include <stdint.h>

#ifdef __cplusplus
extern "C" {
#endif

enum {
    YARD_IMAGE_BYTES = 312, /* the image of a lane */
    YARD_LIST_MOVES = 8,    /* the most moves of a list, 2 bytes each */
    YARD_ROSTER_LANES = 8   /* the most lanes of a roster */
};

/* A lane's record in a roster: 4 bytes without padding, at an even address. */
struct yard_lane {
    uint8_t number; /* the record's place in the roster, from 0 */
    uint8_t held;   /* 0 is free; with any other byte the lane is held and given no turn */
    uint16_t wait;  /* turns waited */
};

/* Where an image keeps what, for a reader of images; a number has its lowest byte first. */
enum yard_image_place {
    YARD_IMAGE_COMPONENTS = 5,   /* 1 byte: how many components the lane has */
    YARD_IMAGE_VARIABLES = 6,    /* 1 byte: how many variables */
    YARD_IMAGE_INTERACTIONS = 7, /* 1 byte: how many interactions */
    YARD_IMAGE_ORACLE = 8,       /* 1 byte an oracle, 4 in all: its state, 0 for an added oracle that the plan lacks */
    YARD_IMAGE_PLAN_NUMBER = 12, /* 4 bytes: the number of the plan */
    YARD_IMAGE_MARKS = 16,       /* 8 bytes: bit i for interaction i, tried in this state and not ending good */
    YARD_IMAGE_LOCATIONS = 24,   /* 1 byte a component */
    YARD_IMAGE_LAST_PORTS = 40,  /* 1 byte a component: the port of its last move, 255 for none yet */
    YARD_IMAGE_VALUES = 56       /* 4 bytes a variable: a signed number */
};

/* A move ends good where the verdict after it, the lowest of the oracles' verdicts, is 2 or 3; a lane may pass through 1 inside a list alone. */
enum yard_kind {
    YARD_ACCEPTED = 0,  /* number 0 */
    YARD_COMMITTED = 1, /* number: the interaction, or of a list how many entries it has; the image holds the lane after it, with no marks */
    YARD_CANCELLED = 2, /* number: the interaction, whose mark is set and no other byte differs; or of a list where it stops, and no byte changes */
    YARD_STALLED = 3,   /* number 0: no move is enabled; no byte of the image changes */
    YARD_PENNED = 4,    /* number 0: moves are enabled, and none of them ends good; every enabled one is marked */
    YARD_REFUSED = 5,   /* number: one of enum yard_refusal; no byte changes, but for the waits where a turn's lane is refused */
    YARD_WRONG = 6,     /* number: why an entry of a log is wrong, 16, 17 or 18, or 0 where it does not end good; yard_log_index says which entry */
    YARD_IDLE = 7       /* number 0: every lane of a roster is held; no byte changes */
};

/* Why a call was refused. The first that applies, in the order of this list, is the answer. */
enum yard_refusal {
    YARD_BAD_HEAD = 1,        /* plan: fewer than 48 bytes, wrong letters, or bytes 46-47 not zero */
    YARD_BAD_COUNT = 2,       /* plan: a count or the first oracle state outside its range */
    YARD_BAD_LAYOUT = 3,      /* plan: an offset or a length is not as the counts give */
    YARD_BAD_COMPONENT = 4,   /* plan: a component record */
    YARD_BAD_VARIABLE = 5,    /* plan: a variable record */
    YARD_BAD_TRANSITION = 6,  /* plan: a transition record */
    YARD_BAD_INTERACTION = 7, /* plan: an interaction record */
    YARD_BAD_RANK = 8,        /* plan: the ranks are not a strict order on the interactions */
    YARD_BAD_ORACLE = 9,      /* plan: a verdict past 3, a next state, or a follower of a final verdict, 0 or 3 */
    YARD_BAD_ADDED = 20,      /* plan: the same in an added oracle */
    YARD_BAD_CODE = 10,       /* plan: a span or a code word */
    YARD_BAD_LENGTH = 11,     /* image: not 312 bytes */
    YARD_BAD_ROSTER = 23,     /* turn, in place of 11: no lanes, more than YARD_ROSTER_LANES, numbers that do not run from 0, or images not 312 bytes a lane */
    YARD_OTHER_PLAN = 12,     /* image: bytes 0-7 or 12-15 do not match form 1 and the plan */
    YARD_BAD_STATE = 13,      /* image: an oracle state out of range or not good, a location or last port out of range, or an unused entry filled */
    YARD_FALSE_MARK = 14,     /* image: a mark on a move that is not enabled or would end good, or below an enabled one without a mark */
    YARD_BAD_LIST = 22,       /* list: empty, an odd number of bytes, or more than YARD_LIST_MOVES moves */
    YARD_ODD_LOG = 21,        /* log: an odd number of bytes */
    YARD_BAD_START = 15,      /* start, log: the starting state is not good */
    YARD_NO_SUCH_MOVE = 16,   /* try, entry of a log: the number is not an interaction of the plan */
    YARD_NOT_ENABLED = 17,    /* try, entry of a log: the move is not enabled */
    YARD_OUTRANKED = 18,      /* try: an enabled move that is not marked lies above it; entry of a log: an enabled move that ends good does */
    YARD_MARKED = 19          /* try: it was tried in this state and does not end good */
};

#define YARD_LANE(answer) ((uint32_t)(answer) >> 24)
#define YARD_KIND(answer) (((uint32_t)(answer) >> 16) & 0xffu)
#define YARD_NUMBER(answer) ((uint32_t)(answer) & 0xffffu)

/* Whether an answer of yard_turn is a lane's own, that of YARD_LANE: of a kind below refused, or refused with 12 to 14, which ^ 12 makes 0 to 2 and no
 * other number so small. Else it is the turn's: idle, or refused for the plan or the roster. */
#define YARD_OF_LANE(answer) ((((uint32_t)(answer) & 0xffffffu) ^ YARD_OTHER_PLAN) < YARD_REFUSED * 65536u + 3u)

/* Whether a plan is lawful: accepted, or refused with 1 to 10 or 20. */
uint32_t yard_check(const uint8_t *plan, size_t plan_len);

/* Writes the image of a new lane: accepted, or refused with 1 to 11, 15 or 20. What the image held does not matter. */
uint32_t yard_start(const uint8_t *plan, size_t plan_len, uint8_t *image, size_t image_len);

/* Whether plan and image are lawful, so that yard_offered_bits has an answer: accepted, or refused with 1 to 14 or 20. */
uint32_t yard_offered(const uint8_t *plan, size_t plan_len, const uint8_t *image, size_t image_len);

/* The moves on offer (enabled, not marked, each enabled move above them marked): bit i for interaction i. 0 where the call is refused. */
uint64_t yard_offered_bits(const uint8_t *plan, size_t plan_len, const uint8_t *image, size_t image_len);

/* Tries one move: committed, cancelled, or refused with 1 to 14 or 16 to 20. */
uint32_t yard_try(const uint8_t *plan, size_t plan_len, uint8_t *image, size_t image_len, uint32_t interaction);

/* Settles on the lowest-numbered enabled move that ends good and has no enabled move above it that does: committed, stalled, penned, or
 * refused with 1 to 14 or 20. The marks make no difference to it. */
uint32_t yard_settle(const uint8_t *plan, size_t plan_len, uint8_t *image, size_t image_len);

/* Hands in a list of moves, 16 bits each, lowest byte first. An entry is allowed where it is enabled after those before it, its verdict is not 0,
 * and no enabled move above it leads to a verdict other than 0; the marks make no difference. Committed where all are allowed in turn and the last
 * ends good, with the number of entries; cancelled with the index, from 0, of the first entry that is not allowed (one that is not an interaction
 * of the plan included), or with the number of entries where only the end is not good; or refused with 1 to 14, 20 or 22. Unless it is committed
 * whole the image is untouched, marks included. */
uint32_t yard_list(const uint8_t *plan, size_t plan_len, uint8_t *image, size_t image_len, const uint8_t *moves, size_t moves_len);

/* Gives a turn to the lane that is not held and waited longest, the lowest number on a tie, and settles its image as yard_settle does; images holds
 * those of all lanes end to end. The lane's wait becomes 0 and every other wait, a held lane's too, grows by one and stops at 65535. Answers with the
 * lane: committed, stalled, penned, or refused with 12 to 14, which uses up the turn and leaves the image as it is. Answers of no lane (YARD_OF_LANE
 * and YARD_LANE are 0), where nothing changes: idle, or refused with 1 to 10, 20 or 23. A lane that is not held meanwhile has its turn within as many
 * turns as there are lanes, if these alone change the waits. */
uint32_t yard_turn(const uint8_t *plan, size_t plan_len, struct yard_lane *roster, size_t lanes, uint8_t *images, size_t images_len);

/* Whether a log is a run from the starting state: moves of 16 bits each, lowest byte first, each of them enabled and ending good after those
 * before it, with no enabled move above it that ends good. Accepted (an empty log too), wrong, or refused with 1 to 10, 15, 20 or 21. */
uint32_t yard_log(const uint8_t *plan, size_t plan_len, const uint8_t *log, size_t log_len);

/* The index, from 0, of the first wrong entry; 0 where yard_log does not answer wrong. */
uint64_t yard_log_index(const uint8_t *plan, size_t plan_len, const uint8_t *log, size_t log_len);

#ifdef __cplusplus
}
#endif

#endif
