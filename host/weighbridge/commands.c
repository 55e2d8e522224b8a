#include "commands.h"

#include "files.h"
#include "report.h"

#include <ctype.h>
#include <stdio.h>
#include <string.h>

static void do_offered(struct bridge *b, const char *unused)
{
    (void)unused;
    uint32_t answer = yard_offered(b->plan, b->plan_len, b->image, sizeof b->image);
    if (YARD_KIND(answer) == YARD_ACCEPTED)
        report_moves("offered", yard_offered_bits(b->plan, b->plan_len, b->image, sizeof b->image));
    else
        report_answer(answer, "accepted");
}

static void put_move(uint8_t *bytes, uint32_t move)
{
    bytes[0] = (uint8_t)move;
    bytes[1] = (uint8_t)(move >> 8);
}

/* Keeps moves that were made, as long as there is room for all of them. */
static void keep_moves(struct bridge *b, const uint8_t *moves, size_t len)
{
    b->has_moves = b->has_moves && b->moves_len + len <= sizeof b->moves;
    if (!b->has_moves)
        return;
    memcpy(b->moves + b->moves_len, moves, len);
    b->moves_len += len;
}

/* Reports a try or a settling, and keeps the move that it made. */
static void report_move(struct bridge *b, uint32_t answer)
{
    uint8_t move[2];
    report_answer(answer, "accepted");
    put_move(move, YARD_NUMBER(answer));
    if (YARD_KIND(answer) == YARD_COMMITTED)
        keep_moves(b, move, sizeof move);
}

/* Reads a decimal number, of one past 32 bits only as many digits as show that. Answers what follows them. */
static const char *parse_digits(const char *text, uint64_t *number)
{
    for (*number = 0; isdigit((unsigned char)*text) && *number <= UINT32_MAX; text++)
        *number = *number * 10 + (uint64_t)(*text - '0');
    return text;
}

/* A decimal number of 32 bits, with nothing before or after it. */
static bool parse_number(const char *text, uint32_t *number)
{
    uint64_t sum;
    text = parse_digits(text, &sum);
    *number = (uint32_t)sum;
    return *text == '\0' && sum <= UINT32_MAX;
}

/* Decimal numbers of 16 bits with blanks between, as a list of moves. */
static bool parse_moves(const char *text, uint8_t moves[LIST_BYTES], size_t *len)
{
    for (*len = 0; *text != '\0'; *len += 2) {
        uint64_t move;
        text = parse_digits(text, &move);
        if (move > UINT16_MAX || *len + 2 > LIST_BYTES || (*text != '\0' && !isspace((unsigned char)*text)))
            return false;
        put_move(moves + *len, (uint32_t)move);
        while (isspace((unsigned char)*text))
            text++;
    }
    return true;
}

static void do_try(struct bridge *b, const char *text)
{
    uint32_t move;
    if (parse_number(text, &move))
        report_move(b, yard_try(b->plan, b->plan_len, b->image, sizeof b->image, move));
    else
        puts("try needs a move number from 0 to 4294967295");
}

static void do_settle(struct bridge *b, const char *unused)
{
    (void)unused;
    report_move(b, yard_settle(b->plan, b->plan_len, b->image, sizeof b->image));
}

/* A load in several moves: all of them are made, or none. */
static void do_list(struct bridge *b, const char *text)
{
    uint8_t moves[LIST_BYTES];
    size_t len;
    if (!parse_moves(text, moves, &len)) {
        puts("list needs move numbers from 0 to 65535, with blanks between");
        return;
    }
    uint32_t answer = yard_list(b->plan, b->plan_len, b->image, sizeof b->image, moves, len);
    report_list(answer, len / 2);
    if (YARD_KIND(answer) == YARD_COMMITTED)
        keep_moves(b, moves, len);
}

static void do_start(struct bridge *b, const char *unused)
{
    (void)unused;
    uint32_t answer = yard_start(b->plan, b->plan_len, b->image, sizeof b->image);
    if (YARD_KIND(answer) == YARD_ACCEPTED) {
        b->has_lane = b->has_moves = true;
        b->moves_len = 0;
    }
    report_answer(answer, "lane started");
}

/* The commands that look at the image need one. */
static bool lane_there(const struct bridge *b)
{
    if (!b->has_lane)
        puts("there is no lane yet");
    return b->has_lane;
}

static void do_weights(struct bridge *b, const char *unused)
{
    (void)unused;
    if (lane_there(b))
        report_weights(b->image);
}

static void do_locations(struct bridge *b, const char *unused)
{
    (void)unused;
    if (lane_there(b))
        report_locations(b->image);
}

static void do_marks(struct bridge *b, const char *unused)
{
    (void)unused;
    if (lane_there(b))
        report_marks(b->image);
}

static void do_save(struct bridge *b, const char *path)
{
    if (!lane_there(b))
        return;
    if (file_write(path, b->image, sizeof b->image))
        puts("lane saved");
    else
        report_file_fault("write", path);
}

/* A refused image is put aside: the lane in use stays. */
static void do_load(struct bridge *b, const char *path)
{
    uint8_t image[YARD_IMAGE_BYTES + 1];
    size_t len;
    if (!file_read(path, image, sizeof image, &len)) {
        report_file_fault("read", path);
        return;
    }
    uint32_t answer = yard_offered(b->plan, b->plan_len, image, len);
    if (YARD_KIND(answer) == YARD_ACCEPTED) {
        memcpy(b->image, image, sizeof b->image);
        b->has_lane = true;
        b->has_moves = false;
    }
    report_answer(answer, "lane loaded");
}

/* The moves of a lane from its start on, whoever made them. */
static void do_log(struct bridge *b, const char *path)
{
    static uint8_t log[LOG_BYTES + 1];
    size_t len;
    if (!file_read(path, log, sizeof log, &len))
        report_file_fault("read", path);
    else if (len > LOG_BYTES)
        printf("cannot take %s: it has more than %d bytes\n", path, LOG_BYTES);
    else
        report_log(yard_log(b->plan, b->plan_len, log, len), yard_log_index(b->plan, b->plan_len, log, len));
}

static void do_moves(struct bridge *b, const char *path)
{
    if (!lane_there(b))
        return;
    if (!b->has_moves)
        puts("the moves from the start on are not known: the lane was loaded, the plan changed, or there were too many");
    else if (file_write(path, b->moves, b->moves_len))
        puts("moves saved");
    else
        report_file_fault("write", path);
}

/* A refused plan is in use all the same: moves must not go on under the plan that it was to replace. */
static void do_plan(struct bridge *b, const char *path)
{
    uint8_t plan[sizeof b->plan];
    size_t len;
    if (!file_read(path, plan, sizeof plan, &len)) {
        report_file_fault("read", path);
        return;
    }
    memcpy(b->plan, plan, len);
    b->plan_len = len;
    b->has_moves = false;
    report_answer(yard_check(b->plan, b->plan_len), "plan accepted");
}

static void do_lane(struct bridge *b, const char *path)
{
    box_take(&b->box, path);
}

static void mark_lane(struct bridge *b, const char *text, bool held)
{
    uint32_t lane;
    if (parse_number(text, &lane) && lane < b->box.lanes)
        box_mark(&b->box, lane, held);
    else
        printf("the box has no lane %s\n", text);
}

static void do_hold(struct bridge *b, const char *text)
{
    mark_lane(b, text, true);
}

static void do_free(struct bridge *b, const char *text)
{
    mark_lane(b, text, false);
}

static void do_turn(struct bridge *b, const char *unused)
{
    (void)unused;
    box_turn(&b->box, b->plan, b->plan_len);
}

static void do_roster(struct bridge *b, const char *unused)
{
    (void)unused;
    box_show(&b->box);
}

static void do_store(struct bridge *b, const char *unused)
{
    (void)unused;
    box_store(&b->box);
}

static void do_leave(struct bridge *b, const char *unused)
{
    (void)unused;
    box_leave(&b->box);
}

static void do_quit(struct bridge *b, const char *unused)
{
    (void)unused;
    b->done = true;
}

static void do_help(struct bridge *b, const char *unused);

static const struct command {
    const char *name;
    const char *needs; /* what follows the name; NULL for nothing */
    void (*run)(struct bridge *, const char *);
    const char *does;
} commands[] = {
    {"offered", NULL, do_offered, "shows the moves on offer"},
    {"try", "a move number", do_try, "makes this move; one that ends badly is cancelled and marked"},
    {"settle", NULL, do_settle, "chooses a move that ends well and makes it"},
    {"list", "move numbers", do_list, "makes all of these moves or none"},
    {"weights", NULL, do_weights, "shows the variables of the lane"},
    {"locations", NULL, do_locations, "shows the locations and last ports of the lane"},
    {"marks", NULL, do_marks, "shows the marked moves"},
    {"save", "a file name", do_save, "writes the image of the lane"},
    {"load", "a file name", do_load, "reads the image of a lane"},
    {"plan", "a file name", do_plan, "reads a plan"},
    {"log", "a file name", do_log, "checks a log against the plan"},
    {"moves", "a file name", do_moves, "writes the moves from the start on, as a log"},
    {"start", NULL, do_start, "starts the lane anew"},
    {"lane", "a file name", do_lane, "takes the lane of an image into the box"},
    {"hold", "a lane number", do_hold, "gives a lane of the box no turns"},
    {"free", "a lane number", do_free, "gives it turns again"},
    {"turn", NULL, do_turn, "settles the free lane of the box that waited longest"},
    {"roster", NULL, do_roster, "shows the lanes of the box"},
    {"store", NULL, do_store, "saves the lanes of the box that changed"},
    {"leave", NULL, do_leave, "saves the last lane of the box and gives it up"},
    {"help", NULL, do_help, "shows this list"},
    {"quit", NULL, do_quit, "ends the program"},
};
enum { COMMANDS = sizeof commands / sizeof commands[0] };

static void do_help(struct bridge *b, const char *unused)
{
    (void)b, (void)unused;
    for (size_t n = 0; n < COMMANDS; n++)
        printf("%-9s  %-13s  %s\n", commands[n].name, commands[n].needs == NULL ? "" : commands[n].needs, commands[n].does);
}

static const struct command *find(const char *name)
{
    for (size_t n = 0; n < COMMANDS; n++)
        if (strcmp(name, commands[n].name) == 0)
            return &commands[n];
    return NULL;
}

static char *skip_blanks(char *text)
{
    while (isspace((unsigned char)*text))
        text++;
    return text;
}

/* Cuts the line behind its first word. Answers the rest, with no blanks around it. */
static char *cut_rest(char *word)
{
    char *end = word + strlen(word);
    while (end > word && isspace((unsigned char)end[-1]))
        end--;
    *end = '\0';
    while (*word != '\0' && !isspace((unsigned char)*word))
        word++;
    if (*word == '\0')
        return word;
    *word = '\0';
    return skip_blanks(word + 1);
}

void bridge_obey(struct bridge *b, char *line)
{
    char *name = skip_blanks(line);
    if (*name == '\0' || *name == '#')
        return;
    char *rest = cut_rest(name);
    const struct command *command = find(name);
    if (command == NULL)
        puts("unknown command: say offered, try, settle, list, weights, locations, marks, save, load, plan, log, moves, start, lane, hold, free, turn, "
             "roster, store, leave or quit");
    else if (command->needs == NULL && *rest != '\0')
        printf("%s stands alone on its line\n", command->name);
    else if (command->needs != NULL && *rest == '\0')
        printf("%s needs %s\n", command->name, command->needs);
    else
        command->run(b, rest);
}

void bridge_open(struct bridge *b, const char *plan_path)
{
    do_plan(b, plan_path);
    do_start(b, "");
}
