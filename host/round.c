/* A whole round on the register to try, as a firm's program would run it: the desk reads a question, three depots reply, and the desk hears
   them in every order, with a second copy, a stranger, an earlier question's reply and one cut short among them.

   round ['QUESTION']   asks //lift[brake/text()="B17"] where none is given */
#include "register_box.h"

#include <stdio.h>
#include <string.h>

enum { BOXES = 3, NUMBER = 7 };

/* Labels and texts are places in the pool: firm 0, site 4, lift 8, brake 12, B17 17, B09 20, mark 23, done 27. */
static const char pool[] = "firmsiteliftbrakeB17B09markdone";
#define REAL(parent, label, label_length, text, text_length) parent, 0, label, label_length, text, text_length
#define STAND_IN(parent, fragment) parent, 1, fragment, 0, 0, 0
static const uint32_t box0[] = {REAL(REGISTER_BOX_NO_PARENT, 0, 4, 0, 0), REAL(0, 4, 4, 0, 0), STAND_IN(0, 1), STAND_IN(1, 2)};
static const uint32_t box1[] = {REAL(REGISTER_BOX_NO_PARENT, 4, 4, 0, 0), REAL(0, 8, 4, 0, 0), REAL(1, 12, 5, 17, 3)};
static const uint32_t box2[] = {REAL(REGISTER_BOX_NO_PARENT, 8, 4, 0, 0), REAL(0, 12, 5, 20, 3), REAL(0, 23, 4, 27, 4)};
static const struct {
    const uint32_t *rows;
    size_t length;
    const char *words;
} boxes[BOXES] = {
    {box0, sizeof box0 / sizeof *box0, "firm; under it site and box 1; under site box 2"},
    {box1, sizeof box1 / sizeof *box1, "site; under it lift; under lift brake \"B17\""},
    {box2, sizeof box2 / sizeof *box2, "lift; under it brake \"B09\" and mark \"done\""},
};
static const uint8_t layout[BOXES] = {REGISTER_BOX_TOP, 0, 0};

/* (Of a multiple of eight bytes, so that no struct here has padding.) */
struct reply {
    uint8_t bytes[(REGISTER_BOX_MOST_REPLY + 7) / 8 * 8];
    size_t size;
};

static const char *words(size_t refusal)
{
    switch (refusal) {
    case REGISTER_BOX_TAKEN: return "taken";
    case REGISTER_BOX_TEXT_LENGTH: return "refused 1: a question has 1 to 255 bytes";
    case REGISTER_BOX_NOT_A_QUESTION: return "refused 2: not a question";
    case REGISTER_BOX_TOO_NESTED: return "refused 3: more than 12 brackets and parentheses in each other";
    case REGISTER_BOX_TOO_MANY_ENTRIES: return "refused 4: more than 32 sub-questions";
    case REGISTER_BOX_NOT_A_REPLY: return "refused 13: not a reply";
    case REGISTER_BOX_OTHER_QUESTION: return "refused 14: a reply to another question";
    case REGISTER_BOX_MISFIT: return "refused 15: a part that the layout does not have";
    case REGISTER_BOX_ALREADY_HEARD: return "refused 16: this part is already heard";
    default: return "refused, which this round does not expect";
    }
}

static const char *saying(struct desk_asked asked)
{
    static const char *const says[] = {"waiting", "no", "yes"};
    return asked.refusal == 0 ? says[asked.said] : words(asked.refusal);
}

/* The reply of a box, under any fragment number and to any question number, so that strangers can be made too. */
static unsigned reply_of(struct reply *reply, int box, uint32_t fragment, uint32_t number, const char *text, struct question_list list)
{
    static uint16_t work[REGISTER_BOX_MOST_WORK];
    struct depot_answer answer =
        depot_reply((const uint8_t *)text, strlen(text), list, boxes[box].rows, boxes[box].length, (const uint8_t *)pool, sizeof pool - 1,
                    fragment, number, work, sizeof work / sizeof *work, reply->bytes, sizeof reply->bytes);
    reply->size = answer.size;
    return (unsigned)answer.refusal;
}

static struct desk_record desk;
static uint8_t store[BOXES * REGISTER_BOX_MOST_REPLY];
static struct reply replies[BOXES], stranger, other;

static unsigned give(const struct reply *reply)
{
    return desk_accept(&desk, store, sizeof store, reply->bytes, reply->size);
}

static struct desk_asked ask(void)
{
    return desk_ask(&desk, store, sizeof store);
}

static void hand_in(const char *what, const struct reply *reply, size_t size)
{
    unsigned refusal = desk_accept(&desk, store, sizeof store, reply->bytes, size);
    printf("  %-34s %s\n", what, words(refusal));
}

static void asked(void)
{
    printf("  %-34s %s\n", "the desk, asked", saying(ask()));
}

static void open_question(uint32_t number, size_t entries)
{
    unsigned refusal = desk_open(&desk, layout, BOXES, entries, number);
    printf("  %-34s %s\n", "the desk opens the question", refusal == 0 ? "opened" : words(refusal));
}

static void slow_round(void)
{
    asked();
    hand_in("box 2's reply", &replies[2], replies[2].size);
    hand_in("box 2's reply, a second copy", &replies[2], replies[2].size);
    asked();
    hand_in("box 0's reply, cut short by a byte", &replies[0], replies[0].size - 1);
    hand_in("a reply from box 3, a stranger", &stranger, stranger.size);
    hand_in("a reply to question 6, late", &other, other.size);
    hand_in("box 0's reply", &replies[0], replies[0].size);
    asked();
    hand_in("box 1's reply", &replies[1], replies[1].size);
    asked();
}

/* Opens the question at a fresh desk and hands in the three replies in this order: the answer, or waiting where anything is refused or said
   before the last. */
static int answer_in_order(const int order[BOXES], size_t entries)
{
    desk = desk_fresh();
    if (desk_open(&desk, layout, BOXES, entries, NUMBER) != 0)
        return DESK_WAITING;
    for (int i = 0; i < BOXES; i++)
        if (ask().said != DESK_WAITING || give(&replies[order[i]]) != 0)
            return DESK_WAITING;
    return ask().said;
}

static int all_orders(size_t entries)
{
    static const int orders[][BOXES] = {{0, 1, 2}, {0, 2, 1}, {1, 0, 2}, {1, 2, 0}, {2, 0, 1}, {2, 1, 0}};
    int first = answer_in_order(orders[0], entries);
    for (size_t i = 1; i < sizeof orders / sizeof *orders; i++)
        if (answer_in_order(orders[i], entries) != first)
            return DESK_WAITING;
    return first;
}

static void show_list(const char *text, struct question_list list)
{
    static uint8_t page[REGISTER_BOX_MOST_LISTING];
    size_t length = question_listing(list, (const uint8_t *)text, strlen(text), page, sizeof page);
    printf("\nQuestion %d: %s\n", NUMBER, text);
    for (size_t i = 0; i < length; i++)
        printf("%s%c", i == 0 || page[i - 1] == '\n' ? "  " : "", page[i]);
}

static unsigned all_replies(const char *text, struct question_list list)
{
    unsigned refusal = 0;
    for (uint32_t box = 0; box < BOXES && refusal == 0; box++)
        refusal = reply_of(&replies[box], (int)box, box, NUMBER, text, list);
    if (refusal == 0)
        refusal = reply_of(&stranger, 1, 3, NUMBER, text, list);
    if (refusal == 0)
        refusal = reply_of(&other, 1, 1, NUMBER - 1, text, list);
    return refusal;
}

int main(int argc, char **argv)
{
    const char *text = argc > 1 ? argv[1] : "//lift[brake/text()=\"B17\"]";
    struct question_answer read = question_read((const uint8_t *)text, strlen(text));
    if (read.refusal != 0) {
        printf("%s\n%s\n", text, words(read.refusal));
        return 1;
    }
    printf("The register to try\n");
    for (int box = 0; box < BOXES; box++)
        printf("  box %d: %s\n", box, boxes[box].words);
    show_list(text, read.list);
    if (all_replies(text, read.list) != 0) {
        printf("a depot refuses this question\n");
        return 1;
    }
    printf("\nThe replies have %zu, %zu and %zu bytes\n", replies[0].size, replies[1].size, replies[2].size);
    desk = desk_fresh();
    open_question(NUMBER, read.list.count);
    slow_round();
    printf("\nThe same question is asked again, as number %d\n", NUMBER + 1);
    open_question(NUMBER + 1, read.list.count);
    hand_in("box 2's reply to question 7, late", &replies[2], replies[2].size);
    asked();

    int answer = all_orders(read.list.count);
    printf("\nThe answer to question %d, the same in all six orders of the replies: %s\n", NUMBER,
           answer == DESK_YES ? "yes" : answer == DESK_NO ? "no" : "WRONG");
    return answer == DESK_WAITING;
}
