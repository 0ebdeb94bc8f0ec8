/* Compares the header's structs with what the library uses, by calling across: what a call writes lands in the fields of that name and
   nowhere else, and what is changed in a field is read there. Also that a pointer may be null where its length is 0. */
#include "register_box.h"

#include <stdio.h>
#include <string.h>

/* A struct that is not handed back in registers is written where the caller says, in front of the other arguments: so an area larger than
   the struct can be lent and every byte of it looked at afterwards. */
extern void *read_into(void *area, const uint8_t *text, size_t text_length) __asm__("question_read");
extern void *fresh_into(void *area) __asm__("desk_fresh");

enum { AREA = 1024, PARTS = REGISTER_BOX_MOST_FRAGMENTS, NUMBER = 0x01020304 };

static int wrong, asked;

static void expect(const char *what, size_t got, size_t due)
{
    asked++;
    if (got != due) {
        wrong++;
        printf("WRONG %s: %zu, and not %zu\n", what, got, due);
    }
}

/* How many bytes of two areas, one filled with 0xA5 and one with 0x5A, are written: up to the last that is not as it was. */
static size_t written(const uint8_t *a, const uint8_t *b)
{
    size_t n = AREA;
    while (n > 0 && a[n - 1] == 0xA5 && b[n - 1] == 0x5A)
        n--;
    return n;
}

static uint8_t area[2][AREA];

static void blank(void)
{
    memset(area[0], 0xA5, AREA);
    memset(area[1], 0x5A, AREA);
}

/* not, of child, of at of label and text */
static void questions(void)
{
    static const char text[] = "!a/text()=\"B17\"";
    static const uint8_t kinds[] = {1, 2, 4, 3, 8}, left[] = {1, 11, 0, 2, 3}, right[] = {1, 3, 1, 0, 0};
    struct question_answer answer;
    blank();
    for (int i = 0; i < 2; i++)
        read_into(area[i], (const uint8_t *)text, sizeof text - 1);
    expect("size of question_answer", written(area[0], area[1]), sizeof answer);
    memcpy(&answer, area[0], sizeof answer);
    expect("question_answer.refusal", answer.refusal, 0);
    expect("question_list.count", answer.list.count, sizeof kinds);
    for (size_t i = 0; i < REGISTER_BOX_MOST_ENTRIES; i++) {
        expect("question_list.kinds", answer.list.kinds[i], i < sizeof kinds ? kinds[i] : 0);
        expect("question_list.left", answer.list.left[i], i < sizeof left ? left[i] : 0);
        expect("question_list.right", answer.list.right[i], i < sizeof right ? right[i] : 0);
    }
    answer = question_read((const uint8_t *)text, 1);
    expect("question_answer.refusal, refused", answer.refusal, 2);
    expect("question_list.count, refused", answer.list.count, 0);
}

static struct question_list list_of(size_t count)
{
    struct question_list list;
    memset(&list, 0, sizeof list);
    list.count = count;
    return list;
}

/* Each field of a list handed over by value is read where the header has it. */
static void lists(void)
{
    static const char text[] = "B17";
    uint8_t out[REGISTER_BOX_MOST_LISTING];
    struct question_list list = list_of(32);
    size_t length;
    list.kinds[31] = 1;
    list.left[31] = 1;
    list.right[31] = 2;
    length = question_listing(list, (const uint8_t *)text, 3, out, sizeof out);
    expect("question_list, listed", length, 11 + 10 * 7 + 21 * 8 + 12);
    expect("the last line", (size_t)memcmp(out + length - 12, "31 label 17\n", 12), 0);
    list.right[31] = 3;
    expect("question_list.right, not a list", question_listing(list, (const uint8_t *)text, 3, out, sizeof out), 0);
}

/* Fragment 0 has row 0 and a stand-in for each other fragment, these have row 0 alone; the question is self. The C and the D of fragment 0's
   row are the disjunctions of 31 variables: 60 steps. */
static size_t reply_of(uint32_t fragment, uint8_t *out, size_t room)
{
    static uint16_t work[REGISTER_BOX_WORK(PARTS, 1)];
    static uint32_t rows[PARTS * REGISTER_BOX_ROW_NUMBERS];
    size_t count = fragment == 0 ? PARTS : 1;
    struct depot_answer answer;
    memset(rows, 0, sizeof rows);
    rows[0] = REGISTER_BOX_NO_PARENT;
    rows[3] = 1;
    for (uint32_t k = 1; k < count; k++) {
        rows[6 * k + 1] = 1;
        rows[6 * k + 2] = k;
    }
    answer = depot_reply(NULL, 0, list_of(1), rows, 6 * count, (const uint8_t *)"x", 1, fragment, NUMBER, work, sizeof work / sizeof *work, out, room);
    expect("depot_answer.refusal", answer.refusal, 0);
    expect("depot_answer.size", answer.size, REGISTER_BOX_REPLY(1, count - 1, fragment == 0 ? 60 : 0));
    return answer.size;
}

static uint8_t layout[PARTS], store[2000], reply[REGISTER_BOX_MOST_REPLY];

/* Opens and hears 32 fragments, the last one first, in an area of any contents but for the last number. */
static void hear_all(struct desk_record *desk)
{
    desk->last = NUMBER - 1;
    expect("desk_open", desk_open(desk, layout, PARTS, 1, NUMBER), 0);
    for (uint32_t f = PARTS; f-- > 0;)
        expect("desk_accept", desk_accept(desk, store, sizeof store, reply, reply_of(f, reply, sizeof reply)), 0);
}

static void records(void)
{
    static struct desk_record desk;
    memset(layout, 0, PARTS);
    layout[0] = REGISTER_BOX_TOP;
    blank();
    for (int i = 0; i < 2; i++)
        fresh_into(area[i]);
    expect("size of desk_record, fresh", written(area[0], area[1]), sizeof desk);
    memset(&desk, 0xA5, sizeof desk);
    hear_all(&desk);
    expect("desk_record.last", desk.last, NUMBER);
    expect("desk_record.used", desk.used, 31 * 11 + 256);
    expect("desk_question.number", desk.question.number, NUMBER);
    expect("desk_question.entries", desk.question.entries, 1);
    expect("desk_question.parts", desk.question.parts, PARTS);
    for (size_t f = 0; f < PARTS; f++) {
        expect("desk_question.layout", desk.question.layout[f], f == 0 ? REGISTER_BOX_TOP : 0);
        expect("desk_question.heard", desk.question.heard[f], 1);
        expect("desk_question.place", desk.question.place[f], 11 * (PARTS - 1 - f));
        expect("desk_question.size", desk.question.size[f], f == 0 ? 256 : 11);
    }
}

/* Leaves this byte where the next calls have their locals. */
__attribute__((noinline)) static void poison(int byte)
{
    volatile uint8_t below[1 << 14];
    for (size_t i = 0; i < sizeof below; i++)
        below[i] = (uint8_t)byte;
}

/* Makes a record in memory of that content and over a stack of that content: fresh, opened, and each reply taken. */
static void make_over(int byte, struct desk_record *desk, struct desk_record *fresh)
{
    memset(desk, byte, sizeof *desk);
    memset(fresh, byte, sizeof *fresh);
    poison(byte);
    fresh_into(fresh);
    desk->last = NUMBER - 1;
    poison(byte);
    expect("desk_open", desk_open(desk, layout, PARTS, 1, NUMBER), 0);
    for (uint32_t f = PARTS; f-- > 0;) {
        size_t size = reply_of(f, reply, sizeof reply);
        poison(byte);
        expect("desk_accept", desk_accept(desk, store, sizeof store, reply, size), 0);
    }
}

/* No byte of a record comes from elsewhere: what was in its memory or on the stack before is not seen. */
static void same_bytes(void)
{
    static struct desk_record desk[2], fresh[2];
    make_over(0xA5, &desk[0], &fresh[0]);
    make_over(0x5A, &desk[1], &fresh[1]);
    expect("fresh, over other memory and stack", (size_t)memcmp(&fresh[0], &fresh[1], sizeof *fresh), 0);
    expect("opened and accepted, over other memory and stack", (size_t)memcmp(&desk[0], &desk[1], sizeof *desk), 0);
}

static struct desk_record full;

/* A record with one field changed; asking leaves it as it is. */
static void changed(const char *what, struct desk_record desk, unsigned refusal)
{
    struct desk_record before = desk;
    struct desk_asked answer = desk_ask(&desk, store, sizeof store);
    expect("desk_ask, the record", (size_t)memcmp(&before, &desk, sizeof desk), 0);
    expect(what, answer.refusal, refusal);
    expect(what, answer.said, refusal == 0 ? DESK_YES : 0);
}

static void changes(void)
{
    struct desk_record desk;
    hear_all(&full);
    changed("whole", full, 0);
    desk = full; desk.last++; changed("last", desk, 0);
    desk = full; desk.used++; changed("used", desk, 20);
    desk = full; desk.question.number++; changed("number", desk, 20);
    desk = full; desk.question.entries++; changed("entries", desk, 20);
    desk = full; desk.question.parts--; changed("parts", desk, 20);
    for (size_t f = 0; f < PARTS; f++) {
        desk = full; desk.question.layout[f] = 31; changed("layout", desk, 20);
        desk = full; desk.question.heard[f] = 0; changed("heard", desk, 20);
        desk = full; desk.question.place[f]++; changed("place", desk, 20);
        desk = full; desk.question.size[f]--; changed("size", desk, 20);
    }
}

static void nulls(void)
{
    struct desk_record desk = desk_fresh();
    expect("no text", question_read(NULL, 0).refusal, REGISTER_BOX_TEXT_LENGTH);
    expect("no buffer for a listing", question_listing(list_of(1), NULL, 0, NULL, 0), 17);
    expect("no list, no rows", depot_reply(NULL, 0, list_of(0), NULL, 0, NULL, 0, 0, 1, NULL, 0, NULL, 0).refusal, REGISTER_BOX_BAD_LIST);
    expect("no rows", depot_reply(NULL, 0, list_of(1), NULL, 0, NULL, 0, 0, 1, NULL, 0, NULL, 0).refusal, REGISTER_BOX_BAD_FRAGMENT);
    expect("no bytes", reply_check(NULL, 0), REGISTER_BOX_NOT_A_REPLY);
    expect("no layout", desk_open(&desk, NULL, 0, 1, 1), REGISTER_BOX_BAD_LAYOUT);
    expect("no store, no reply", desk_accept(&desk, NULL, 0, NULL, 0), REGISTER_BOX_NONE_OPEN);
    expect("no store", desk_ask(&desk, NULL, 0).refusal, REGISTER_BOX_NONE_OPEN);
}

int main(void)
{
    questions();
    lists();
    records();
    same_bytes();
    changes();
    nulls();
    printf("structs: %d answers, %d wrong\n", asked, wrong);
    return wrong != 0;
}
