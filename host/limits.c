/* limits: every limit that 01 lays down, on both sides: what just keeps it is taken, what is one past it is refused with 01's number. What
   it prints is host/limits.txt, written out by hand from 01. */
#include "register_box.h"

#include <stdio.h>
#include <string.h>

/* A limit, what is said on it, and what one past it. */
static void line(const char *what, unsigned long on, unsigned long past)
{
    printf("  %-56s", what);
    if (on == REGISTER_BOX_TAKEN)
        printf("taken   ");
    else
        printf("refused %lu", on);
    if (past == REGISTER_BOX_TAKEN)
        printf("taken\n");
    else
        printf("refused %lu\n", past);
}

/* ---- questions: 1 to 4 ---- */

static unsigned long read_text(const char *text)
{
    return question_read((const uint8_t *)text, strlen(text)).refusal;
}

/* `front`, then `unit` so many times, then `middle`, then `back` so many times. */
static unsigned long read_units(const char *front, const char *unit, size_t times, const char *middle, const char *back)
{
    char text[512];
    size_t length = strlen(front);
    memcpy(text, front, length);
    for (size_t i = 0; i < times; i++, length += strlen(unit))
        memcpy(text + length, unit, strlen(unit));
    memcpy(text + length, middle, strlen(middle));
    length += strlen(middle);
    for (size_t i = 0; i < times; i++, length += strlen(back))
        memcpy(text + length, back, strlen(back));
    return question_read((const uint8_t *)text, length).refusal;
}

#define NAME "nnnnnnnnnnnnnnnnnnnnnnnnnnnnnnnnnnnnnnnnnnnnnnnnnnnnnnnnnnnnnnn"

static void questions(void)
{
    printf("questions\n");
    line("1 byte; none", read_text("."), read_text(""));
    /* Four names of 63 bytes and their signs are 255. */
    line("255 bytes; 256", read_units(NAME, "/" NAME, 3, "", ""), read_units(NAME "n", "/" NAME, 3, "", ""));
    line("a name of 64 bytes; of 65", read_units("", "n", 64, "", ""), read_units("", "n", 65, "", ""));
    line("a quoted word of 64 bytes; of 65", read_units("text()=\"", "q", 64, "\"", ""), read_units("text()=\"", "q", 65, "\"", ""));
    line("quoted bytes from 0x20; 0x1F", read_text("text()=\" \""), read_text("text()=\"\x1f\""));
    line("quoted bytes to 0x7E; 0x7F", read_text("text()=\"~\""), read_text("text()=\"\x7f\""));
    line("12 brackets; 13", read_units("", ".[", 12, ".", "]"), read_units("", ".[", 13, ".", "]"));
    line("12 parentheses; 13", read_units("", "(", 12, ".", ")"), read_units("", "(", 13, ".", ")"));
    /* Sixteen `.` joined by `|` are 31 entries. */
    line("32 entries; 33", read_units("!.", "|.", 15, "", ""), read_units("!!.", "|.", 15, "", ""));
}

/* ---- depots: 5 to 9 ---- */

static uint16_t work[REGISTER_BOX_MOST_WORK];
static uint8_t out[REGISTER_BOX_MOST_REPLY];
static const struct question_list one = { .count = 1 };

/* What a depot says to a list over a text of 100 bytes, in front of one row. */
static unsigned long numbered(struct question_list list, uint32_t number)
{
    static const uint32_t rows[] = { REGISTER_BOX_NO_PARENT, 0, 0, 4, 0, 0 };
    uint8_t text[100];
    memset(text, 'x', sizeof text);
    return depot_reply(text, sizeof text, list, rows, 6, (const uint8_t *)"firm", 4, 0, number, work, REGISTER_BOX_MOST_WORK, out, sizeof out)
        .refusal;
}

/* The same for a list of so many entries that are all self but entry i. */
static unsigned long entry(size_t count, size_t i, uint8_t kind, uint8_t left, uint8_t right)
{
    struct question_list list = { .count = count };
    list.kinds[i] = kind;
    list.left[i] = left;
    list.right[i] = right;
    return numbered(list, 1);
}

static void lists(void)
{
    printf("lists at a depot\n");
    line("1 entry; none", entry(1, 0, 0, 0, 0), entry(0, 0, 0, 0, 0));
    line("32 entries; 33", entry(32, 0, 0, 0, 0), entry(33, 0, 0, 0, 0));
    line("the last kind, 8; 9", entry(2, 1, 8, 0, 0), entry(2, 1, 9, 0, 0));
    line("an operand just before its entry; the entry itself", entry(3, 2, 8, 1, 0), entry(3, 2, 8, 2, 0));
    line("a word of 64 bytes; of 65", entry(1, 0, 1, 0, 64), entry(1, 0, 1, 0, 65));
    line("a word up to the text's end; a byte past it", entry(1, 0, 2, 36, 64), entry(1, 0, 2, 37, 64));
    line("question number 1; 0", numbered(one, 1), numbered(one, 0));
}

/* What a depot says to so many numbers of rows of a fragment, beside a pool of 300 bytes. */
static unsigned long fragment_of(const uint32_t *rows, size_t numbers, uint32_t fragment)
{
    uint8_t pool[300];
    memset(pool, 'x', sizeof pool);
    return depot_reply((const uint8_t *)"", 0, one, rows, numbers, pool, sizeof pool, fragment, 1, work, REGISTER_BOX_MOST_WORK, out, sizeof out)
        .refusal;
}

/* So many real rows with a label of one byte, each under the one before. */
static void chain(uint32_t *rows, size_t count)
{
    memset(rows, 0, count * 6 * sizeof *rows);
    for (size_t k = 0; k < count; k++) {
        rows[6 * k] = k == 0 ? REGISTER_BOX_NO_PARENT : (uint32_t)k - 1;
        rows[6 * k + 3] = 1;
    }
}

/* Two rows, the second one under that row. */
static unsigned long under(uint32_t parent)
{
    uint32_t rows[12];
    chain(rows, 2);
    rows[6] = parent;
    return fragment_of(rows, 12, 0);
}

/* A label or a text (its place in the row is `at`) of that start and size. */
static unsigned long word(size_t at, uint32_t start, uint32_t size)
{
    uint32_t rows[6];
    chain(rows, 1);
    rows[at] = start;
    rows[at + 1] = size;
    return fragment_of(rows, 6, 0);
}

/* A row of that kind under row 0, standing for fragment `number` in fragment `own`. */
static unsigned long stand_in(uint32_t kind, uint32_t number, uint32_t own)
{
    const uint32_t rows[] = { REGISTER_BOX_NO_PARENT, 0, 0, 1, 0, 0, 0, kind, number, 0, 0, 0 };
    return fragment_of(rows, 12, own);
}

static void fragments(void)
{
    static uint32_t rows[6 * 513];
    printf("fragments\n");
    chain(rows, 513);
    line("1 row; none", fragment_of(rows, 6, 0), fragment_of(rows, 0, 0));
    line("512 rows; 513", fragment_of(rows, 3072, 0), fragment_of(rows, 3078, 0));
    line("six numbers a row; one more", fragment_of(rows, 6, 0), fragment_of(rows, 7, 0));
    line("number 31; 32", fragment_of(rows, 6, 31), fragment_of(rows, 6, 32));
    line("a parent just before its row; the row itself", under(0), under(1));
    line("kind 1; 2", stand_in(1, 1, 0), stand_in(2, 1, 0));
    line("a label of 1 byte; of none", word(2, 0, 1), word(2, 0, 0));
    line("a label of 64 bytes; of 65", word(2, 0, 64), word(2, 0, 65));
    line("a label up to the pool's end; a byte past it", word(2, 236, 64), word(2, 237, 64));
    line("a text of 255 bytes; of 256", word(4, 0, 255), word(4, 0, 256));
    line("a text up to the pool's end; a byte past it", word(4, 45, 255), word(4, 46, 255));
    line("a stand-in for 31; for 32", stand_in(1, 31, 3), stand_in(1, 32, 3));
    line("a stand-in for the next fragment; for its own", stand_in(1, 4, 3), stand_in(1, 3, 3));
}

/* One row and one entry with so much memory and room. */
static unsigned long given(size_t memory, size_t room)
{
    static const uint32_t rows[] = { REGISTER_BOX_NO_PARENT, 0, 0, 4, 0, 0 };
    return depot_reply((const uint8_t *)"", 0, one, rows, 6, (const uint8_t *)"firm", 4, 0, 1, work, memory, out, room).refusal;
}

/* A list over so many real rows in a chain and a stand-in below them. */
static unsigned long steps(struct question_list list, size_t real)
{
    static uint32_t rows[6 * 513];
    chain(rows, real + 1);
    rows[6 * real + 1] = 1;
    rows[6 * real + 2] = 5;
    rows[6 * real + 3] = 0;
    return depot_reply((const uint8_t *)"", 0, list, rows, 6 * (real + 1), (const uint8_t *)"firm", 4, 0, 1, work, REGISTER_BOX_MOST_WORK, out,
                       sizeof out)
        .refusal;
}

/* Lists found by trying, worked by tools/worked-replies: over 128 real rows the first makes 4,096 steps, over 124 the second 4,097. */
static const struct question_list full = {
    24,
    { 1, 5, 8, 5, 3, 4, 5, 5, 5, 0, 5, 7, 7, 0, 8, 5, 7, 8, 6, 4, 8, 4, 6, 4 },
    { 0, 0, 1, 0, 3, 1, 4, 3, 7, 0, 1, 1, 11, 12, 7, 7, 14, 4, 3, 10, 11, 8, 13, 12 },
    { 0, 0, 0, 2, 1, 4, 1, 4, 6, 6, 2, 8, 8, 5, 5, 8, 11, 4, 15, 1, 11, 12, 0, 15 },
};
static const struct question_list over = {
    28,
    { 1, 5, 8, 3, 0, 5, 7, 8, 8, 5, 6, 3, 8, 8, 5, 3, 8, 5, 8, 8, 6, 8, 8, 5, 7, 0, 6, 8 },
    { 0, 0, 1, 0, 0, 0, 1, 5, 5, 3, 9, 2, 10, 11, 1, 11, 10, 5, 9, 2, 0, 10, 3, 19, 21, 17, 23, 0 },
    { 0, 0, 0, 1, 1, 1, 3, 2, 0, 5, 1, 3, 11, 3, 5, 0, 15, 12, 2, 3, 10, 10, 7, 3, 13, 20, 9, 4 },
};

static void memory(void)
{
    printf("a depot's memory\n");
    line("work memory as long as it must be; one number short", given(12292, 11), given(12291, 11));
    line("4,096 steps; 4,097", steps(full, 128), steps(over, 124));
    line("a buffer as long as the reply; one byte short", given(12292, 11), given(12292, 10));
}

/* ---- replies: 13 ---- */

/* A reply of fragment 1 to question 1: one entry, V and D both true. */
static const uint8_t reply[] = { 0, 0, 0, 1, 8, 0, 0, 4, 0, 0x10, 0, 0 };
enum { REPLY = 11 };

/* The same bytes with byte i changed. */
static unsigned long changed(const uint8_t *bytes, size_t size, size_t i, uint8_t byte)
{
    uint8_t copy[32];
    memcpy(copy, bytes, size);
    copy[i] = byte;
    return reply_check(copy, size);
}

/* One entry and stand-ins 1 to 4, so 80 bits before the steps, which are all `x0 or x0`, four of them in 15 bytes; V and D are false. */
static unsigned long long_reply(size_t count)
{
    static const uint8_t four[] = { 0x60, 0, 0x80, 1, 0x80, 2, 0, 6, 0, 8, 0, 0x18, 0, 0x20, 0 };
    static uint8_t bytes[15378];
    size_t size = REGISTER_BOX_REPLY(1, 4, count);
    memset(bytes, 0, sizeof bytes);
    bytes[3] = 1;
    bytes[5] = (uint8_t)(8 | count >> 12);
    bytes[6] = (uint8_t)(count >> 4);
    bytes[7] = (uint8_t)(count << 4);
    bytes[8] = 136;
    bytes[9] = 100;
    for (size_t i = 0; i < 30 * count / 8; i++)
        bytes[10 + i] = four[i % 15];
    return reply_check(bytes, size);
}

static void replies(void)
{
    /* One entry and one stand-in. Two steps, not x0 and not of the first; and no step, V a variable of the two there are. */
    static const uint8_t two[] = { 0, 0, 0, 1, 0, 2, 0, 0x20, 0xd0, 0, 0, 1, 0x60, 0, 0, 6, 0, 0x28, 0, 0 };
    static const uint8_t variable[] = { 0, 0, 0, 1, 0, 2, 0, 0, 0xc0, 2, 0x80, 0 };
    printf("replies\n");
    line("4,096 steps; 4,097", long_reply(4096), long_reply(4097));
    line("every byte; the last one missing", reply_check(reply, REPLY), reply_check(reply, REPLY - 1));
    line("every byte; one more", reply_check(reply, REPLY), reply_check(reply, REPLY + 1));
    line("a step with the one before it; with itself", reply_check(two, sizeof two), changed(two, sizeof two, 13, 2));
    line("the last variable; the one after it", reply_check(variable, sizeof variable), changed(variable, sizeof variable, 9, 4));
    line("question number 1; 0", reply_check(reply, REPLY), changed(reply, REPLY, 3, 0));
}

/* ---- desks: 10, 11, 15, 17, 20 ---- */

/* Opening a desk whose last number is `last`. */
static unsigned long begin(uint32_t last, const uint8_t *layout, size_t parts, size_t entries, uint32_t number)
{
    struct desk_record desk = desk_fresh();
    desk.last = last;
    return desk_open(&desk, layout, parts, entries, number);
}

/* A desk with a question of two fragments, and a store of so many bytes. */
static uint8_t store[100];

static struct desk_record two_parts(void)
{
    struct desk_record desk = desk_fresh();
    desk_open(&desk, (const uint8_t *)"\xff", 2, 1, 1);
    return desk;
}

static unsigned long give(size_t room, uint8_t part)
{
    struct desk_record desk = two_parts();
    uint8_t copy[REPLY];
    memcpy(copy, reply, REPLY);
    copy[4] = (uint8_t)(part << 3);
    return desk_accept(&desk, store, room, copy, REPLY);
}

/* Asking where one reply is heard and the record's used length is so much more than it is. */
static unsigned long used(size_t more)
{
    struct desk_record desk = two_parts();
    desk_accept(&desk, store, 12, reply, REPLY);
    desk.used += more;
    return desk_ask(&desk, store, 12).refusal;
}

static void desks(void)
{
    static const uint8_t top[33] = { REGISTER_BOX_TOP };
    static const uint32_t highest = 4294967295u;
    printf("desks\n");
    line("a layout of 1 fragment; of none", begin(0, top, 1, 1, 1), begin(0, top, 0, 1, 1));
    line("a layout of 32 fragments; of 33", begin(0, top, 32, 1, 1), begin(0, top, 33, 1, 1));
    line("a parent just below its fragment; the fragment itself", begin(0, (const uint8_t *)"\xff\0\1", 3, 1, 1),
         begin(0, (const uint8_t *)"\xff\0\2", 3, 1, 1));
    line("1 entry; none", begin(0, top, 1, 1, 1), begin(0, top, 1, 0, 1));
    line("32 entries; 33", begin(0, top, 1, 32, 1), begin(0, top, 1, 33, 1));
    line("number 1 after none; 0", begin(0, top, 1, 1, 1), begin(0, top, 1, 1, 0));
    line("the number after the last; the last again", begin(7, top, 1, 1, 8), begin(7, top, 1, 1, 7));
    line("number 4,294,967,295; any after it", begin(7, top, 1, 1, highest), begin(highest, top, 1, 1, highest));
    line("the layout's last fragment; the one after it", give(sizeof store, 1), give(sizeof store, 2));
    line("a store exactly full; one byte short", give(REPLY, 1), give(REPLY - 1, 1));
    line("a used length as it is; one byte more", used(0), used(1));
}

int main(void)
{
    questions();
    lists();
    fragments();
    memory();
    replies();
    desks();
    return 0;
}
