/* Calls the desk as a C host does, on the register to try (01), question a, number 7, and compares each answer, the record and the store
   with what 01 lays down: every order of the replies, each twice; strangers; rooms; openings; records that anyone may have forged. */
#include "register_box.h"

#include <stdio.h>
#include <string.h>

static const uint8_t layout[3] = { 255, 0, 0 };
static const uint8_t reply0[123] = {
    0x00, 0x00, 0x00, 0x07, 0x02, 0x44, 0x01, 0x50, 0x89, 0x80, 0x5e, 0x02, 0x26, 0x01, 0x78, 0x09,
    0x18, 0x06, 0xe0, 0x26, 0x70, 0x02, 0x80, 0x9d, 0x80, 0x2a, 0x01, 0xe6, 0x00, 0xb8, 0x07, 0xd8,
    0x03, 0x20, 0x20, 0x60, 0x0d, 0x80, 0x85, 0x80, 0x12, 0x01, 0x76, 0x00, 0xec, 0x00, 0x18, 0x01,
    0xa0, 0x17, 0x60, 0x10, 0xc0, 0x05, 0x80, 0x46, 0x02, 0x56, 0x00, 0x88, 0x06, 0xd8, 0x04, 0xb0,
    0x02, 0x60, 0x09, 0xc0, 0x09, 0x80, 0x4f, 0x00, 0x36, 0x00, 0x3c, 0x02, 0x58, 0x00, 0xf0, 0x0b,
    0x60, 0x07, 0xc0, 0x39, 0xc0, 0x4f, 0x01, 0x00, 0x00, 0x00, 0x00, 0x00, 0x00, 0x00, 0x08, 0x00,
    0xd0, 0x00, 0x80, 0x0c, 0x00, 0x08, 0x01, 0xf0, 0x13, 0xc0, 0x13, 0x00, 0x5c, 0x01, 0xb0, 0x07,
    0xc0, 0x45, 0x00, 0x0c, 0x04, 0xb0, 0x0c, 0xc0, 0x4f, 0x01, 0x40,
};
static const uint8_t reply1[43] = {
    0x00, 0x00, 0x00, 0x07, 0x0a, 0x40, 0x00, 0x00, 0x00, 0x00, 0x00, 0x00, 0x00, 0x00, 0x00, 0x00,
    0x10, 0x00, 0x00, 0x00, 0x00, 0x04, 0x00, 0x10, 0x00, 0x40, 0x01, 0x00, 0x04, 0x00, 0x10, 0x00,
    0x40, 0x01, 0x00, 0x04, 0x00, 0x10, 0x00, 0x40, 0x01, 0x00, 0x00,
};
static const uint8_t reply2[43] = {
    0x00, 0x00, 0x00, 0x07, 0x12, 0x40, 0x00, 0x04, 0x00, 0x00, 0x00, 0x00, 0x00, 0x00, 0x00, 0x00,
    0x10, 0x00, 0x00, 0x00, 0x00, 0x00, 0x00, 0x00, 0x00, 0x40, 0x01, 0x00, 0x00, 0x00, 0x00, 0x00,
    0x00, 0x01, 0x00, 0x00, 0x00, 0x00, 0x00, 0x00, 0x00, 0x00, 0x00,
};
static const uint8_t *const reply[3] = { reply0, reply1, reply2 };
static const size_t length[3] = { sizeof reply0, sizeof reply1, sizeof reply2 };

enum { ROOM = 209 };                      /* 123, 43 and 43 bytes: exactly full */
static uint8_t store[ROOM + 1], kept[ROOM + 1];
static struct desk_record desk, before;
static int wrong, asked;

static void expect(const char *what, size_t answer, size_t due)
{
    asked++;
    if (answer != due) {
        wrong++;
        printf("WRONG %s: %zu, and not %zu\n", what, answer, due);
    }
}

static void ask(const char *what, unsigned refusal, unsigned said)
{
    struct desk_asked a = desk_ask(&desk, store, ROOM);
    expect(what, a.refusal, refusal);
    expect(what, a.said, said);
}

static void keep(void)
{
    before = desk;
    memcpy(kept, store, sizeof store);
}

static int record_kept(void)
{
    return memcmp(&before, &desk, sizeof desk) == 0;
}

/* Bytes that are refused leave record and store as they were. */
static void refuse(const char *what, const uint8_t *s, size_t n, size_t room, unsigned refusal)
{
    keep();
    expect(what, desk_accept(&desk, store, room, s, n), refusal);
    expect("record kept", (size_t)record_kept(), 1);
    expect("store kept", (size_t)memcmp(kept, store, sizeof store), 0);
}

/* A reply taken stands at the used end; no other byte is changed. */
static void take_bytes(const uint8_t *s, size_t n, size_t f)
{
    size_t used = desk.used;
    keep();
    memcpy(kept + used, s, n);
    expect("taken", desk_accept(&desk, store, ROOM, s, n), 0);
    expect("store written", (size_t)memcmp(kept, store, sizeof store), 0);
    expect("used", desk.used, used + n);
    expect("heard", desk.question.heard[f], 1);
    expect("place", desk.question.place[f], used);
    expect("size", desk.question.size[f], n);
}

static void take(size_t f)
{
    take_bytes(reply[f], length[f], f);
}

static void open(const char *what, const uint8_t *parents, size_t parts, size_t entries, uint32_t number, unsigned refusal)
{
    keep();
    expect(what, desk_open(&desk, parents, parts, entries, number), refusal);
    if (refusal != 0)
        expect("record kept", (size_t)record_kept(), 1);
}

/* Of any old record, opening reads the last number alone. */
static void begin(void)
{
    memset(store, 0xa5, sizeof store);
    memset(&desk, 0xff, sizeof desk);
    desk.last = 6;
    open("opened", layout, 3, 10, 7, 0);
}

static void order(size_t a, size_t b, size_t c)
{
    begin();
    ask("none heard", 0, DESK_WAITING);
    take(a);
    ask("one heard", 0, DESK_WAITING);
    refuse("a second copy", reply[a], length[a], ROOM, 16);
    take(b);
    ask("two heard", 0, DESK_WAITING);
    refuse("cut short", reply[b], length[b] - 1, ROOM, 13);
    refuse("a store one byte short", reply[c], length[c], ROOM - 1, 17);
    take(c);
    ask("all heard", 0, DESK_YES);
    refuse("a second copy of the last", reply[c], length[c], ROOM, 16);
    expect("past the store", store[ROOM], 0xa5);
}

static void edited(const char *what, size_t f, size_t at, uint8_t byte, unsigned refusal)
{
    uint8_t copy[sizeof reply0 + 1] = {0};
    memcpy(copy, reply[f], length[f]);
    copy[at] = byte;
    refuse(what, copy, at < length[f] ? length[f] : at + 1, ROOM, refusal);
}

static void strangers(void)
{
    static const uint8_t other_entries[] = {0x00, 0x00, 0x00, 0x07, 0x08, 0xc0, 0x00, 0x00, 0x00, 0x10, 0x00,
                                            0x00, 0x01, 0x00, 0x04, 0x00, 0x10, 0x00, 0x40, 0x01, 0x00, 0x00};
    static const uint8_t one_child[] = {
        0x00, 0x00, 0x00, 0x07, 0x02, 0x42, 0x00, 0x40, 0xb0, 0x01, 0xc0, 0x1c, 0xc0, 0x07, 0x00, 0x83, 0x00, 0x3c, 0x02, 0x4e,
        0x00, 0x50, 0x09, 0x80, 0x00, 0x00, 0x00, 0x00, 0x00, 0x00, 0x40, 0x06, 0x80, 0x04, 0x00, 0x60, 0x00, 0x40, 0x0f, 0x80,
        0x14, 0x01, 0x50, 0x05, 0xc0, 0x19, 0x00, 0x6e, 0x00, 0x08, 0x00, 0x60, 0x03, 0x00, 0x8e, 0x00, 0x58, 0x01, 0x80};
    static const uint8_t child_of_leaf[] = {0x00, 0x00, 0x00, 0x07, 0x0a, 0x42, 0x00, 0x01, 0x00, 0x00, 0x00, 0x00, 0x00, 0x00, 0x00,
                                            0x00, 0x00, 0x80, 0x00, 0x00, 0x00, 0x00, 0x20, 0x00, 0x80, 0x02, 0x00, 0x08, 0x00, 0x20,
                                            0x00, 0x80, 0x02, 0x00, 0x08, 0x00, 0x20, 0x00, 0x80, 0x02, 0x00, 0x08, 0x00, 0x00};
    begin();
    refuse("no bytes", reply[1], 0, ROOM, 13);
    edited("to the earlier number 6", 1, 3, 6, 14);
    edited("a filling bit set", 1, 42, 1, 13);
    edited("a byte too long", 1, 43, 0, 13);
    take(1);
    refuse("four entries", other_entries, sizeof other_entries, ROOM, 15);
    edited("fragment 3, which the layout does not have", 1, 4, 0x1a, 15);
    refuse("fragment 0 with one of its two children", one_child, sizeof one_child, ROOM, 15);
    edited("fragment 0 with 3 in place of a child", 0, 8, 0x8d, 15);
    refuse("fragment 1 with a child", child_of_leaf, sizeof child_of_leaf, ROOM, 15);
    ask("among strangers", 0, DESK_WAITING);
}

/* Fragment 0 with its two children in another order: they are its children. */
static void swapped(void)
{
    uint8_t copy[sizeof reply0];
    memcpy(copy, reply0, sizeof copy);
    copy[7] = 0x51;
    copy[8] = 0x05;
    take_bytes(copy, sizeof copy, 0);
    take(2);
    edited("to the earlier number 6, at the end", 1, 3, 6, 14);
    ask("children in another order", 0, DESK_YES);
}

static void rooms(void)
{
    begin();
    refuse("no store", reply[1], length[1], 0, 17);
    refuse("a store one byte short of the first", reply[1], length[1], length[1] - 1, 17);
    take(1);
    ask("a part heard", 0, DESK_WAITING);
}

static void numbers(void)
{
    static const uint8_t one[] = {255}, bad[] = {254};
    desk = desk_fresh();
    open("number 0", one, 1, 1, 0, 11);
    open("number 5", one, 1, 1, 5, 0);
    open("5 again", one, 1, 1, 5, 11);
    open("a lower number", one, 1, 1, 4, 11);
    open("10 before 11", one, 0, 1, 4, 10);
    open("number 6", one, 1, 1, 6, 0);
    open("the highest", one, 1, 1, 4294967295u, 0);
    open("the highest again", one, 1, 1, 4294967295u, 11);
    open("1 after the highest", one, 1, 1, 1, 11);
    open("10 after the highest", bad, 1, 1, 4294967295u, 10);
    desk.last = 4294967296u;
    open("after a last number that no opening gives", one, 1, 1, 4294967295u, 11);
    desk.last = UINT64_MAX;
    open("after the highest last number", one, 1, 1, 4294967295u, 11);
}

static void layouts(void)
{
    uint8_t many[33] = {0};
    static const uint8_t itself[] = {255, 1}, two_tops[] = {255, 255}, no_top[] = {0, 0};
    desk = desk_fresh();
    open("no fragment", many, 0, 1, 1, 10);
    open("32 without a top", many, 32, 1, 1, 10);
    many[0] = 255;
    open("33 fragments", many, 33, 1, 1, 10);
    open("a parent that is the fragment", itself, 2, 1, 1, 10);
    open("two tops", two_tops, 2, 1, 1, 10);
    open("no top", no_top, 2, 1, 1, 10);
    open("no entry", many, 1, 0, 1, 10);
    open("33 entries", many, 1, 33, 1, 10);
    open("1 fragment, 1 entry", many, 1, 1, 1, 0);
    open("32 fragments, 32 entries", many, 32, 32, 2, 0);
    many[31] = 30;
    open("the last under the one before", many, 32, 1, 3, 0);
    many[31] = 31;
    open("the last under itself", many, 32, 1, 4, 10);
}

/* Opening the next question forgets all replies; one to the earlier number is then a stranger's. */
static void next(void)
{
    begin();
    take(0);
    take(1);
    take(2);
    open("refused opening", layout, 3, 10, 7, 11);
    ask("after a refused opening", 0, DESK_YES);
    keep();
    open("the next question", layout, 3, 10, 8, 0);
    expect("store kept", (size_t)memcmp(kept, store, sizeof store), 0);
    ask("nothing is carried over", 0, DESK_WAITING);
    refuse("an earlier question's reply", reply[1], length[1], ROOM, 14);
    ask("nothing is carried over", 0, DESK_WAITING);
    desk = desk_fresh();
    ask("a fresh desk", 12, 0);
    refuse("a fresh desk", reply[0], length[0], ROOM, 12);
}

static struct desk_record full;

static void forged(const char *what, unsigned refusal)
{
    ask(what, refusal, refusal == 0 ? DESK_YES : 0);
    if (refusal != 0)
        refuse(what, reply[0], length[0], ROOM, refusal);
    desk = full;
}

static void forged_numbers(void)
{
    desk.last = 3; forged("the last number, of which asking reads nothing", 0);
    desk.used = 208; forged("used a byte less", 20);
    desk.used = 210; forged("used a byte more than the store", 20);
    desk.question.number = 8; forged("another number", 20);
    desk.question.number = 7 + 4294967296u; forged("a number that no reply can bear", 20);
    desk.question.number = 0; forged("no number, and heard", 20);
    desk.question.entries = 9; forged("nine entries", 20);
    desk.question.entries = 0; forged("no entry", 20);
    desk.question.parts = 2; forged("two fragments", 20);
    desk.question.parts = 4; forged("four fragments", 20);
    desk.question.parts = 33; forged("33 fragments", 20);
    desk.question.parts = 0; forged("no fragment", 20);
}

/* What lies past the parts and unheard is not judged. */
static void forged_parts(void)
{
    desk.question.layout[0] = 0; forged("no top", 20);
    desk.question.layout[2] = 1; forged("another parent", 20);
    desk.question.heard[1] = 200; forged("any number but 0 is heard", 0);
    desk.question.layout[3] = 200;
    desk.question.place[5] = 7;
    desk.question.size[5] = 9;
    forged("past the parts, unheard", 0);
    desk.question.heard[3] = 1; forged("past the parts, heard", 20);
    desk.question.heard[1] = 0; forged("bytes of an unheard fragment", 20);
}

static void forged_places(void)
{
    size_t place = desk.question.place[1];
    desk.question.place[1] = place - 1; forged("a place a byte earlier", 20);
    desk.question.place[1] = place + 1; forged("a place a byte later", 20);
    desk.question.size[1]--; forged("a size a byte less", 20);
    desk.question.size[1]++; forged("a size a byte more", 20);
    desk.question.place[1] = 0; forged("another's place", 20);
    desk.question.place[1] = (size_t)-1; forged("the highest place", 20);
    desk.question.size[1] = (size_t)-1; forged("the highest size", 20);
    desk.question.place[1] = (size_t)-1;
    desk.question.size[1] = (size_t)-1;
    forged("the highest place and size", 20);
    desk.question.place[1] = (size_t)-43; forged("a place whose sum would wrap", 20);
    store[3] = 1; forged("a byte of the store changed", 20);
    store[3] = 7;
}

/* No question open: whole if the last number is 0 and nothing is heard or used, whatever else the record holds. */
static void forged_fresh(void)
{
    full = desk = desk_fresh();
    desk.last = 1; forged("none open after 1", 20);
    desk_open(&desk, layout, 3, 10, 7);
    desk.question.number = 0; forged("none open, with the last number, layout and count of one", 20);
    desk.used = 1; forged("none open, a byte used", 20);
    desk.question.heard[31] = 1; forged("none open, one heard", 20);
    desk.question.parts = 99;
    desk.question.layout[0] = 3;
    desk.question.place[2] = 8;
    forged("none open, rubbish elsewhere", 12);
}

static void forgeries(void)
{
    begin();
    take(2);
    take(0);
    take(1);
    full = desk;
    forged("as it was left", 0);
    forged_numbers();
    forged_parts();
    forged_places();
    forged_fresh();
}

int main(void)
{
    order(0, 1, 2);
    order(0, 2, 1);
    order(1, 0, 2);
    order(1, 2, 0);
    order(2, 0, 1);
    order(2, 1, 0);
    strangers();
    swapped();
    rooms();
    numbers();
    layouts();
    next();
    forgeries();
    printf("desk: %d answers, %d wrong\n", asked, wrong);
    return wrong != 0;
}
