/* Calls the check of crate reply as a C host does, and compares each answer with what 01, "The reply's bits", lays down.
   The replies are put together here, bit by bit, from 01's words alone: nothing of the crate's own writer is used. */

#include "register_box.h"

#include <stdio.h>
#include <string.h>

enum { NONE, YES, VAR, STEP };            /* kinds of reference */
enum { AND, OR, NOT };                    /* operations of a step */
enum { MOST_STEPS = 4096, MOST_BYTES = 15499, ROOM = 20000 };

struct ref { unsigned kind, number; };
struct step { unsigned op; struct ref left, right; };
struct reply {
    uint32_t number;
    unsigned fragment, entries, ins, steps;
    unsigned in[31];
    struct step step[MOST_STEPS + 1];
    struct ref v[32], d[32];
};

static uint8_t bytes[ROOM];
static size_t bits;
static int wrong, asked;

static void put(unsigned width, uint32_t value)
{
    for (unsigned i = width; i-- > 0; bits++)
        if (value >> i & 1)
            bytes[bits / 8] |= 0x80 >> bits % 8;
}

static void put_ref(struct ref r)
{
    put(2, r.kind);
    put(12, r.number);
}

/* The bytes of r, and how many. */
static size_t encode(const struct reply *r)
{
    memset(bytes, 0, sizeof bytes);
    bits = 0;
    put(32, r->number);
    put(5, r->fragment);
    put(5, r->entries - 1);
    put(5, r->ins);
    put(13, r->steps);
    for (unsigned i = 0; i < r->ins; i++)
        put(5, r->in[i]);
    for (unsigned i = 0; i < r->steps; i++) {
        put(2, r->step[i].op);
        put_ref(r->step[i].left);
        put_ref(r->step[i].right);
    }
    for (unsigned e = 0; e < r->entries; e++)
        put_ref(r->v[e]);
    for (unsigned e = 0; e < r->entries; e++)
        put_ref(r->d[e]);
    return (bits + 7) / 8;
}

static void expect(const char *what, const uint8_t *s, size_t length, unsigned answer)
{
    unsigned got = reply_check(s, length);
    asked++;
    if (got != answer) {
        wrong++;
        printf("WRONG %s: %u, and 01 says %u\n", what, got, answer);
    }
}

static void good(const char *what, const struct reply *r)
{
    expect(what, bytes, encode(r), 0);
}

static void bad(const char *what, const struct reply *r)
{
    expect(what, bytes, encode(r), 13);
}

/* ---- a second reading of 01, for the sweeps: what is read back field by field, and every clause tested */
static const uint8_t *from;
static size_t next;

static unsigned long take(unsigned width)
{
    unsigned long x = 0;
    for (; width > 0; width--, next++)
        x = 2 * x + (from[next / 8] >> (7 - next % 8) & 1);
    return x;
}

static int reference(unsigned long vars, unsigned long steps, int constants)
{
    unsigned long kind = take(2), number = take(12);
    return kind == VAR ? number < vars : kind == STEP ? number < steps : constants && number == 0;
}

static unsigned plain(const uint8_t *s, size_t length)
{
    unsigned long in[31], entries, ins, steps, fragment, end;
    int fine;
    if (length < 8)
        return 13;
    from = s;
    next = 0;
    fine = take(32) != 0;
    fragment = take(5);
    entries = take(5) + 1;
    ins = take(5);
    steps = take(13);
    end = 60 + 5 * ins + 30 * steps + 28 * entries;
    if (length != (end + 7) / 8)
        return 13;
    fine = fine && steps <= MOST_STEPS;
    for (unsigned long i = 0; i < ins; i++) {
        in[i] = take(5);
        fine = fine && in[i] > fragment;
        for (unsigned long j = 0; j < i; j++)
            fine = fine && in[j] != in[i];
    }
    for (unsigned long i = 0; i < steps; i++) {
        unsigned long op = take(2);
        fine = reference(2 * entries * ins, i, 0) && fine;
        if (op == NOT)
            fine = take(14) == 0 && fine;
        else
            fine = reference(2 * entries * ins, i, 0) && op != 3 && fine;
    }
    for (unsigned long e = 0; e < 2 * entries; e++)
        fine = reference(2 * entries * ins, steps, 1) && fine;
    while (next < 8 * length)
        fine = take(1) == 0 && fine;
    return fine ? 0 : 13;
}

/* every bit of r's bytes turned, and every length up to two bytes more */
static void sweep(const char *what, const struct reply *r)
{
    size_t length = encode(r);
    for (size_t i = 0; i < 8 * length; i++) {
        bytes[i / 8] ^= 0x80 >> i % 8;
        expect(what, bytes, length, plain(bytes, length));
        bytes[i / 8] ^= 0x80 >> i % 8;
    }
    for (size_t n = 0; n < length + 3; n++)
        expect(what, bytes, n, n == length ? 0 : 13);
}

static struct reply base, r;

static const struct ref none = {NONE, 0}, yes = {YES, 0};

static struct ref var(unsigned x) { return (struct ref){VAR, x}; }
static struct ref step(unsigned i) { return (struct ref){STEP, i}; }

/* the reply whose bytes are worked out by hand below: two entries, one stand-in, so variables 0 to 3 */
static void make_base(void)
{
    base.number = 0x01020304;
    base.fragment = 3;
    base.entries = 2;
    base.ins = 1;
    base.in[0] = 7;
    base.steps = 2;
    base.step[0] = (struct step){AND, var(0), var(1)};
    base.step[1] = (struct step){NOT, step(0), none};
    base.v[0] = none;
    base.v[1] = step(1);
    base.d[0] = yes;
    base.d[1] = var(3);
}

static void largest(void)
{
    r = base;
    r.number = 4294967295u;
    r.fragment = 0;
    r.entries = 32;
    r.ins = 31;
    for (unsigned i = 0; i < 31; i++)
        r.in[i] = 31 - i;
    r.steps = MOST_STEPS;
    for (unsigned i = 0; i < MOST_STEPS; i++)
        r.step[i] = (struct step){i % 2 ? OR : AND, var(i % 1984), i ? step(i - 1) : var(1983)};
    for (unsigned e = 0; e < 32; e++) {
        r.v[e] = step(MOST_STEPS - 1 - e);
        r.d[e] = var(1983 - e);
    }
}

static void hand(void)
{
    static const uint8_t worked[23] = {0x01, 0x02, 0x03, 0x04, 0x18, 0x42, 0x00, 0x23, 0x90, 0x00, 0x40, 0x03,
                                       0x60, 0x00, 0x00, 0x00, 0x00, 0x18, 0x00, 0xa0, 0x01, 0x00, 0x18};
    expect("worked by hand", worked, sizeof worked, 0);
    if (encode(&base) != sizeof worked || memcmp(bytes, worked, sizeof worked) != 0) {
        wrong++;
        printf("WRONG bytes of the reply worked by hand\n");
    }
}

static void good_ones(void)
{
    good("base", &base);
    for (unsigned n = 1; n <= 32; n++) {  /* fillings of every length */
        r = base;
        r.entries = n;
        for (unsigned e = 0; e < n; e++)
            r.v[e] = r.d[e] = e % 2 ? yes : none;
        good("entries", &r);
        r.ins = 0;
        r.steps = 0;
        good("no stand-in, no step", &r);
    }
    largest();
    good("largest", &r);
    if (encode(&r) != MOST_BYTES) {
        wrong++;
        printf("WRONG length of the largest reply\n");
    }
}

static void no_reply(void)
{
    static uint8_t many[1 << 20];
    size_t n;
    expect("null pointer", (const uint8_t *)0, 0, 13);
    expect("no bytes", bytes, 0, 13);
    largest();
    n = encode(&r);
    expect("a byte more than the most", bytes, n + 1, 13);
    expect("a byte less than the largest promises", bytes, n - 1, 13);
    expect("a megabyte", many, sizeof many, 13);
    n = encode(&base);
    expect("a byte more", bytes, n + 1, 13);
    expect("a header that promises more than there is", bytes, 8, 13);
    for (unsigned i = 0; i < 3; i++) {
        encode(&base);
        bytes[22] |= 1 << i;
        expect("filling that isn't zero", bytes, n, 13);
    }
}

static void bad_head(void)
{
    r = base; r.number = 0; bad("number 0", &r);
    r = base; r.steps = MOST_STEPS + 1; r.ins = 0; r.entries = 1;
    for (unsigned i = 0; i <= MOST_STEPS; i++)
        r.step[i] = (struct step){NOT, i ? step(i - 1) : step(0), none};
    bad("4,097 steps", &r);
    r = base; r.in[0] = 3; bad("a stand-in equal to the fragment", &r);
    r = base; r.in[0] = 2; bad("a stand-in below the fragment", &r);
    r = base; r.ins = 2; r.in[1] = 7; bad("repeated stand-ins", &r);
    r = base; r.ins = 3; r.in[1] = 9; r.in[2] = 7; bad("repeated stand-ins, another between", &r);
    r = base; r.ins = 2; r.in[1] = 5; good("two stand-ins, falling", &r);
}

static void bad_steps(void)
{
    for (unsigned op = AND; op <= NOT; op++) {
        r = base; r.step[1].op = op; r.step[1].right = op == NOT ? none : var(3); good("each operation", &r);
        r.step[1].left = none; bad("false as left operand", &r);
        r.step[1].left = yes; bad("true as left operand", &r);
        r.step[1].left = step(1); bad("a step that points at itself", &r);
        r.step[1].left = step(2); bad("a later step", &r);
        r.step[1].left = var(4); bad("a variable that doesn't exist", &r);
    }
    r = base; r.step[1].op = 3; r.step[1].right = var(0); bad("an operation that doesn't exist", &r);
    r = base; r.step[0].right = none; bad("false as right operand", &r);
    r = base; r.step[0].right = yes; bad("true as right operand", &r);
    r = base; r.step[0].right = step(0); bad("itself on the right", &r);
    r = base; r.step[0].right = step(1); bad("a later step on the right", &r);
    r = base; r.step[0].right = var(4); bad("no such variable on the right", &r);
    r = base; r.step[1].right = yes; bad("a second operand of not: kind", &r);
    r = base; r.step[1].right.number = 1; bad("a second operand of not: number", &r);
    r = base; r.step[1].right = var(0); bad("a second operand of not: a variable", &r);
}

static void bad_results(void)
{
    r = base; r.v[0].number = 1; bad("false with a number", &r);
    r = base; r.d[0].number = 4095; bad("true with a number", &r);
    r = base; r.v[1] = step(2); bad("V: a step that doesn't exist", &r);
    r = base; r.d[1] = step(2); bad("D: a step that doesn't exist", &r);
    r = base; r.v[1] = var(4); bad("V: a variable that doesn't exist", &r);
    r = base; r.d[1] = var(4); bad("D: a variable that doesn't exist", &r);
    r = base; r.ins = 0; r.steps = 0; r.v[1] = none; bad("a variable without a stand-in", &r);
}

int main(void)
{
    make_base();
    hand();
    good_ones();
    no_reply();
    bad_head();
    bad_steps();
    bad_results();
    sweep("base", &base);
    r = base; r.ins = 2; r.in[1] = 12; sweep("two stand-ins", &r);
    r = base; r.ins = 0; r.steps = 0; r.v[1] = yes; r.d[1] = none; sweep("constants", &r);
    printf("reply_check: %d answers, %d wrong\n", asked, wrong);
    return wrong != 0;
}
