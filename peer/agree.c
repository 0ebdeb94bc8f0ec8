/* Random questions on random registers, cut at random into boxes, answered by the library (read, depots, desk) and by libxml2 on the whole
   tree. The peer knows nothing of our definitions: it is a second opinion on what a question means.

   agree [CASES [SEED]] */
#include "register_box.h"

#include <libxml/parser.h>
#include <libxml/xpath.h>
#include <stdio.h>
#include <stdlib.h>
#include <string.h>

enum { MOST_ROWS = 24, MOST_BOXES = 8, ROOM = 4096 };

static uint64_t state;

static unsigned below(unsigned n)
{
    state = state * 6364136223846793005u + 1442695040888963407u;
    return (unsigned)(state >> 33) % n;
}

static const char *one_of(const char *const *words, unsigned n)
{
    return words[below(n)];
}

static const char *const labels[] = {"a", "b", "c", "label", "text"};
static const char *const texts[] = {"", "", "x", "xy"};

/* ---- a text that grows, ours and the peer's ---- */

struct text {
    char bytes[ROOM];
    size_t length;
};

static void add(struct text *t, const char *words)
{
    size_t n = strlen(words);
    if (t->length + n < ROOM) {
        memcpy(t->bytes + t->length, words, n + 1);
        t->length += n;
    }
}

static struct text ours, peers;

static void both(const char *a, const char *b)
{
    add(&ours, a);
    add(&peers, b);
}

static void same(const char *words)
{
    both(words, words);
}

/* ---- a random question, written in both tongues at once ---- */

static void question(int depth);

static void quoted(void)
{
    same("\"");
    same(one_of(texts, 4));
    same("\"");
}

static void step(int depth)
{
    switch (below(4)) {
    case 0: both(".", "self::*"); break;
    case 1: both("*", "child::*"); break;
    default: {
        const char *name = one_of(labels, 5);
        both(name, "child::");
        add(&peers, name);
    }
    }
    while (depth > 0 && below(4) == 0) {
        same("[");
        question(depth - 1);
        same("]");
    }
}

/* A row's text is compared whole; to the peer it is the first text below the element, or nothing. */
static void path(int depth)
{
    if (below(3) == 0)
        both("//", "descendant-or-self::*/");
    step(depth);
    while (below(3) == 0) {
        if (below(3) == 0)
            both("//", "/descendant-or-self::*/");
        else
            same("/");
        step(depth);
    }
    if (below(4) == 0) {
        both("/text()=", "[string(text())=");
        quoted();
        both("", "]");
    }
}

static void unit(int depth)
{
    switch (below(8)) {
    case 0:
        both("!", "not(");
        unit(depth);
        both("", ")");
        return;
    case 1:
        if (depth == 0)
            break;
        same("(");
        question(depth - 1);
        same(")");
        return;
    case 2:
        both("label()=\"", "name()=\"");
        same(one_of(labels, 5));
        same("\"");
        return;
    case 3:
        both("text()=", "string(text())=");
        quoted();
        return;
    default: break;
    }
    path(depth);
}

static void question(int depth)
{
    unit(depth);
    while (below(4) == 0) {
        if (below(2) == 0)
            both("&", " and ");
        else
            both("|", " or ");
        unit(depth);
    }
}

/* ---- a random register: one tree, its XML, and its boxes ---- */

static struct {
    unsigned parent, box, place;
    int top; /* the top row of a box */
    const char *label, *text;
} rows[MOST_ROWS];
static unsigned row_count, box_count;
static struct text xml;

static void write_row(unsigned r)
{
    add(&xml, "<");
    add(&xml, rows[r].label);
    add(&xml, ">");
    add(&xml, rows[r].text);
    for (unsigned c = r + 1; c < row_count; c++)
        if (rows[c].parent == r)
            write_row(c);
    add(&xml, "</");
    add(&xml, rows[r].label);
    add(&xml, ">");
}

static void make_register(void)
{
    row_count = 1 + below(MOST_ROWS);
    box_count = 0;
    for (unsigned r = 0; r < row_count; r++) {
        rows[r].parent = r == 0 ? 0 : below(r);
        rows[r].label = one_of(labels, 5);
        rows[r].text = one_of(texts, 4);
        rows[r].top = r == 0 || (box_count < MOST_BOXES && below(5) == 0);
        rows[r].box = rows[r].top ? box_count++ : rows[rows[r].parent].box;
    }
    xml.length = 0;
    write_row(0);
}

static struct {
    uint32_t numbers[MOST_ROWS * REGISTER_BOX_ROW_NUMBERS];
    unsigned rows;
} boxes[MOST_BOXES];
static struct text pool;
static uint8_t layout[MOST_BOXES];

static uint32_t pooled(const char *word)
{
    add(&pool, word);
    return (uint32_t)(pool.length - strlen(word));
}

static unsigned put_row(unsigned box, const uint32_t numbers[REGISTER_BOX_ROW_NUMBERS])
{
    memcpy(boxes[box].numbers + boxes[box].rows * REGISTER_BOX_ROW_NUMBERS, numbers, REGISTER_BOX_ROW_NUMBERS * sizeof *numbers);
    return boxes[box].rows++;
}

/* Each row goes to its box; the top row of a box leaves a stand-in in its parent's. */
static void cut(void)
{
    pool.length = 0;
    for (unsigned b = 0; b < box_count; b++)
        boxes[b].rows = 0;
    for (unsigned r = 0; r < row_count; r++) {
        uint32_t up = r == 0 ? 0 : rows[rows[r].parent].place, above = rows[r].top ? REGISTER_BOX_NO_PARENT : up;
        uint32_t label = pooled(rows[r].label), text = pooled(rows[r].text);
        uint32_t real[] = {above, 0, label, (uint32_t)strlen(rows[r].label), text, (uint32_t)strlen(rows[r].text)};
        if (rows[r].top)
            layout[rows[r].box] = r == 0 ? REGISTER_BOX_TOP : (uint8_t)rows[rows[r].parent].box;
        if (rows[r].top && r > 0)
            put_row(rows[rows[r].parent].box, (uint32_t[]){up, 1, rows[r].box, 0, 0, 0});
        rows[r].place = put_row(rows[r].box, real);
    }
}

/* ---- the two answers ---- */

static uint8_t replies[MOST_BOXES][REGISTER_BOX_MOST_REPLY], store[MOST_BOXES * REGISTER_BOX_MOST_REPLY];
static size_t sizes[MOST_BOXES];

static int all_reply(struct question_list list)
{
    static uint16_t work[REGISTER_BOX_WORK(MOST_ROWS, REGISTER_BOX_MOST_ENTRIES)];
    for (unsigned b = 0; b < box_count; b++) {
        struct depot_answer a =
            depot_reply((const uint8_t *)ours.bytes, ours.length, list, boxes[b].numbers, boxes[b].rows * REGISTER_BOX_ROW_NUMBERS,
                        (const uint8_t *)pool.bytes, pool.length, b, 1, work, sizeof work / sizeof *work, replies[b], sizeof replies[b]);
        if (a.refusal != 0)
            return 0;
        sizes[b] = a.size;
    }
    return 1;
}

/* The boxes' replies in a random order, some twice: what the desk says at the end, or waiting where anything goes otherwise than it must. */
static int desk_says(size_t entries)
{
    struct desk_record desk = desk_fresh();
    unsigned heard = 0, is_heard[MOST_BOXES] = {0};
    if (desk_open(&desk, layout, box_count, entries, 1) != 0)
        return DESK_WAITING;
    while (heard < box_count) {
        unsigned b = below(box_count), due = is_heard[b] ? REGISTER_BOX_ALREADY_HEARD : REGISTER_BOX_TAKEN;
        if (desk_ask(&desk, store, sizeof store).said != DESK_WAITING)
            return DESK_WAITING;
        if (desk_accept(&desk, store, sizeof store, replies[b], sizes[b]) != due)
            return DESK_WAITING;
        heard += !is_heard[b];
        is_heard[b] = 1;
    }
    return desk_ask(&desk, store, sizeof store).said;
}

static int peer_says(void)
{
    xmlDocPtr document = xmlReadMemory(xml.bytes, (int)xml.length, "register.xml", NULL, 0);
    xmlXPathContextPtr context = xmlXPathNewContext(document);
    xmlXPathCompExprPtr compiled = xmlXPathCompile((const xmlChar *)peers.bytes);
    int said = DESK_WAITING;
    if (document != NULL && context != NULL && compiled != NULL) {
        context->node = xmlDocGetRootElement(document);
        said = xmlXPathCompiledEvalToBoolean(compiled, context) == 1 ? DESK_YES : DESK_NO;
    }
    xmlXPathFreeCompExpr(compiled);
    xmlXPathFreeContext(context);
    xmlFreeDoc(document);
    return said;
}

int main(int argc, char **argv)
{
    long cases = argc > 1 ? atol(argv[1]) : 100000, asked = 0, yes = 0, parts = 0, wrong = 0;
    state = argc > 2 ? strtoull(argv[2], NULL, 10) : 1;
    for (long i = 0; i < cases; i++) {
        ours.length = peers.length = 0;
        question(3);
        struct question_answer read = question_read((const uint8_t *)ours.bytes, ours.length);
        if (read.refusal == REGISTER_BOX_TOO_MANY_ENTRIES || read.refusal == REGISTER_BOX_TEXT_LENGTH)
            continue;
        make_register();
        cut();
        int said = read.refusal == 0 && all_reply(read.list) ? desk_says(read.list.count) : DESK_WAITING;
        int peer = peer_says();
        asked++;
        yes += said == DESK_YES;
        parts += box_count;
        if (said == DESK_WAITING || said != peer) {
            wrong++;
            printf("WRONG %d, and the peer %d: %s\n  %s\n  %s\n", said, peer, ours.bytes, peers.bytes, xml.bytes);
        }
    }
    printf("%ld questions on registers in %.1f boxes on average: %ld yes, %ld no, %ld where the peer says otherwise\n", asked,
           asked > 0 ? (double)parts / (double)asked : 0.0, yes, asked - yes, wrong);
    return wrong != 0 || asked == 0;
}
