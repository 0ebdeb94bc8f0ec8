/* The time a question takes on the largest box, beside libxml2's XPath on the same tree, in one run. Every answer is compared as well. */
#include "register_box.h"

#include <libxml/parser.h>
#include <libxml/xpath.h>
#include <stdio.h>
#include <stdlib.h>
#include <string.h>
#include <time.h>

enum { SITES = 10, LIFTS = 5, BRAKES = 9, ROWS = 512, POOL = 8192, RUNS = 5 };

/* Ours is asked at the top row, so the peer's context is the top element. */
static const struct {
    const char *ours, *peers;
} questions[] = {
    {"//lift[brake/text()=\"B449\"]", "boolean(.//lift[brake/text()=\"B449\"])"},
    {"//lift[brake/text()=\"B999\"]", "boolean(.//lift[brake/text()=\"B999\"])"},
    {"//mark", "boolean(.//mark)"},
    {"site/lift/brake", "boolean(site/lift/brake)"},
    {"!//lift[!brake]", "not(.//lift[not(brake)])"},
    {"//.[label()=\"lift\"&mark]", "boolean(descendant-or-self::*[self::lift and mark])"},
    {"site[lift/brake/text()=\"B001\"]&site[lift/mark]", "site[lift/brake/text()=\"B001\"] and site[lift/mark]"},
    {"//site[lift[brake/text()=\"B405\"]&lift[brake/text()=\"B449\"]]",
     "boolean(.//site[lift[brake/text()=\"B405\"] and lift[brake/text()=\"B449\"]])"},
};
enum { QUESTIONS = sizeof questions / sizeof *questions };

/* ---- the register: a firm of 10 sites with 5 lifts each, 9 brakes a lift, and a mark under the last lift ---- */

static uint32_t rows[ROWS * REGISTER_BOX_ROW_NUMBERS];
static char pool[POOL], xml[ROWS * 40];
static size_t row_count, pool_used, xml_used;

static uint32_t pooled(const char *word)
{
    size_t at = pool_used;
    memcpy(pool + at, word, strlen(word));
    pool_used += strlen(word);
    return (uint32_t)at;
}

static uint32_t row(uint32_t parent, const char *label, const char *text)
{
    uint32_t *r = rows + row_count * REGISTER_BOX_ROW_NUMBERS;
    r[0] = parent;
    r[1] = 0;
    r[2] = pooled(label);
    r[3] = (uint32_t)strlen(label);
    r[4] = pooled(text);
    r[5] = (uint32_t)strlen(text);
    return (uint32_t)row_count++;
}

static void write_xml(const char *text)
{
    memcpy(xml + xml_used, text, strlen(text));
    xml_used += strlen(text);
}

static void leaf(uint32_t parent, const char *label, const char *text)
{
    char element[64];
    row(parent, label, text);
    snprintf(element, sizeof element, "<%s>%s</%s>", label, text, label);
    write_xml(element);
}

static void make_register(void)
{
    uint32_t firm = row(REGISTER_BOX_NO_PARENT, "firm", "");
    int brake = 0;
    write_xml("<firm>");
    for (int s = 0; s < SITES; s++) {
        uint32_t site = row(firm, "site", "");
        write_xml("<site>");
        for (int l = 0; l < LIFTS; l++) {
            uint32_t lift = row(site, "lift", "");
            write_xml("<lift>");
            for (int b = 0; b < BRAKES; b++) {
                char text[16];
                snprintf(text, sizeof text, "B%03d", brake++);
                leaf(lift, "brake", text);
            }
            if (row_count == ROWS - 1)
                leaf(lift, "mark", "done");
            write_xml("</lift>");
        }
        write_xml("</site>");
    }
    write_xml("</firm>");
}

/* ---- ours ---- */

static uint16_t work[REGISTER_BOX_MOST_WORK];
static uint8_t reply[REGISTER_BOX_MOST_REPLY], store[REGISTER_BOX_MOST_REPLY];
static struct question_list list;
static size_t reply_size;

static int read_ours(size_t q)
{
    struct question_answer a = question_read((const uint8_t *)questions[q].ours, strlen(questions[q].ours));
    list = a.list;
    return a.refusal == 0;
}

static int depot_ours(size_t q)
{
    struct depot_answer a =
        depot_reply((const uint8_t *)questions[q].ours, strlen(questions[q].ours), list, rows, sizeof rows / sizeof *rows, (const uint8_t *)pool,
                    pool_used, 0, 1, work, REGISTER_BOX_WORK(ROWS, list.count), reply, sizeof reply);
    reply_size = a.size;
    return a.refusal == 0;
}

static int desk_ours(size_t q)
{
    static const uint8_t layout[] = {REGISTER_BOX_TOP};
    struct desk_record desk = desk_fresh();
    (void)q;
    desk_open(&desk, layout, 1, list.count, 1);
    desk_accept(&desk, store, sizeof store, reply, reply_size);
    return desk_ask(&desk, store, sizeof store).said;
}

/* ---- the peer ---- */

static xmlDocPtr document;
static xmlXPathContextPtr context;
static xmlXPathCompExprPtr compiled;

static int compile_peers(size_t q)
{
    if (compiled != NULL)
        xmlXPathFreeCompExpr(compiled);
    compiled = xmlXPathCompile((const xmlChar *)questions[q].peers);
    return compiled != NULL;
}

static int evaluate_peers(size_t q)
{
    (void)q;
    context->node = xmlDocGetRootElement(document);
    return xmlXPathCompiledEvalToBoolean(compiled, context) == 1 ? DESK_YES : DESK_NO;
}

/* ---- measuring ---- */

static double now(void)
{
    struct timespec t;
    clock_gettime(CLOCK_MONOTONIC, &t);
    return (double)t.tv_sec * 1e6 + (double)t.tv_nsec / 1e3;
}

/* Microseconds a call, the best of a few runs of at least 20 milliseconds. */
static double measured(int (*call)(size_t), size_t q)
{
    double best = 1e12;
    for (int run = 0; run < RUNS; run++) {
        long calls = 0;
        double begin = now(), end;
        do {
            for (int i = 0; i < 16; i++)
                call(q);
            calls += 16;
            end = now();
        } while (end - begin < 20000);
        if ((end - begin) / (double)calls < best)
            best = (end - begin) / (double)calls;
    }
    return best;
}

int main(void)
{
    int wrong = 0;
    make_register();
    document = xmlReadMemory(xml, (int)xml_used, "register.xml", NULL, 0);
    context = document == NULL ? NULL : xmlXPathNewContext(document);
    if (row_count != ROWS || context == NULL) {
        fprintf(stderr, "speed: the register could not be made\n");
        return 2;
    }
    printf("%d rows in one box; microseconds a call\n", ROWS);
    printf("         ours                  libxml2\n");
    printf("answer   read   depot    desk  compile  evaluate  question\n");
    for (size_t q = 0; q < QUESTIONS; q++) {
        if (!read_ours(q) || !depot_ours(q) || !compile_peers(q)) {
            fprintf(stderr, "speed: refused: %s\n", questions[q].ours);
            return 2;
        }
        int said = desk_ours(q), agree = said == evaluate_peers(q);
        wrong += !agree;
        double reading = measured(read_ours, q), depot = measured(depot_ours, q), desk = measured(desk_ours, q);
        double compiling = measured(compile_peers, q), evaluating = measured(evaluate_peers, q);
        printf("%-6s %6.2f %7.1f %7.2f  %7.2f  %8.1f  %s\n", !agree ? "WRONG" : said == DESK_YES ? "yes" : "no", reading, depot, desk,
               compiling, evaluating, questions[q].ours);
    }
    xmlXPathFreeCompExpr(compiled);
    xmlXPathFreeContext(context);
    xmlFreeDoc(document);
    return wrong != 0;
}
