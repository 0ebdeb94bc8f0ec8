/* Calls the depot as a C host does, and compares answer, reply buffer and work memory, whole, with what 01 lays down. The calls and what
   01 says of each are worked by tools/worked-replies, which uses nothing of the crate. */

#include "register_box.h"

#include <stdio.h>

struct depot_case {
    const char *name;
    const uint8_t *text;
    size_t text_size;
    struct question_list list;
    const uint32_t *rows;
    size_t numbers;
    const uint8_t *pool;
    size_t pool_size;
    uint32_t fragment, number;
    size_t work_size, out_size;
    size_t refusal;
    const uint8_t *reply;
    size_t size;
};

#include "depot-cases.h"

enum { BYTE = 0xA5, NUMBER = 0xBEEF, MARGIN = 16, MOST_BYTES = REGISTER_BOX_MOST_REPLY + 64, MOST_NUMBERS = REGISTER_BOX_MOST_WORK + 64 };

static uint8_t out[MARGIN + MOST_BYTES + MARGIN];
static uint16_t work[MARGIN + MOST_NUMBERS + MARGIN];

/* Whether the buffer begins with the reply's `size` bytes and is as it was elsewhere, on both sides too. */
static int buffer_right(const uint8_t *reply, size_t size)
{
    for (size_t i = 0; i < sizeof out; i++) {
        uint8_t expected = i >= MARGIN && i - MARGIN < size ? reply[i - MARGIN] : BYTE;
        if (out[i] != expected)
            return 0;
    }
    return 1;
}

/* Whether the first `zeros` numbers of work memory are 0 and the others as they were, on both sides too. */
static int memory_right(size_t zeros)
{
    for (size_t i = 0; i < sizeof work / sizeof *work; i++) {
        uint16_t expected = i >= MARGIN && i - MARGIN < zeros ? 0 : NUMBER;
        if (work[i] != expected)
            return 0;
    }
    return 1;
}

static int right(const struct depot_case *c)
{
    for (size_t i = 0; i < sizeof out; i++)
        out[i] = BYTE;
    for (size_t i = 0; i < sizeof work / sizeof *work; i++)
        work[i] = NUMBER;
    struct depot_answer a = depot_reply(c->text, c->text_size, c->list, c->rows, c->numbers, c->pool, c->pool_size, c->fragment, c->number,
                                  work + MARGIN, c->work_size, out + MARGIN, c->out_size);
    size_t size = c->refusal == 0 ? c->size : 0;
    int untouched = c->refusal == 5 || c->refusal == 6 || c->refusal == 7;
    int ok = a.refusal == c->refusal && a.size == size && buffer_right(c->reply, size) && memory_right(untouched ? 0 : c->work_size);
    if (!ok)
        printf("%s: answer %zu with %zu bytes; 01 says %zu with %zu\n", c->name, a.refusal, a.size, c->refusal, size);
    return ok;
}

int main(void)
{
    size_t all = sizeof cases / sizeof *cases, wrong = 0;
    for (size_t i = 0; i < all; i++)
        wrong += !right(&cases[i]);
    printf("depot_reply: %lu calls, %lu wrong\n", all, wrong);
    return wrong != 0;
}
