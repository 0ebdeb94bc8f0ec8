/* question         Reads the deepest questions that 255 bytes can write, under the stack that the header names; lists 01's example into
                    buffers that are just long enough and one byte short, and the longest list there is.
   question stack   Measures how much stack any text makes question_read use, and compares it with the header. It needs more itself. */
#include "register_box.h"

#include <stdio.h>
#include <string.h>

static uint8_t text[REGISTER_BOX_MOST_TEXT];
static size_t length;
static int wrong, asked;

static void expect(const char *what, size_t answer, size_t due)
{
    asked++;
    if (answer != due) {
        wrong++;
        printf("WRONG %s: %zu, and not %zu\n", what, answer, due);
    }
}

/* Writes `unit` so many times behind what is written. */
static void write_units(const char *unit, size_t times)
{
    for (size_t i = 0; i < times; i++) {
        memcpy(text + length, unit, strlen(unit));
        length += strlen(unit);
    }
}

/* `opening` times, a `.`, `closing` times: refused with `refusal`, or read into one entry, and refused with 2 where the last byte is left
   out. */
static void deep(const char *opening, const char *closing, size_t times, unsigned refusal)
{
    length = 0;
    write_units(opening, times);
    write_units(".", 1);
    write_units(closing, times);
    struct question_answer whole = question_read(text, length), cut = question_read(text, length - 1);
    expect(opening, whole.refusal, refusal);
    expect(opening, whole.list.count, refusal == 0 ? 1 : 0);
    expect(opening, cut.refusal, 2);
}

static void listing(void)
{
    static const char question[] = "brake/text()=\"B17\"";
    static const char lines[] = "entries 4\n0 label brake\n1 text B17\n2 at 0 1\n3 child 2\n";
    enum { SIZE = sizeof lines - 1 };
    uint8_t out[SIZE + 1];
    struct question_list list = question_read((const uint8_t *)question, sizeof question - 1).list;
    memset(out, 0xa5, sizeof out);
    expect("no buffer", question_listing(list, (const uint8_t *)question, sizeof question - 1, NULL, 0), SIZE);
    expect("one byte short", question_listing(list, (const uint8_t *)question, sizeof question - 1, out, SIZE - 1), SIZE);
    for (size_t i = 0; i < sizeof out; i++)
        expect("nothing written", out[i], 0xa5);
    expect("exactly full", question_listing(list, (const uint8_t *)question, sizeof question - 1, out, SIZE), SIZE);
    expect("01's example", (size_t)memcmp(out, lines, SIZE), 0);
    expect("past the buffer", out[SIZE], 0xa5);
}

/* 32 labels of 64 bytes each. */
static void longest_listing(void)
{
    static uint8_t out[REGISTER_BOX_MOST_LISTING];
    struct question_list list;
    memset(&list, 0, sizeof list);
    list.count = REGISTER_BOX_MOST_ENTRIES;
    memset(list.kinds, 1, sizeof list.kinds);
    memset(list.right, REGISTER_BOX_MOST_WORD, sizeof list.right);
    memset(text, 'x', sizeof text);
    expect("the longest listing", question_listing(list, text, sizeof text, out, sizeof out), sizeof out);
    expect("its last byte", out[sizeof out - 1], '\n');
    list.right[0]++;
    expect("a word of 65 bytes", question_listing(list, text, sizeof text, out, sizeof out), 0);
}

/* ---- how deep reading goes ---- */

/* The stack below is painted once, and after each text one sees how deep the paint is gone: looking a window below the deepest place so far,
   which is wider than any frame of the reader, and at the end everywhere. The header must allow a margin beyond that. */
enum { PAINTED = 2097152 / sizeof(uint32_t), WINDOW = 8192 / sizeof(uint32_t), MARGIN = 65536 };
static const uint32_t paint = 0xa5c3963c;
static const volatile uint32_t *bottom, *deepest;
static uint8_t worst[REGISTER_BOX_MOST_TEXT];

__attribute__((noinline)) static void paint_below(void)
{
    volatile uint32_t area[PAINTED];
    for (size_t i = 0; i < PAINTED; i++)
        area[i] = paint;
    bottom = area;
    deepest = area + PAINTED;
}

/* The lowest place from `from` on where the paint is gone. */
static const volatile uint32_t *gone(const volatile uint32_t *from)
{
    while (from < deepest && *from == paint)
        from++;
    return from;
}

/* The text is `front`, then `word` over and over, then `ending`. */
static void write_repeated(const char *front, const char *word, size_t word_length, const char *ending)
{
    length = 0;
    write_units(front, 1);
    for (size_t i = 0; length < sizeof text - strlen(ending); i++)
        text[length++] = (uint8_t)word[i % word_length];
    write_units(ending, 1);
}

/* The reader's functions call each other in circles. A circle that has no function twice takes at most four bytes, such as `|&.[`, so that the
   deepest text repeats a word of one to four bytes, but for its first and last few. Texts that are no question go deepest, since nothing has
   to be closed. */
__attribute__((noinline)) static void measure(void)
{
    static const char signs[] = ".*a[(!/|&])";
    static const char *const fronts[] = {"", "."}, *const endings[] = {"", ".", "a", "\"", "text()=\""};
    enum { SIGNS = sizeof signs - 1 };
    size_t count = 0, words = 1;
    paint_below();
    for (size_t word_length = 1; word_length <= 4; word_length++) {
        words *= SIGNS;
        for (size_t w = 0; w < words; w++) {
            char word[4];
            for (size_t i = 0, rest = w; i < word_length; i++, rest /= SIGNS)
                word[i] = signs[rest % SIGNS];
            for (size_t f = 0; f < sizeof fronts / sizeof *fronts; f++)
                for (size_t e = 0; e < sizeof endings / sizeof *endings; e++) {
                    write_repeated(fronts[f], word, word_length, endings[e]);
                    question_read(text, length);
                    count++;
                    if (gone(deepest - WINDOW) < deepest) {
                        deepest = gone(bottom);
                        memcpy(worst, text, sizeof worst);
                    }
                }
        }
    }
    /* our own frame is counted too */
    size_t need = (size_t)((const volatile char *)__builtin_frame_address(0) - (const volatile char *)gone(bottom));
    printf("question: %.16s .. %.9s goes deepest of %zu texts of %zu bytes: %zu bytes of stack, and the header allows %d\n", (const char *)worst,
           (const char *)worst + sizeof worst - 9, count, sizeof worst, need, REGISTER_BOX_STACK_READ);
    asked++;
    if (need + MARGIN > REGISTER_BOX_STACK_READ) {
        wrong++;
        printf("WRONG: the header has to allow %d bytes more than the text needs\n", MARGIN);
    }
}

static void deepest_texts(void)
{
    deep("(", ")", 127, 3);
    deep("!(", ")", 84, 3);
    deep(".[", "]", 84, 3);
    deep("*[", "]", 84, 3);
    deep("//*[", "]", 50, 3);
    deep("!", "", 254, 4);
    deep("./", "", 127, 0);
    deep(".|", "", 127, 4);
    deep(".&", "", 127, 4);
    deep("*/", "", 127, 4);
    deep(".//", "", 84, 4);
    deep("(", "", 254, 2);
    deep(".[", "", 127, 2);
    deep("*[", "", 127, 2);
}

int main(int argc, char **argv)
{
    if (argc > 1 && strcmp(argv[1], "stack") == 0) {
        measure();
    } else {
        deepest_texts();
        listing();
        longest_listing();
    }
    printf("question: %d answers, %d wrong\n", asked, wrong);
    return wrong != 0;
}
