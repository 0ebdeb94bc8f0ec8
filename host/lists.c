/* lists: reads questions from standard input, one a line, and prints each after a `?`, with its list or its refusal. In a line \xNN is the
   byte of that number and a lone \ the empty question; lines that begin with # and empty ones are left out. */
#include "register_box.h"

#include <stdio.h>

enum { MOST_LINE = 4096 };
static uint8_t text[MOST_LINE];
static size_t length;

static int digit(int c)
{
    return c <= '9' ? c - '0' : c - 'a' + 10;
}

/* The next line's question; 0 at the end of the input. */
static int next(void)
{
    int c = getchar();
    while (c == '#' || c == '\n') {
        while (c != '\n' && c != EOF)
            c = getchar();
        if (c == '\n')
            c = getchar();
    }
    length = 0;
    while (c != '\n' && c != EOF) {
        if (c == '\\') {
            c = getchar();
            if (c == '\n' || c == EOF)
                return 1;
            c = digit(getchar());
            c = 16 * c + digit(getchar());
        }
        if (length < MOST_LINE)
            text[length++] = (uint8_t)c;
        c = getchar();
    }
    return length > 0 || c != EOF;
}

static void print_bytes(const uint8_t *bytes, size_t size)
{
    for (size_t i = 0; i < size; i++)
        putchar(bytes[i]);
}

int main(void)
{
    static uint8_t page[REGISTER_BOX_MOST_LISTING];
    while (next()) {
        printf("? ");
        print_bytes(text, length);
        printf("\n");
        struct question_answer answer = question_read(text, length);
        if (answer.refusal != REGISTER_BOX_TAKEN)
            printf("refused %u\n", (unsigned)answer.refusal);
        else
            print_bytes(page, question_listing(answer.list, text, length, page, sizeof page));
    }
    return 0;
}
