/* register_box.h: written questions put to a register that is kept in parts, one in each depot's box.

   A round has four acts, each a call or two:

     the desk reads a question      question_read      text -> list of sub-questions
     each depot answers             depot_reply        list, its own fragment -> reply, some bytes
     the desk opens the question    desk_open          the layout of the fragments, a number above the last
     and takes what arrives         desk_accept        bytes -> taken, or refused and nothing changed
     and may be asked at any time   desk_ask           waiting until every fragment is heard, then yes or no

   question_listing shows a list to a person; reply_check says of any bytes whether they are a reply.

   Every call takes any values at all: what it cannot use it refuses with a number (enum register_box_refusal), and every lent buffer is
   then as the call's text below says. Of the C side it is assumed that a pointer points at as many elements as the length that follows it
   says (with length 0 it may be null), is aligned for its type, and that what a call may write overlaps nothing else that it is lent. No
   call keeps a pointer, allocates, or uses anything global, so calls on different buffers may run in different threads.

   The library is for Linux on x86-64 processors of level v2 or later (System V calls). Link libregister_box.a; it needs memcpy, memmove and
   memset of the C library. */
#ifndef REGISTER_BOX_H
#define REGISTER_BOX_H

#include <stddef.h>
#include <stdint.h>

#ifdef __cplusplus
extern "C" {
#endif

/* ---- Limits and sizes ---- */

#define REGISTER_BOX_MOST_TEXT 255       /* bytes of a written question; at least 1 */
#define REGISTER_BOX_MOST_NESTING 12     /* brackets and parentheses open at once */
#define REGISTER_BOX_MOST_ENTRIES 32     /* entries of a list; at least 1 */
#define REGISTER_BOX_MOST_WORD 64        /* bytes of a name, of a quoted word, of a label */
#define REGISTER_BOX_MOST_ROWS 512       /* rows of a fragment; at least 1 */
#define REGISTER_BOX_ROW_NUMBERS 6       /* numbers of a row */
#define REGISTER_BOX_MOST_ROW_TEXT 255   /* bytes of a row's text */
#define REGISTER_BOX_MOST_FRAGMENTS 32   /* fragments of a register, numbered 0 to 31 */
#define REGISTER_BOX_MOST_STEPS 4096     /* steps of a depot's formula */
#define REGISTER_BOX_MOST_REPLY 15499    /* bytes of a reply: a buffer of this size is never too short */
#define REGISTER_BOX_MOST_LISTING 2369   /* bytes of a listing: a buffer of this size is never too short */
#define REGISTER_BOX_NO_PARENT 4294967295u /* the parent number of a fragment's row 0 */
#define REGISTER_BOX_TOP 255             /* the layout byte of fragment 0 */

/* Numbers of 16 bits that a depot's work memory must have at least, for so many rows and entries; and for any. */
#define REGISTER_BOX_WORK(rows, entries) (4 * (size_t)(rows) * (size_t)(entries) + 12288)
#define REGISTER_BOX_MOST_WORK REGISTER_BOX_WORK(REGISTER_BOX_MOST_ROWS, REGISTER_BOX_MOST_ENTRIES)

/* Bytes of a reply with so many entries, stand-ins and steps. */
#define REGISTER_BOX_REPLY(entries, stand_ins, steps) \
    ((60 + 5 * (size_t)(stand_ins) + 30 * (size_t)(steps) + 28 * (size_t)(entries) + 7) / 8)

/* Bytes of stack to allow for below the caller: question_read goes deep with the text, whether it is a question or not; the others do not. */
#define REGISTER_BOX_STACK_READ 131072
#define REGISTER_BOX_STACK 65536

/* ---- Refusals ---- */

enum register_box_refusal {
    REGISTER_BOX_TAKEN = 0,            /* not refused */
    REGISTER_BOX_TEXT_LENGTH = 1,      /* the text has no byte, or over 255 */
    REGISTER_BOX_NOT_A_QUESTION = 2,   /* the text is not of the grammar */
    REGISTER_BOX_TOO_NESTED = 3,       /* nesting over 12 */
    REGISTER_BOX_TOO_MANY_ENTRIES = 4, /* over 32 entries */
    REGISTER_BOX_BAD_LIST = 5,         /* the list breaks a rule, or the question number is 0 */
    REGISTER_BOX_BAD_FRAGMENT = 6,     /* the fragment breaks a rule, or its number is over 31 */
    REGISTER_BOX_SHORT_WORK = 7,       /* work memory too short */
    REGISTER_BOX_TOO_MANY_STEPS = 8,   /* over 4,096 steps */
    REGISTER_BOX_SHORT_REPLY = 9,      /* reply buffer too short */
    REGISTER_BOX_BAD_LAYOUT = 10,      /* the layout breaks a rule, or entries not 1 to 32 */
    REGISTER_BOX_OLD_NUMBER = 11,      /* the question number is not above the last opened */
    REGISTER_BOX_NONE_OPEN = 12,       /* no question is open */
    REGISTER_BOX_NOT_A_REPLY = 13,     /* the bytes are no well-formed reply */
    REGISTER_BOX_OTHER_QUESTION = 14,  /* a reply to another question's number */
    REGISTER_BOX_MISFIT = 15,          /* fragment not in the layout, other entry count, or stand-ins not exactly its children */
    REGISTER_BOX_ALREADY_HEARD = 16,   /* the fragment is already heard */
    REGISTER_BOX_STORE_FULL = 17,      /* used room plus the reply's length exceeds the store */
    REGISTER_BOX_NOT_WHOLE = 20        /* record and store are not whole: not as these calls left them */
};

/* ---- Questions ---- */

/* A list of sub-questions. Entry i has kind kinds[i]: 0 self, 1 label, 2 text, 3 child, 4 at, 5 below, 6 or, 7 and, 8 not. A label or text
   entry's word is the right[i] bytes of the question text from left[i] on; the others' operands are numbers of earlier entries (child,
   below and not have left[i] alone, self none). The last entry is the question. From the reader whatever a list does not use is 0. */
struct question_list {
    size_t count;
    uint8_t kinds[REGISTER_BOX_MOST_ENTRIES];
    uint8_t left[REGISTER_BOX_MOST_ENTRIES];
    uint8_t right[REGISTER_BOX_MOST_ENTRIES];
};

struct question_answer {
    size_t refusal; /* 0, or a number of refusal, and then the list is empty: all zeros */
    struct question_list list;
};

/* Reads a written question.

   From loosest to tightest: alternatives with |, conjunctions with &, units; both signs group to the left. A unit is ! and a unit, or
   (question), or label()="word", or text()="word", or a path. A path may begin with //; its steps are parted by / or //; it may end in
   /text()="word". A step is . (stays), * (any child) or a name (a child with that label), then any number of [question]. // goes to the row
   itself or any row below. No blanks outside quotes. A name is a letter, then letters, digits, - and _. A word has bytes from 0x20 to 0x7E
   and no quote.

   Refuses, in this order: 1 no byte or over 255; 2 not of the grammar; 3 nesting over 12; 4 over 32 entries. */
struct question_answer question_read(const uint8_t *text, size_t text_length);

/* Writes a list for a person: a line with the count, then a line for each entry. Gives the listing's length, whether or not it fits, and 0 where
   the list breaks its rules. Where it fits, the buffer holds the whole listing from its beginning on and is unchanged past it; otherwise the
   buffer is unchanged. So a host may ask for the length first, with a buffer of length 0, and then lend one of that length. */
size_t question_listing(struct question_list list, const uint8_t *text, size_t text_length, uint8_t *out, size_t out_length);

/* ---- Depots ---- */

struct depot_answer {
    size_t refusal; /* 0 or a number of refusal */
    size_t size;    /* the reply's bytes; 0 where refused */
};

/* A depot's reply to a question about its fragment.

   text, list   the question as it was read; any bytes and any list that keeps the rules will do
   rows         1 to 512 rows, six numbers each: parent, kind, label start, label length, text start, text length.
                rows_length counts numbers, not rows: 6 for each row.
                Row 0 is real and its parent is 4294967295; any other row's parent is a smaller row number, of a real row.
                Kind 0 is real: a label of 1 to 64 bytes and a text of 0 to 255, both wholly inside the pool.
                Kind 1 is a stand-in: the third number is the fragment that it stands for (above this one, at most 31, no two the same), the
                last three are 0.
   pool         the bytes that labels and texts are places in
   fragment     this fragment's number, 0 to 31
   number       the question's number, not 0
   work         at least REGISTER_BOX_WORK(rows, entries) numbers, of any contents
   out          REGISTER_BOX_MOST_REPLY bytes are always enough

   Refuses, in this order: 5 the list breaks a rule, or number 0; 6 the fragment breaks a rule, or its number is over 31; 7 work memory too
   short; 8 over 4,096 steps; 9 reply buffer too short.

   Afterwards out holds the reply from its beginning on and is unchanged past it; refused, it is unchanged. Work memory is all zero, the whole
   of it; after 5, 6 and 7 it is unchanged. */
struct depot_answer depot_reply(const uint8_t *text, size_t text_length, struct question_list list, const uint32_t *rows, size_t rows_length,
                                const uint8_t *pool, size_t pool_length, uint32_t fragment, uint32_t number, uint16_t *work,
                                size_t work_length, uint8_t *out, size_t out_length);

/* ---- Replies ---- */

/* Says of any bytes whether they are a reply: 0, or 13 where they are not well formed. */
uint8_t reply_check(const uint8_t *bytes, size_t bytes_length);

/* ---- The desk ---- */

/* The question that is open. A host has no need to look inside: desk_fresh, desk_open and desk_accept keep it. */
struct desk_question {
    uint64_t number; /* 0: none is open */
    size_t entries;
    size_t parts;                                /* fragments in the layout */
    uint8_t layout[REGISTER_BOX_MOST_FRAGMENTS]; /* each one's parent; 255 for fragment 0 */
    uint8_t heard[REGISTER_BOX_MOST_FRAGMENTS];  /* 0: not heard */
    size_t place[REGISTER_BOX_MOST_FRAGMENTS];   /* where its reply starts in the store */
    size_t size[REGISTER_BOX_MOST_FRAGMENTS];    /* how many bytes it has */
};

/* The desk's record. It may be kept anywhere between calls, beside its store; whoever changes either gets 20 where they no longer fit. It has
   no byte that no field covers, so that records may be compared with memcmp. */
struct desk_record {
    uint64_t last; /* the last number opened */
    size_t used;   /* bytes of the store in use */
    struct desk_question question;
};

/* A record with no question open and last number 0. */
struct desk_record desk_fresh(void);

/* Opens a question: its layout (a byte for each fragment, the parent's number; fragment 0 has 255, fragment k a parent below k), how many
   entries its list has, and its number. All earlier replies are forgotten and their room is free again. Of the old record only the last
   number counts, and the rest may hold anything. But all of it is read, so it must be memory that was written: by desk_fresh, by these
   calls, or by memset and then the last number.

   Refuses, in this order: 10 the layout breaks a rule or has not 1 to 32 fragments, or entries not 1 to 32; 11 number not above the last
   opened. Refused, the record is unchanged. After number 4294967295, or a last number above it, every opening that escapes 10 gets 11. */
uint8_t desk_open(struct desk_record *desk, const uint8_t *layout, size_t layout_length, size_t entries, uint32_t number);

/* Takes a reply into the store. The store must be the same from opening on, with room for one reply of each fragment.

   Refuses, in this order: 20 record and store not whole; 12 no question open; 13 not well formed; 14 another question's number; 15 fragment
   not in the layout, other entry count, or stand-ins not exactly its children; 16 fragment already heard; 17 used room plus length exceeds
   the store. Refused, record and store are unchanged. Taken, the reply's bytes stand in the store from the used end on, and no other byte of
   it is written. */
uint8_t desk_accept(struct desk_record *desk, uint8_t *store, size_t store_length, const uint8_t *reply, size_t reply_length);

enum desk_says { DESK_WAITING = 0, DESK_NO = 1, DESK_YES = 2 };

struct desk_asked {
    uint8_t refusal; /* 0 or a number of refusal */
    uint8_t said;    /* enum desk_says; 0 where refused */
};

/* Asks for the answer: waiting until every fragment is heard, then no or yes. Nothing is written.
   Refuses, in this order: 20 record and store not whole; 12 no question open. */
struct desk_asked desk_ask(const struct desk_record *desk, const uint8_t *store, size_t store_length);

/* A compiler that lays these structs out otherwise than the library cannot use it. */
#if defined(__STDC_VERSION__) && __STDC_VERSION__ >= 201112L
_Static_assert(sizeof(struct question_list) == 104 && sizeof(struct question_answer) == 112, "question_list, question_answer");
_Static_assert(sizeof(struct depot_answer) == 16, "depot_answer");
_Static_assert(sizeof(struct desk_question) == 600 && sizeof(struct desk_record) == 616, "desk_question, desk_record");
_Static_assert(sizeof(struct desk_asked) == 2, "desk_asked");
#endif

#ifdef __cplusplus
}
#endif

#endif
