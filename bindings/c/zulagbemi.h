/* Zulagbemi: a proved planner for task graphs on up to 16 processors.
 *
 * A graph is a row of n times (microseconds; subtasks are numbered 1..n in row order) and a row of arrows: `to` starts
 * when `from` has ended. What the planner promises stands in docs/PLANNER.md, whose sections are cited here.
 *
 * Any input. Every call takes any numbers and any text, ends, and does nothing undefined, as long as each pointer is
 * valid for as many elements as the length beside it says, and a row that is written overlaps nothing else of the call.
 * Where the length is 0 the pointer is not used and may be null.
 *
 * Replies. Every reply begins with number, place and second. A call that succeeds has 0 (ZUL_OK) in all three. Otherwise
 * number says why the input was refused, place where it is wrong (a subtask's number, an arrow's position from 1 on or an
 * instant in microseconds, whichever the table "Numbers of refusal" gives for the number; 0 where it gives none), and
 * second the higher subtask of a pair (ZUL_REFUSED_OVERLAP; else 0). With a refusal every field after them is 0.
 *
 * Threads. No call keeps anything between calls, so any number of threads may call at once on rows that none of them
 * writes meanwhile.
 *
 * Stack. Each call needs less than 16 KiB of stack; none allocates memory.
 *
 * The archive is for x86-64 and position-independent, and needs no library but for memcpy and its like. */
#ifndef ZULAGBEMI_H
#define ZULAGBEMI_H

#include <stddef.h>
#include <stdint.h>

#ifdef __cplusplus
extern "C" {
#endif

#define ZUL_VERSION "0.5.0"
#define ZUL_VERSION_MAJOR 0
#define ZUL_VERSION_MINOR 5
#define ZUL_VERSION_PATCH 0

/* The limits ("Numbers"). */
#define ZUL_MAX_SUBTASKS 256
#define ZUL_MAX_TIME 65535       /* microseconds; a time is at least 1 */
#define ZUL_MAX_ARROWS 2048
#define ZUL_MAX_PROCESSORS 16
#define ZUL_MAX_DEADLINE 1000000 /* microseconds; a deadline is at least 1 */
#define ZUL_MAX_START 16776960   /* microseconds; also the largest total work */
#define ZUL_MAX_TEXT 60000       /* bytes of an STG text */
#define ZUL_MAX_WRITTEN 12422    /* bytes of an STG text that zul_write_stg writes */
#define ZUL_MAX_NEST 256         /* entries of a nest */
#define ZUL_MAX_MEMBERS 16       /* of a sequence or a group; each has at least 1 */
#define ZUL_MAX_OPENERS 8        /* sequences and groups inside one another */

/* The numbers of refusal ("Numbers of refusal": who asks which, in which order, and what its place is). More may be added.
 * begin: bindings/refusals.sh, from refusals.txt */
typedef enum {
    ZUL_OK                        =  0, /* accepted */
    ZUL_REFUSED_SUBTASK_COUNT     =  1, /* the count of subtasks is not 1 to 256 */
    ZUL_REFUSED_TIME_ZERO         =  2, /* some time is 0 */
    ZUL_REFUSED_ARROW_COUNT       =  3, /* there are more than 2,048 arrows */
    ZUL_REFUSED_ARROW_OUTSIDE     =  4, /* an arrow names a subtask outside 1 to n */
    ZUL_REFUSED_ARROW_TO_ITSELF   =  5, /* an arrow leads from a subtask to itself */
    ZUL_REFUSED_ARROW_TWICE       =  6, /* the same arrow stands twice */
    ZUL_REFUSED_CYCLE             =  7, /* the arrows close a cycle */
    ZUL_REFUSED_PROCESSOR_COUNT   =  8, /* M, the count of processors, is not 1 to 16 */
    ZUL_REFUSED_DEADLINE          =  9, /* D, the deadline, is not 1 to 1,000,000 */
    ZUL_REFUSED_ORDER             = 10, /* the order is not exactly n entries that hold each of 1 to n once */
    ZUL_REFUSED_ROOM              = 11, /* the lent room is too short */
    ZUL_REFUSED_PLAN_LENGTH       = 12, /* the plan has not exactly n entries */
    ZUL_REFUSED_PROCESSOR_OUTSIDE = 13, /* the plan names a processor outside 1 to M */
    ZUL_REFUSED_START_LARGE       = 14, /* a start is above 16,776,960 */
    ZUL_REFUSED_START_EARLY       = 15, /* a subtask starts before a predecessor ends */
    ZUL_REFUSED_OVERLAP           = 16, /* two subtasks on one processor share an instant */
    ZUL_REFUSED_IDLE              = 17, /* at some whole t a subtask is ready and one of the processors 1 to M is free */
    ZUL_REFUSED_TEXT_LENGTH       = 20, /* the text is above 60,000 bytes */
    ZUL_REFUSED_FIRST_LINE        = 21, /* the first line is not one number 1 to 256 */
    ZUL_REFUSED_TASK_LINE         = 22, /* a task line is missing or misshapen, or something stands after the last one */
    ZUL_REFUSED_DUMMY_LINE        = 23, /* line 0 or line n+1 is not a proper dummy */
    ZUL_REFUSED_TIME_LARGE        = 24, /* a time is above 65,535 */
    ZUL_REFUSED_JOINED_SUBTASKS   = 30, /* the joined graph has more than 256 subtasks */
    ZUL_REFUSED_JOINED_ARROWS     = 31, /* the joined graph has more than 2,048 arrows */
    ZUL_REFUSED_NEST              = 32  /* the row is not the writing of a nest */
} zul_refusal;

/* What a number means, as one line of text. It stands here and not in the archive, which holds proved code alone. */
static inline const char *zul_meaning(uint32_t number) {
    switch (number) {
        case ZUL_OK: return "accepted";
        case ZUL_REFUSED_SUBTASK_COUNT: return "the count of subtasks is not 1 to 256";
        case ZUL_REFUSED_TIME_ZERO: return "some time is 0";
        case ZUL_REFUSED_ARROW_COUNT: return "there are more than 2,048 arrows";
        case ZUL_REFUSED_ARROW_OUTSIDE: return "an arrow names a subtask outside 1 to n";
        case ZUL_REFUSED_ARROW_TO_ITSELF: return "an arrow leads from a subtask to itself";
        case ZUL_REFUSED_ARROW_TWICE: return "the same arrow stands twice";
        case ZUL_REFUSED_CYCLE: return "the arrows close a cycle";
        case ZUL_REFUSED_PROCESSOR_COUNT: return "M, the count of processors, is not 1 to 16";
        case ZUL_REFUSED_DEADLINE: return "D, the deadline, is not 1 to 1,000,000";
        case ZUL_REFUSED_ORDER: return "the order is not exactly n entries that hold each of 1 to n once";
        case ZUL_REFUSED_ROOM: return "the lent room is too short";
        case ZUL_REFUSED_PLAN_LENGTH: return "the plan has not exactly n entries";
        case ZUL_REFUSED_PROCESSOR_OUTSIDE: return "the plan names a processor outside 1 to M";
        case ZUL_REFUSED_START_LARGE: return "a start is above 16,776,960";
        case ZUL_REFUSED_START_EARLY: return "a subtask starts before a predecessor ends";
        case ZUL_REFUSED_OVERLAP: return "two subtasks on one processor share an instant";
        case ZUL_REFUSED_IDLE: return "at some whole t a subtask is ready and one of the processors 1 to M is free";
        case ZUL_REFUSED_TEXT_LENGTH: return "the text is above 60,000 bytes";
        case ZUL_REFUSED_FIRST_LINE: return "the first line is not one number 1 to 256";
        case ZUL_REFUSED_TASK_LINE: return "a task line is missing or misshapen, or something stands after the last one";
        case ZUL_REFUSED_DUMMY_LINE: return "line 0 or line n+1 is not a proper dummy";
        case ZUL_REFUSED_TIME_LARGE: return "a time is above 65,535";
        case ZUL_REFUSED_JOINED_SUBTASKS: return "the joined graph has more than 256 subtasks";
        case ZUL_REFUSED_JOINED_ARROWS: return "the joined graph has more than 2,048 arrows";
        case ZUL_REFUSED_NEST: return "the row is not the writing of a nest";
        default: return "a number that is not in the table";
    }
}

/* The same with a # where its place stands, and where the second number does. */
static inline const char *zul_pattern(uint32_t number) {
    switch (number) {
        case ZUL_REFUSED_TIME_ZERO: return "the time of subtask # is 0";
        case ZUL_REFUSED_ARROW_OUTSIDE: return "arrow # names a subtask outside 1 to n";
        case ZUL_REFUSED_ARROW_TO_ITSELF: return "arrow # leads from a subtask to itself";
        case ZUL_REFUSED_ARROW_TWICE: return "arrow # stands twice";
        case ZUL_REFUSED_CYCLE: return "the arrows close a cycle through subtask #";
        case ZUL_REFUSED_PROCESSOR_OUTSIDE: return "the plan puts subtask # on a processor outside 1 to M";
        case ZUL_REFUSED_START_LARGE: return "subtask # starts after 16,776,960 \u00b5s";
        case ZUL_REFUSED_START_EARLY: return "subtask # starts before a predecessor ends";
        case ZUL_REFUSED_OVERLAP: return "subtasks # and # share an instant on one processor";
        case ZUL_REFUSED_IDLE: return "at # \u00b5s a subtask is ready and a processor is free";
        default: return zul_meaning(number);
    }
}
/* end: bindings/refusals.sh */

/* What a refusal says, with its place: "arrow 17 stands twice". The text is put into a buffer of this size and is UTF-8. It
 * always ends with a 0 byte, for which it is cut where the size is too small (128 is always enough); nothing is written
 * past the size, and nothing at all where it is 0. The reply is the length of the whole text without its 0 byte. */
static inline size_t zul_say(uint32_t number, uint32_t place, uint32_t second, char *text, size_t size) {
    size_t len = 0;
    for (const char *next = zul_pattern(number); *next != 0; next++) {
        char said[10]; /* a byte of the pattern, or the digits of a number, at the end */
        size_t at = sizeof said - 1;
        said[at] = *next;
        if (*next == '#') {
            said[at] = (char)('0' + place % 10);
            while ((place /= 10) != 0) said[--at] = (char)('0' + place % 10);
            place = second;
        }
        for (; at < sizeof said; at++, len++)
            if (len + 1 < size) text[len] = said[at];
    }
    if (size != 0) text[len < size ? len : size - 1] = 0;
    return len;
}

/* `to` starts when `from` has ended. */
typedef struct { uint16_t from, to; } zul_arrow;

/* What a plan holds for one subtask: its processor, from 1 on, and its start. It ends at start + time. */
typedef struct { uint8_t processor; uint32_t start; } zul_entry;

/* An entry of a nest ("Nests"): a graph with its C and P; or an opener, for which c is its count of members and p is 0. */
typedef enum { ZUL_GRAPH = 0, ZUL_SEQUENCE = 1, ZUL_GROUP = 2 } zul_nest_kind;
typedef struct { uint32_t kind, c, p; } zul_nest_entry;

/* C or P. */
typedef struct { uint32_t number, place, second, value; } zul_amount;

/* C and P. */
typedef struct { uint32_t number, place, second, c, p; } zul_measure;

/* C (total work), P (longest path), S = C + (m - 1) * P, the load C / (m * d) rounded once. No accepted plan ends after
 * S / m rounded down. Where fits is 1, d is not below that, and the margin is the spare d - S / m; where it is 0 the
 * margin is the shortfall S / m - d; in whole microseconds. */
typedef struct { uint32_t number, place, second, c, p, s; float load; uint32_t fits, margin; } zul_answer;

/* Where a plan ends. */
typedef struct { uint32_t number, place, second, end; } zul_plan_end;

/* How many subtasks and arrows a text or a joined graph has. */
typedef struct { uint32_t number, place, second, subtasks, arrows; } zul_counts;

/* How many bytes were written. */
typedef struct { uint32_t number, place, second, bytes; } zul_written;

/* The layouts that the archive was compiled for. */
#if defined(__cplusplus) && __cplusplus >= 201103L
#define ZUL_LAYOUT(holds) static_assert(holds, "the planner was compiled for another layout")
#elif defined(__STDC_VERSION__) && __STDC_VERSION__ >= 201112L
#define ZUL_LAYOUT(holds) _Static_assert(holds, "the planner was compiled for another layout")
#endif
#ifdef ZUL_LAYOUT
ZUL_LAYOUT(sizeof(size_t) == 8);
ZUL_LAYOUT(sizeof(zul_arrow) == 4 && offsetof(zul_arrow, to) == 2);
ZUL_LAYOUT(sizeof(zul_entry) == 8 && offsetof(zul_entry, start) == 4);
ZUL_LAYOUT(sizeof(zul_nest_entry) == 12 && offsetof(zul_nest_entry, c) == 4 && offsetof(zul_nest_entry, p) == 8);
ZUL_LAYOUT(sizeof(zul_amount) == 16 && offsetof(zul_amount, value) == 12);
ZUL_LAYOUT(sizeof(zul_measure) == 20 && offsetof(zul_measure, p) == 16);
ZUL_LAYOUT(sizeof(zul_answer) == 36 && offsetof(zul_answer, load) == 24 && offsetof(zul_answer, margin) == 32);
ZUL_LAYOUT(sizeof(zul_plan_end) == 16 && offsetof(zul_plan_end, end) == 12);
ZUL_LAYOUT(sizeof(zul_counts) == 20 && offsetof(zul_counts, arrows) == 16);
ZUL_LAYOUT(sizeof(zul_written) == 16 && offsetof(zul_written, bytes) == 12);
#undef ZUL_LAYOUT
#endif

/* C, the sum of all times. Asks 1 to 7. */
zul_amount zul_total_work(const uint16_t *times, size_t n, const zul_arrow *arrows, size_t arrows_len);

/* P, the largest sum of times along any path of arrows. Asks 1 to 7. */
zul_amount zul_longest_path(const uint16_t *times, size_t n, const zul_arrow *arrows, size_t arrows_len);

/* The verdict for m processors and deadline d (microseconds; "Terms"). Asks 1 to 9. "Fits" holds for every plan that
 * zul_check_plan accepts, and goes on holding when times get shorter, arrows are dropped or processors are added. */
zul_answer zul_judge(const uint16_t *times, size_t n, const zul_arrow *arrows, size_t arrows_len, uint32_t m,
                     uint32_t d);

/* The list rule's plan for an order of all subtasks ("List rule"). Asks 1 to 8, 10, 11. Writes entries 1..n of the row
 * and leaves those past n as they were; with a refusal the whole row stays as it was. */
zul_plan_end zul_list_plan(const uint16_t *times, size_t n, const zul_arrow *arrows, size_t arrows_len, uint32_t m,
                           const uint16_t *order, size_t order_len, zul_entry *plan, size_t plan_len);

/* Checks a plan from anyone ("Acceptance"). Asks 1 to 8 and 12 to 17. */
zul_plan_end zul_check_plan(const uint16_t *times, size_t n, const zul_arrow *arrows, size_t arrows_len, uint32_t m,
                            const zul_entry *plan, size_t plan_len);

/* Reads a text in the layout of the Standard Task Graph Set ("STG text"). Asks 11 (fewer than ZUL_MAX_SUBTASKS times
 * or ZUL_MAX_ARROWS arrows of room), then 20, then 21 to 24 line by line, then 2 to 7. Both rows are written whole:
 * places past the last time and the last arrow are 0, and with a refusal all are. */
zul_counts zul_read_stg(const uint8_t *text, size_t len, uint16_t *times, size_t times_len, zul_arrow *arrows,
                        size_t arrows_len);

/* Writes the graph as such a text, in one form ("Writing"), to the front of the room; zul_read_stg reads it back, with
 * the arrows by `to` and then by `from`. Asks 1 to 7, then 11 where the room is shorter than the text, which is never
 * longer than ZUL_MAX_WRITTEN. No 0 byte ends it: the reply says how many bytes it has. Bytes past it stay as they were;
 * with a refusal all do. */
zul_written zul_write_stg(const uint16_t *times, size_t n, const zul_arrow *arrows, size_t arrows_len, uint8_t *text,
                          size_t text_len);

/* Joins two graphs end to end ("Joins"): the second's numbers follow the first's, and each subtask of the first without
 * successors gets an arrow to each of the second without predecessors. The joined graph is written to the front of the two
 * rows, its arrows by `from` and then by `to`; the reply says how many times and arrows it has. What lies past them stays
 * as it was; with a refusal both rows do. Asks 1 to 7 of the first graph, 1 to 7 of the second, 30, 31, then 11 where a
 * row is too short. */
zul_counts zul_end_to_end(const uint16_t *first_times, size_t first_n, const zul_arrow *first_arrows,
                          size_t first_arrows_len, const uint16_t *second_times, size_t second_n,
                          const zul_arrow *second_arrows, size_t second_arrows_len, uint16_t *times, size_t times_len,
                          zul_arrow *arrows, size_t arrows_len);

/* Joins two graphs side by side: the same without the arrows from one to the other. */
zul_counts zul_side_by_side(const uint16_t *first_times, size_t first_n, const zul_arrow *first_arrows,
                            size_t first_arrows_len, const uint16_t *second_times, size_t second_n,
                            const zul_arrow *second_arrows, size_t second_arrows_len, uint16_t *times, size_t times_len,
                            zul_arrow *arrows, size_t arrows_len);

/* C and P of a nest ("Nests"): sequences, whose members are joined end to end, and groups, whose members are joined side
 * by side, written in one row with each opener before its members. Asks 32 alone. */
zul_measure zul_nest(const zul_nest_entry *row, size_t len);

#ifdef __cplusplus
}
#endif

#endif
