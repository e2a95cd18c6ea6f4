/* What the header promises at the edges: a null pointer beside the length 0 is fine in every call, a refusal has its place,
 * and every number has a text. Fails where a reply is wrong. Prints the texts of 0 to 99, then what zul_say makes of each
 * number, place and second number among its words, for the tests to compare with the Rust crate's. */
#include <stdio.h>
#include <stdlib.h>
#include <string.h>
#include <zulagbemi.h>

static int wrong = 0;

static void expect(const char *what, uint32_t got, uint32_t expected) {
    if (got == expected) return;
    fprintf(stderr, "%s: %u, not %u\n", what, (unsigned)got, (unsigned)expected);
    wrong = 1;
}

/* The three numbers that every reply begins with. It asks for the reply three times. */
#define EXPECT_REPLY(what, reply, why, where, other) \
    (expect(what, (reply).number, why), expect(what, (reply).place, where), expect(what, (reply).second, other))

static uint16_t times[ZUL_MAX_SUBTASKS];
static zul_arrow arrows[ZUL_MAX_ARROWS];
static const uint16_t three[1] = {3}, order[1] = {1};
static zul_entry plan[1];

static void no_graph(void) {
    expect("total work of nothing", zul_total_work(NULL, 0, NULL, 0).number, ZUL_REFUSED_SUBTASK_COUNT);
    expect("longest path of nothing", zul_longest_path(NULL, 0, NULL, 0).number, ZUL_REFUSED_SUBTASK_COUNT);
    expect("verdict of nothing", zul_judge(NULL, 0, NULL, 0, 1, 1).number, ZUL_REFUSED_SUBTASK_COUNT);
    expect("list plan of nothing", zul_list_plan(NULL, 0, NULL, 0, 1, NULL, 0, NULL, 0).number, ZUL_REFUSED_SUBTASK_COUNT);
    expect("plan check of nothing", zul_check_plan(NULL, 0, NULL, 0, 1, NULL, 0).number, ZUL_REFUSED_SUBTASK_COUNT);
    expect("no text, no rows", zul_read_stg(NULL, 0, NULL, 0, NULL, 0).number, ZUL_REFUSED_ROOM);
    expect("nothing to write", zul_write_stg(NULL, 0, NULL, 0, NULL, 0).number, ZUL_REFUSED_SUBTASK_COUNT);
    expect("nothing to join", zul_end_to_end(NULL, 0, NULL, 0, NULL, 0, NULL, 0, NULL, 0, NULL, 0).number, ZUL_REFUSED_SUBTASK_COUNT);
    expect("nothing beside", zul_side_by_side(three, 1, NULL, 0, NULL, 0, NULL, 0, NULL, 0, NULL, 0).number, ZUL_REFUSED_SUBTASK_COUNT);
    expect("no nest", zul_nest(NULL, 0).number, ZUL_REFUSED_NEST);
}

static void no_arrows(void) {
    expect("total work", zul_total_work(three, 1, NULL, 0).value, 3);
    expect("longest path", zul_longest_path(three, 1, NULL, 0).value, 3);
    expect("verdict", zul_judge(three, 1, NULL, 0, 1, 3).fits, 1);
    expect("list plan", zul_list_plan(three, 1, NULL, 0, 1, order, 1, plan, 1).end, 3);
    expect("plan check", zul_check_plan(three, 1, NULL, 0, 1, plan, 1).end, 3);
}

static void no_row(void) {
    expect("no order", zul_list_plan(three, 1, NULL, 0, 1, NULL, 0, plan, 1).number, ZUL_REFUSED_ORDER);
    expect("no plan row", zul_list_plan(three, 1, NULL, 0, 1, order, 1, NULL, 0).number, ZUL_REFUSED_ROOM);
    expect("no plan", zul_check_plan(three, 1, NULL, 0, 1, NULL, 0).number, ZUL_REFUSED_PLAN_LENGTH);
    expect("no text", zul_read_stg(NULL, 0, times, ZUL_MAX_SUBTASKS, arrows, ZUL_MAX_ARROWS).number, ZUL_REFUSED_FIRST_LINE);
    expect("no times", zul_read_stg(NULL, 0, NULL, 0, arrows, ZUL_MAX_ARROWS).number, ZUL_REFUSED_ROOM);
    expect("no arrows row", zul_read_stg(NULL, 0, times, ZUL_MAX_SUBTASKS, NULL, 0).number, ZUL_REFUSED_ROOM);
    expect("no room to write", zul_write_stg(three, 1, NULL, 0, NULL, 0).number, ZUL_REFUSED_ROOM);
    expect("no rows to join into", zul_side_by_side(three, 1, NULL, 0, three, 1, NULL, 0, NULL, 0, NULL, 0).number, ZUL_REFUSED_ROOM);
}

/* The whole text and the byte behind it; and a room that is a byte too short, left as it was. */
static void one_text(void) {
    static const char expected[] = "1\n0 0 0\n1 3 1 0\n2 0 1 1\n?", untouched[] = "????????????????????????";
    uint8_t room[sizeof expected - 1];
    memset(room, '?', sizeof room);
    expect("a byte too short", zul_write_stg(three, 1, NULL, 0, room, sizeof room - 2).number, ZUL_REFUSED_ROOM);
    expect("the room as it was", memcmp(room, untouched, sizeof room - 2) == 0, 1);
    expect("bytes written", zul_write_stg(three, 1, NULL, 0, room, sizeof room).bytes, sizeof room - 1);
    expect("the text", memcmp(room, expected, sizeof room) == 0, 1);
}

/* Two graphs of one subtask, joined in both ways: what is written, what lies past it, and rows that are too short. */
static void two_joined(void) {
    uint16_t joined[3] = {7, 7, 7};
    zul_arrow links[2] = {{7, 7}, {7, 7}};
    zul_counts counts = zul_end_to_end(three, 1, NULL, 0, three, 1, NULL, 0, joined, 1, links, 2);
    EXPECT_REPLY("one time too few", counts, ZUL_REFUSED_ROOM, 0, 0);
    counts = zul_end_to_end(three, 1, NULL, 0, three, 1, NULL, 0, joined, 3, NULL, 0);
    EXPECT_REPLY("one arrow too few", counts, ZUL_REFUSED_ROOM, 0, 0);
    expect("no counts", counts.subtasks | counts.arrows, 0);
    expect("the rows as they were", joined[0] == 7 && joined[2] == 7 && links[0].from == 7, 1);
    counts = zul_side_by_side(three, 1, NULL, 0, three, 1, NULL, 0, joined, 3, links, 2);
    EXPECT_REPLY("side by side", counts, ZUL_OK, 0, 0);
    expect("two times", counts.subtasks == 2 && joined[0] == 3 && joined[1] == 3 && joined[2] == 7, 1);
    expect("no arrow", counts.arrows == 0 && links[0].from == 7, 1);
    counts = zul_end_to_end(three, 1, NULL, 0, three, 1, NULL, 0, joined, 3, links, 2);
    EXPECT_REPLY("end to end", counts, ZUL_OK, 0, 0);
    expect("one arrow", counts.arrows == 1 && links[0].from == 1 && links[0].to == 2 && links[1].from == 7, 1);
}

/* A sequence of a graph and a group of two; and the same with an entry left over. */
static void one_nest(void) {
    static const zul_nest_entry row[6] = {{ZUL_SEQUENCE, 2, 0}, {ZUL_GRAPH, 5, 3}, {ZUL_GROUP, 2, 0},
                                          {ZUL_GRAPH, 4, 4},    {ZUL_GRAPH, 6, 2}, {ZUL_GRAPH, 1, 1}};
    zul_measure figures = zul_nest(row, 5);
    EXPECT_REPLY("a nest", figures, ZUL_OK, 0, 0);
    expect("C of a nest", figures.c, 15);
    expect("P of a nest", figures.p, 7);
    figures = zul_nest(row, 6);
    EXPECT_REPLY("an entry left over", figures, ZUL_REFUSED_NEST, 0, 0);
    expect("no figures of a nest", figures.c | figures.p, 0);
}

/* Where it is wrong, in every kind of reply; what stands after it is 0. */
static void places(void) {
    static const uint16_t longer[3] = {3, 4, 5};
    static const zul_arrow twice[3] = {{1, 2}, {2, 3}, {2, 3}}, cycle[3] = {{1, 2}, {2, 3}, {3, 2}};
    static const zul_entry shared[3] = {{1, 0}, {2, 0}, {2, 3}};
    static const uint8_t text[] = "2\n0 0 0\n1 5 0\n2 0 0\n3 0 0\n";

    zul_amount amount = zul_total_work(longer, 3, twice, 3);
    EXPECT_REPLY("an arrow twice", amount, ZUL_REFUSED_ARROW_TWICE, 3, 0);
    expect("no total work", amount.value, 0);
    zul_answer answer = zul_judge(longer, 3, cycle, 3, 1, 1);
    EXPECT_REPLY("a cycle", answer, ZUL_REFUSED_CYCLE, 2, 0);
    expect("no figures", answer.c | answer.p | answer.s | answer.fits | answer.margin | (answer.load != 0), 0);
    zul_plan_end checked = zul_check_plan(longer, 3, NULL, 0, 2, shared, 3);
    EXPECT_REPLY("a shared instant", checked, ZUL_REFUSED_OVERLAP, 2, 3);
    expect("no end", checked.end, 0);
    zul_counts counts = zul_read_stg(text, sizeof text - 1, times, ZUL_MAX_SUBTASKS, arrows, ZUL_MAX_ARROWS);
    EXPECT_REPLY("a time of 0", counts, ZUL_REFUSED_TIME_ZERO, 2, 0);
    expect("no counts", counts.subtasks | counts.arrows, 0);
    zul_written written = zul_write_stg(longer, 3, twice, 3, NULL, 0);
    EXPECT_REPLY("nothing to write", written, ZUL_REFUSED_ARROW_TWICE, 3, 0);
    expect("no bytes", written.bytes, 0);
    counts = zul_end_to_end(three, 1, NULL, 0, longer, 3, cycle, 3, NULL, 0, NULL, 0);
    EXPECT_REPLY("a cycle in the second", counts, ZUL_REFUSED_CYCLE, 2, 0);
    counts = zul_side_by_side(longer, 3, twice, 3, longer, 3, cycle, 3, NULL, 0, NULL, 0);
    EXPECT_REPLY("the first before the second", counts, ZUL_REFUSED_ARROW_TWICE, 3, 0);
}

/* What is accepted has no place. */
static void no_place(void) {
    static const uint8_t text[] = "1\n0 0 0\n1 3 1 0\n2 0 1 1\n";
    uint8_t room[ZUL_MAX_WRITTEN];
    EXPECT_REPLY("longest path", zul_longest_path(three, 1, NULL, 0), ZUL_OK, 0, 0);
    EXPECT_REPLY("verdict", zul_judge(three, 1, NULL, 0, 1, 3), ZUL_OK, 0, 0);
    EXPECT_REPLY("list plan", zul_list_plan(three, 1, NULL, 0, 1, order, 1, plan, 1), ZUL_OK, 0, 0);
    EXPECT_REPLY("plan check", zul_check_plan(three, 1, NULL, 0, 1, plan, 1), ZUL_OK, 0, 0);
    EXPECT_REPLY("reader", zul_read_stg(text, sizeof text - 1, times, ZUL_MAX_SUBTASKS, arrows, ZUL_MAX_ARROWS), ZUL_OK, 0, 0);
    EXPECT_REPLY("writer", zul_write_stg(three, 1, NULL, 0, room, sizeof room), ZUL_OK, 0, 0);
}

/* zul_say in buffers of every size up to the whole text and its end: what fits, a 0 byte, and no byte past the size. */
static void cut(void) {
    static const char whole[] = "subtasks 7 and 4294967295 share an instant on one processor";
    const size_t len = sizeof whole - 1;
    char text[sizeof whole + 1];
    for (size_t size = 0; size <= sizeof whole; size++) {
        memset(text, '?', sizeof text);
        expect("length", (uint32_t)zul_say(ZUL_REFUSED_OVERLAP, 7, UINT32_MAX, text, size), (uint32_t)len);
        if (size > 0) expect("the bytes", memcmp(text, whole, size - 1) == 0 && text[size - 1] == 0, 1);
        expect("past the size", text[size] == '?', 1);
    }
    expect("no buffer", (uint32_t)zul_say(ZUL_REFUSED_OVERLAP, 7, UINT32_MAX, NULL, 0), (uint32_t)len);
    for (uint32_t number = 0; number < 100; number++)
        expect("128 bytes", zul_say(number, UINT32_MAX, UINT32_MAX, NULL, 0) < 128, 1);
}

static uint32_t number_of(const char *word) { return (uint32_t)strtoul(word, NULL, 10); }

int main(int argc, char **argv) {
    no_graph();
    no_arrows();
    no_row();
    one_text();
    two_joined();
    one_nest();
    places();
    no_place();
    cut();
    for (uint32_t number = 0; number < 100; number++) printf("%u %s\n", (unsigned)number, zul_meaning(number));
    for (int at = 1; at + 2 < argc; at += 3) {
        char said[128];
        zul_say(number_of(argv[at]), number_of(argv[at + 1]), number_of(argv[at + 2]), said, sizeof said);
        printf("%s\n", said);
    }
    return wrong;
}
