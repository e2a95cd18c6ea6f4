/* Reads an STG text from standard input, asks for a verdict on 3 processors against a deadline of 20 microseconds, and
 * prints the list plan in the order 1..n. With the planner installed under PREFIX (bindings/c/install.sh PREFIX):
 *     export PKG_CONFIG_PATH=PREFIX/lib/pkgconfig
 *     cc example.c $(pkg-config --cflags --libs zulagbemi) -o example */
#include <stdio.h>
#include <zulagbemi.h>

static int refused(uint32_t number, uint32_t place, uint32_t second) {
    char said[128];
    zul_say(number, place, second, said, sizeof said);
    printf("refused by %u: %s\n", (unsigned)number, said);
    return 1;
}

int main(void) {
    static uint8_t text[ZUL_MAX_TEXT + 1]; /* one byte more than is allowed, so that a longer text is refused */
    static uint16_t times[ZUL_MAX_SUBTASKS], order[ZUL_MAX_SUBTASKS];
    static zul_arrow arrows[ZUL_MAX_ARROWS];
    static zul_entry plan[ZUL_MAX_SUBTASKS];
    const uint32_t m = 3, d = 20;

    size_t len = fread(text, 1, sizeof text, stdin);
    zul_counts read = zul_read_stg(text, len, times, ZUL_MAX_SUBTASKS, arrows, ZUL_MAX_ARROWS);
    if (read.number != ZUL_OK) return refused(read.number, read.place, read.second);
    size_t n = read.subtasks, a = read.arrows;

    zul_answer answer = zul_judge(times, n, arrows, a, m, d);
    if (answer.number != ZUL_OK) return refused(answer.number, answer.place, answer.second);
    printf("C = %u, P = %u, S = %u, load = %.3f: ", (unsigned)answer.c, (unsigned)answer.p, (unsigned)answer.s, (double)answer.load);
    printf("%s %u\n", answer.fits ? "fits, spare" : "late, short", (unsigned)answer.margin);

    for (size_t j = 0; j < n; j++) order[j] = (uint16_t)(j + 1);
    zul_plan_end listed = zul_list_plan(times, n, arrows, a, m, order, n, plan, ZUL_MAX_SUBTASKS);
    if (listed.number != ZUL_OK) return refused(listed.number, listed.place, listed.second);
    for (size_t j = 0; j < n; j++) {
        unsigned start = (unsigned)plan[j].start;
        printf("subtask %zu: processor %u from %u to %u\n", j + 1, (unsigned)plan[j].processor, start, start + times[j]);
    }

    zul_plan_end checked = zul_check_plan(times, n, arrows, a, m, plan, n);
    if (checked.number != ZUL_OK) return refused(checked.number, checked.place, checked.second);
    printf("the plan ends at %u, and is accepted\n", (unsigned)checked.end);
    return 0;
}
