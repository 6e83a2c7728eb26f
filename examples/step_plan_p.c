/* Steps plan P of document 01 through the ten records of its first roll, tick by tick, and prints each line with code
 * of its own; the library's own listing of the same roll must read the same. Then the plan goes into a plan file and
 * comes back, and one that is refused does not.
 *
 *     cc -Wall -Wextra -Werror -o step_plan_p examples/step_plan_p.c -Iinclude target/staticlib/libexports.a
 */
#include <stdio.h>
#include <string.h>

#include "wilatkhun.h"

enum { DEVICES = 2, TICKS = 10, ROOM = 64 };

/* N, W, B, Q, then F, E, R, X, G, S of devices 1 and 2; the other slots are zero. */
static const uint16_t plan_p[] = {2, 1, 1, 3, 1, 1, 7, 2, 1, 1, 1, 3, 2, 1, 0, 0};

/* Where R of device 1 stands in the 104 bytes. */
enum { R1 = 2 * (4 + 2) };

static void make_plan(uint8_t plan[WILATKHUN_PLAN])
{
    memset(plan, 0, WILATKHUN_PLAN);
    for (size_t k = 0; k < sizeof plan_p / sizeof *plan_p; k++) {
        plan[2 * k] = plan_p[k] & 255;
        plan[2 * k + 1] = plan_p[k] >> 8;
    }
}

/* A request, then nine records in which nothing happens; approval holds and device 1 is willing throughout. */
static void make_roll(uint8_t roll[4 * TICKS])
{
    static const uint8_t calm[4] = {0, 1, 1, 0};
    for (size_t k = 0; k < TICKS; k++)
        memcpy(roll + 4 * k, calm, 4);
    roll[0] = 1;
}

/* One line: tick, base, devices, down letter with `!` if it was lost. Answers its length. */
static size_t write_line(char *line, int tick, const uint8_t yard[WILATKHUN_YARD], uint8_t down, uint8_t device,
                         int lost)
{
    int at = sprintf(line, "%d %c", tick, "FLCA"[yard[0]]);
    if (yard[0] != 0)
        at += sprintf(line + at, "%d", yard[1]);
    for (int i = 0; i < DEVICES; i++)
        at += sprintf(line + at, " %c", "FQERXY"[yard[8 + 4 * i + 2]]);
    if (down == 0)
        at += sprintf(line + at, " -\n");
    else
        at += sprintf(line + at, " %c%d%s\n", "-QGCA"[down], device, lost ? "!" : "");
    return at;
}

/* The lines of the whole roll, by single ticks. Answers their length, or 0 when a tick is refused. */
static size_t step(const uint8_t *plan, const uint8_t *roll, char *text)
{
    uint8_t yard[WILATKHUN_YARD], down, device;
    size_t index, length = 0;
    if (wilatkhun_fresh(plan, WILATKHUN_PLAN, yard, sizeof yard, &index) != 0)
        return 0;
    for (int k = 0; k < TICKS; k++) {
        const uint8_t *r = roll + 4 * k;
        if (wilatkhun_tick(plan, WILATKHUN_PLAN, yard, sizeof yard, r[0], r[1], r[2], r[3], &down, &device,
                           &index) != 0)
            return 0;
        length += write_line(text + length, k + 1, yard, down, device, r[1] & 2);
    }
    return length;
}

/* The same by the library's listing. Answers the length, or 0. */
static size_t list(const uint8_t *plan, const uint8_t *roll, char *text, size_t room)
{
    uint8_t yard[WILATKHUN_YARD];
    size_t index, ticks, length;
    if (wilatkhun_fresh(plan, WILATKHUN_PLAN, yard, sizeof yard, &index) != 0)
        return 0;
    if (wilatkhun_list(plan, WILATKHUN_PLAN, yard, sizeof yard, roll, 4 * TICKS, 0, (uint8_t *)text, room, &ticks,
                       &length, &index) != 0)
        return 0;
    return ticks == TICKS ? length : 0;
}

/* Compares line by line, and says which differs. */
static int same(const char *ours, size_t our_length, const char *theirs, size_t their_length)
{
    size_t line = 1;
    for (size_t k = 0; k < our_length && k < their_length; k++) {
        if (ours[k] != theirs[k]) {
            fprintf(stderr, "line %zu differs from the library's listing\n", line);
            return 0;
        }
        line += ours[k] == '\n';
    }
    if (our_length != their_length)
        fprintf(stderr, "the library's listing has another length\n");
    return our_length == their_length;
}

/* Writes the plan as a plan file and reads it back. Answers the file's length, or 0 when it is refused or another plan
 * comes back. */
static size_t write_and_read(const uint8_t *plan)
{
    uint8_t file[WILATKHUN_FILE], back[WILATKHUN_PLAN];
    size_t index, length;
    if (wilatkhun_write(plan, WILATKHUN_PLAN, file, sizeof file, &length, &index) != 0)
        return 0;
    if (wilatkhun_read(file, length, back, sizeof back, &index) != 0)
        return 0;
    return memcmp(back, plan, sizeof back) == 0 ? length : 0;
}

int main(void)
{
    uint8_t plan[WILATKHUN_PLAN], roll[4 * TICKS];
    char header[ROOM], ours[ROOM * (TICKS + 1)], theirs[ROOM * (TICKS + 1)];
    size_t index;
    make_plan(plan);
    make_roll(roll);
    size_t header_length = wilatkhun_header(DEVICES, (uint8_t *)header, sizeof header, 0);
    size_t our_length = step(plan, roll, ours), their_length = list(plan, roll, theirs, sizeof theirs);
    printf("%.*s%.*s", (int)header_length, header, (int)our_length, ours);
    if (our_length == 0 || !same(ours, our_length, theirs, their_length))
        return 1;

    size_t file_length = write_and_read(plan);
    printf("as a plan file: %zu bytes\n", file_length);
    if (file_length == 0)
        return 1;

    /* With R1 = 6 device 1 could exit before device 2 has left. */
    plan[R1] = 6;
    uint8_t number = wilatkhun_check(plan, sizeof plan, &index);
    printf("with R1 = 6: refused %d %zu\n", number, index);
    return number == 8 && index == 1 && write_and_read(plan) == 0 ? 0 : 1;
}
