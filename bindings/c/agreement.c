/*
 * Holds each function of nbiot.h to the function on numbers that it is made of, on drawn inputs: accepted ones, and ones with any numbers.
 * The fields of a struct stand in the order of the numbers, so that the same bytes are both.
 */
#include "nbiot.h"

#include <stdio.h>
#include <stdlib.h>
#include <string.h>

static uint64_t state = 1;

/* A number below a bound. */
static uint64_t draw(uint64_t bound)
{
    state = state * 6364136223846793005u + 1442695040888963407u;
    return (state >> 33) % bound;
}

/* One of a list, or now and then any number. */
static uint64_t of(const uint64_t *list, size_t count)
{
    return draw(60) == 0 ? draw(1 << 12) : list[draw(count)];
}

#define OF(...) of((const uint64_t[]){__VA_ARGS__}, sizeof((const uint64_t[]){__VA_ARGS__}) / sizeof(uint64_t))
#define WHOLE(array) array, sizeof(array) / sizeof((array)[0])
#define BITMAPS WHOLE(anchor), WHOLE(other)

static uint64_t numbers[NBIOT_CELL_WITH_MESSAGES], windows[NBIOT_WINDOWS_NUMBERS];
static uint64_t up[NBIOT_UP_NUMBERS], ack[NBIOT_ACK_NUMBERS], down[NBIOT_DOWN_NUMBERS], control[NBIOT_CONTROL_NUMBERS];
static uint64_t space[NBIOT_SPACE_NUMBERS];
static uint8_t anchor[5], other[5], bits[500];
static size_t cells;

static struct nbiot_cell cell;
static struct nbiot_messages messages;
static struct nbiot_windows beside;
static struct nbiot_npusch_grant npusch;
static struct nbiot_ack_grant acknowledgement;
static struct nbiot_npdsch_grant npdsch;
static struct nbiot_npdcch_grant npdcch;
static struct nbiot_search_space searched;

static void draw_cell(void)
{
    uint64_t mode = OF(0, 1, 2, 3), ports = OF(1, 2);
    uint64_t drawn[] = {mode, OF(0, 1), draw(504), ports, mode == 0 ? ports : mode == 1 ? OF(1, 2, 4) : 0,
                        mode < 2 ? OF(1, 2, 3) : 0, draw(12), OF(0, 10, 40)};
    uint64_t *m = numbers + NBIOT_CELL_MESSAGES;
    memcpy(numbers, drawn, sizeof drawn);
    m[NBIOT_MESSAGES_WINDOW] = OF(160, 320, 480);
    m[NBIOT_MESSAGES_OFFSET] = draw(16);
    m[NBIOT_MESSAGES_COUNT] = draw(5);
    for (size_t i = NBIOT_MESSAGES_FIRST; i < NBIOT_MESSAGES_NUMBERS; i += NBIOT_SCHEDULE_NUMBERS) {
        m[i] = OF(64, 128, 256, 4096);
        m[i + 1] = OF(2, 4, 8, 16);
        m[i + 2] = OF(2, 8);
    }
    for (size_t i = 0; i < 5; i++) {
        anchor[i] = (uint8_t)draw(256);
        other[i] = (uint8_t)draw(256);
    }
    if (numbers[NBIOT_CELL_BITS] == 10) {
        anchor[1] &= 0xc0;
        other[1] &= 0xc0;
    }
    cells = draw(3) == 0 ? NBIOT_CELL_WITH_MESSAGES : NBIOT_CELL_NUMBERS;
    memcpy(&cell, numbers, sizeof drawn);
    memcpy(&messages, m, sizeof messages);
    cell.messages = cells == NBIOT_CELL_NUMBERS ? NULL : &messages;
    cell.anchor_bitmap.at = anchor;
    cell.non_anchor_bitmap.at = other;
    cell.anchor_bitmap.count = cell.non_anchor_bitmap.count = 5;
}

static void draw_grants(void)
{
    uint64_t spacing = OF(0, 1);
    uint64_t u[] = {draw(1 << 30), spacing, draw(spacing == 0 ? 48 : 19), OF(0, 3, 7), OF(0, 3, 7), draw(4), draw(5)};
    uint64_t a[] = {draw(1 << 30), OF(0, 1), draw(16), OF(0, 3, 7)};
    uint64_t d[] = {draw(1 << 30), draw(8), OF(1, 64, 2048), OF(0, 3, 7), OF(0, 3, 9)};
    uint64_t c[] = {draw(1 << 30), OF(1, 64, 2048), draw(2), 0};
    uint64_t s[] = {draw(1 << 30), OF(4, 64, 2048), draw(8), draw(4)};
    c[NBIOT_CONTROL_NCCE] = draw(2 - c[NBIOT_CONTROL_FORMAT]);
    memcpy(up, u, sizeof u);
    memcpy(ack, a, sizeof a);
    memcpy(down, d, sizeof d);
    memcpy(control, c, sizeof c);
    memcpy(space, s, sizeof s);
    windows[NBIOT_WINDOWS_COUNT] = draw(5);
    for (size_t i = NBIOT_WINDOWS_FIRST; i < NBIOT_WINDOWS_NUMBERS; i += NBIOT_WINDOW_NUMBERS) {
        windows[i] = OF(80, 160, 640);
        windows[i + 1] = OF(8, 32, 64);
        windows[i + 2] = OF(172032, 196608, 344064);
        windows[i + 3] = draw(37);
    }
    memcpy(&npusch, up, sizeof up);
    memcpy(&acknowledgement, ack, sizeof ack);
    memcpy(&npdsch, down, sizeof down);
    memcpy(&npdcch, control, sizeof control);
    memcpy(&searched, space, sizeof space);
    memcpy(&beside, windows, sizeof windows);
}

static size_t compared, accepted;

static void same(const char *name, const void *typed, size_t bytes, const uint64_t *answer, size_t answers)
{
    compared++;
    accepted += answer[0] == 0;
    if (bytes != answers * sizeof *answer || memcmp(typed, answer, bytes) != 0) {
        printf("%s differs\n", name);
        exit(1);
    }
}

/* Asks both: the function on numbers with the arguments in brackets and an answer after them, and the typed one. */
#define ARGUMENTS(...) __VA_ARGS__
#define SAME(function, arguments, answers, type, typed)              \
    do {                                                             \
        uint64_t answer[answers] = {0};                              \
        struct type got = typed;                                     \
        function(ARGUMENTS arguments, WHOLE(answer));                \
        same(#function, &got, sizeof got, answer, answers);          \
    } while (0)

static void ask_cell(void)
{
    uint64_t t = draw(1 << 14), l = draw(8), k = draw(13), slot = draw(2), p = draw(7000);
    uint64_t verdict = nbiot_cell_judge(&cell), judged = nbiot_judge(numbers, cells, BITMAPS);
    uint64_t b[NBIOT_BITMAP_NUMBERS];
    struct nbiot_bitmap_in_force force = nbiot_cell_bitmap(&cell);
    nbiot_bitmap(numbers, cells, BITMAPS, WHOLE(b));
    same("nbiot_judge", &verdict, sizeof verdict, &judged, 1);
    same("nbiot_bitmap", &force.refusal, sizeof force.refusal, b, 1);
    if (force.bytes.at != (b[NBIOT_BITMAP_BUFFER] == 0 ? anchor : other) || force.bytes.count != b[NBIOT_BITMAP_BYTES]) {
        puts("nbiot_bitmap differs");
        exit(1);
    }
    SAME(nbiot_count, (numbers, cells, BITMAPS), NBIOT_COUNT_NUMBERS, nbiot_eligible, nbiot_cell_count(&cell));
    SAME(nbiot_cause, (numbers, cells, BITMAPS, t), NBIOT_SUBFRAME_NUMBERS, nbiot_subframe, nbiot_cell_cause(&cell, t));
    SAME(nbiot_search, (numbers, cells, BITMAPS, WHOLE(space)), NBIOT_SEARCH_NUMBERS, nbiot_candidates,
         nbiot_search_space_candidates(&cell, &searched));
    SAME(nbiot_forward_npbch, (numbers, cells, BITMAPS, p), NBIOT_PLACE_NUMBERS, nbiot_downlink_place,
         nbiot_npbch_forward(&cell, p));
    SAME(nbiot_forward_sib1, (numbers, cells, BITMAPS, p), NBIOT_PLACE_NUMBERS, nbiot_downlink_place,
         nbiot_sib1_forward(&cell, p));
    SAME(nbiot_backward_npbch, (numbers, cells, BITMAPS, t * 10, slot, l, k), NBIOT_BACK_UP_NUMBERS, nbiot_back,
         nbiot_npbch_backward(&cell, t * 10, slot, l, k));
    SAME(nbiot_backward_sib1, (numbers, cells, BITMAPS, t, slot, l, k), NBIOT_BACK_UP_NUMBERS, nbiot_back,
         nbiot_sib1_backward(&cell, t, slot, l, k));
}

/* A walk's record on numbers and in a struct, one step each. */
#define STEP(function, record, count, arguments, walk, typed)                                                  \
    do {                                                                                                       \
        uint64_t answer[NBIOT_STEP_NUMBERS] = {0};                                                             \
        struct nbiot_step got = typed(&(walk));                                                                \
        function(record, count, ARGUMENTS arguments WHOLE(answer));                                            \
        same(#function, &got, sizeof got, answer, NBIOT_STEP_NUMBERS);                                         \
        same(#function " (position)", &(walk).position, sizeof(walk).position, record, 1);                     \
    } while (0)

static void ask_down(void)
{
    struct nbiot_downlink_place at = nbiot_npdsch_forward(&cell, &npdsch, draw(2000));
    uint64_t t = at.t + draw(4), slot = draw(2), l = draw(8), k = draw(13), p = draw(400);
    uint64_t record[NBIOT_WALK_DOWN_WITH_MESSAGES] = {p};
    struct nbiot_npdsch_walk walk = {p, cell, npdsch};
    memcpy(record + NBIOT_WALK_CELL, numbers, NBIOT_CELL_NUMBERS * sizeof *record);
    memcpy(record + NBIOT_WALK_GRANT, down, sizeof down);
    memcpy(record + NBIOT_WALK_DOWN_NUMBERS, numbers + NBIOT_CELL_MESSAGES, sizeof messages);
    SAME(nbiot_plan_down, (numbers, cells, BITMAPS, WHOLE(down)), NBIOT_PLAN_DOWN_NUMBERS, nbiot_downlink_plan,
         nbiot_npdsch_plan(&cell, &npdsch));
    SAME(nbiot_forward_down, (numbers, cells, BITMAPS, WHOLE(down), p), NBIOT_PLACE_NUMBERS, nbiot_downlink_place,
         nbiot_npdsch_forward(&cell, &npdsch, p));
    SAME(nbiot_backward_down, (numbers, cells, BITMAPS, WHOLE(down), t, slot, l, k), NBIOT_BACK_NUMBERS,
         nbiot_downlink_back, nbiot_npdsch_backward(&cell, &npdsch, t, slot, l, k));
    STEP(nbiot_step_down, record, cells + 1 + NBIOT_DOWN_NUMBERS, (BITMAPS, ), walk, nbiot_npdsch_step);
    SAME(nbiot_forward_down_plain, (numbers, cells, BITMAPS, WHOLE(down), p), NBIOT_PLACE_NUMBERS, nbiot_downlink_place,
         nbiot_npdsch_forward_plain(&cell, &npdsch, p));
    STEP(nbiot_step_down_plain, record, cells + 1 + NBIOT_DOWN_NUMBERS, (BITMAPS, ), walk, nbiot_npdsch_step_plain);
}

static void ask_control(void)
{
    struct nbiot_downlink_place at = nbiot_npdcch_forward(&cell, &npdcch, draw(2000));
    uint64_t t = at.t + draw(4), slot = draw(2), l = draw(8), k = draw(13), p = draw(400);
    uint64_t record[NBIOT_WALK_CONTROL_WITH_MESSAGES] = {p};
    struct nbiot_npdcch_walk walk = {p, cell, npdcch};
    memcpy(record + NBIOT_WALK_CELL, numbers, NBIOT_CELL_NUMBERS * sizeof *record);
    memcpy(record + NBIOT_WALK_GRANT, control, sizeof control);
    memcpy(record + NBIOT_WALK_CONTROL_NUMBERS, numbers + NBIOT_CELL_MESSAGES, sizeof messages);
    SAME(nbiot_plan_control, (numbers, cells, BITMAPS, WHOLE(control)), NBIOT_PLAN_DOWN_NUMBERS, nbiot_downlink_plan,
         nbiot_npdcch_plan(&cell, &npdcch));
    SAME(nbiot_forward_control, (numbers, cells, BITMAPS, WHOLE(control), p), NBIOT_PLACE_NUMBERS, nbiot_downlink_place,
         nbiot_npdcch_forward(&cell, &npdcch, p));
    SAME(nbiot_backward_control, (numbers, cells, BITMAPS, WHOLE(control), t, slot, l, k), NBIOT_BACK_NUMBERS,
         nbiot_downlink_back, nbiot_npdcch_backward(&cell, &npdcch, t, slot, l, k));
    STEP(nbiot_step_control, record, cells + 1 + NBIOT_CONTROL_NUMBERS, (BITMAPS, ), walk, nbiot_npdcch_step);
    SAME(nbiot_forward_control_plain, (numbers, cells, BITMAPS, WHOLE(control), p), NBIOT_PLACE_NUMBERS, nbiot_downlink_place,
         nbiot_npdcch_forward_plain(&cell, &npdcch, p));
    STEP(nbiot_step_control_plain, record, cells + 1 + NBIOT_CONTROL_NUMBERS, (BITMAPS, ), walk, nbiot_npdcch_step_plain);
}

/* Without windows and beside them. */
#define ASK_UP(name, numbers_of, grant, typed)                                                                         \
    static void ask_##name(void)                                                                                       \
    {                                                                                                                  \
        uint64_t p = draw(300), l = draw(8), k = draw(12);                                                             \
        uint64_t slot = nbiot_##typed##_forward(&grant, &beside, draw(300)).slot + draw(2);                            \
        uint64_t record[1 + sizeof numbers_of / sizeof(uint64_t)] = {p}, windowed[sizeof record / sizeof(uint64_t)];   \
        struct nbiot_##typed##_walk walk = {p, grant, NULL}, walk_windowed = {p, grant, &beside};                      \
        memcpy(record + 1, numbers_of, sizeof numbers_of);                                                             \
        memcpy(windowed, record, sizeof record);                                                                       \
        SAME(nbiot_plan_##name, (WHOLE(numbers_of)), NBIOT_PLAN_UP_NUMBERS, nbiot_uplink_plan,                         \
             nbiot_##typed##_plan(&grant, NULL));                                                                      \
        SAME(nbiot_plan_##name##_windows, (WHOLE(numbers_of), WHOLE(windows)), NBIOT_PLAN_UP_NUMBERS,                  \
             nbiot_uplink_plan, nbiot_##typed##_plan(&grant, &beside));                                                \
        SAME(nbiot_forward_##name, (WHOLE(numbers_of), p), NBIOT_PLACE_UP_NUMBERS, nbiot_uplink_place,                 \
             nbiot_##typed##_forward(&grant, NULL, p));                                                                \
        SAME(nbiot_forward_##name##_windows, (WHOLE(numbers_of), WHOLE(windows), p), NBIOT_PLACE_UP_NUMBERS,           \
             nbiot_uplink_place, nbiot_##typed##_forward(&grant, &beside, p));                                         \
        SAME(nbiot_backward_##name, (WHOLE(numbers_of), slot, l, k), NBIOT_BACK_UP_NUMBERS, nbiot_back,                \
             nbiot_##typed##_backward(&grant, NULL, slot, l, k));                                                      \
        SAME(nbiot_backward_##name##_windows, (WHOLE(numbers_of), WHOLE(windows), slot, l, k), NBIOT_BACK_UP_NUMBERS,  \
             nbiot_back, nbiot_##typed##_backward(&grant, &beside, slot, l, k));                                       \
        STEP(nbiot_step_##name, record, sizeof record / sizeof *record, (), walk, nbiot_##typed##_step);               \
        STEP(nbiot_step_##name##_windows, windowed, sizeof record / sizeof *record, (WHOLE(windows), ),                \
             walk_windowed, nbiot_##typed##_step);                                                                     \
        SAME(nbiot_forward_##name##_plain, (WHOLE(numbers_of), NULL, 0, p), NBIOT_PLACE_UP_NUMBERS,                    \
             nbiot_uplink_place, nbiot_##typed##_forward_plain(&grant, NULL, p));                                      \
        SAME(nbiot_forward_##name##_plain, (WHOLE(numbers_of), WHOLE(windows), p), NBIOT_PLACE_UP_NUMBERS,             \
             nbiot_uplink_place, nbiot_##typed##_forward_plain(&grant, &beside, p));                                   \
        STEP(nbiot_step_##name##_plain, record, sizeof record / sizeof *record, (NULL, 0, ), walk,                     \
             nbiot_##typed##_step_plain);                                                                              \
        STEP(nbiot_step_##name##_plain, windowed, sizeof record / sizeof *record, (WHOLE(windows), ), walk_windowed,   \
             nbiot_##typed##_step_plain);                                                                              \
    }

ASK_UP(up, up, npusch, npusch)
ASK_UP(ack, ack, acknowledgement, ack)

static void ask_fill(void)
{
    static const uint64_t lengths[] = {1, 2, 3, 4, 5, 6, 8, 10};
    struct nbiot_bytes lent = {bits, lengths[down[NBIOT_DOWN_SUBFRAMES] % 8] * nbiot_cell_count(&cell).elements / 4};
    uint64_t i = draw(5), slot = draw(2), l = draw(8), k = draw(13), a[NBIOT_ELEMENT_NUMBERS] = {0}, no;
    float pair[NBIOT_AMPLITUDES] = {0}, output[NBIOT_FILL_NUMBERS] = {0};
    struct nbiot_numbers typed = {{{{{0}}}}};
    struct nbiot_amplitude element = nbiot_npdsch_element(&cell, &npdsch, i, slot, l, k, lent, 1.5f);
    uint64_t filled = nbiot_npdsch_fill(&cell, &npdsch, i, lent, 1.5f, &typed);
    no = nbiot_fill(numbers, cells, BITMAPS, WHOLE(down), i, lent.at, lent.count, 1.5f, WHOLE(output));
    nbiot_element(numbers, cells, BITMAPS, WHOLE(down), i, slot, l, k, lent.at, lent.count, 1.5f, WHOLE(a), WHOLE(pair));
    same("nbiot_fill", &filled, sizeof filled, &no, 1);
    same("nbiot_element", &element, sizeof a, a, NBIOT_ELEMENT_NUMBERS);
    if (memcmp(&typed, output, sizeof output) != 0 || memcmp(&element.re, pair, sizeof pair) != 0) {
        puts("nbiot_fill or nbiot_element differs");
        exit(1);
    }
}

int main(void)
{
    for (size_t i = 0; i < sizeof bits; i++) {
        bits[i] = (uint8_t)draw(256);
    }
    for (int i = 0; i < 20000; i++) {
        draw_cell();
        draw_grants();
        ask_cell();
        ask_down();
        ask_control();
        ask_up();
        ask_ack();
        ask_fill();
    }
    printf("%zu answers agree, %zu of them accepted\n", compared, accepted);
    return compared == 0 || accepted * 2 < compared;
}
