/*
 * The functions of nbiot.h, which includes this file at its end: each lays its structs out as numbers, calls a
 * function of nbiot_numbers.h and reads the answer. Nothing is judged here.
 */
#ifndef NBIOT_INLINE_H
#define NBIOT_INLINE_H

#include "nbiot_numbers.h"

static inline const char *nbiot_refusal_words(uint64_t refusal)
{
#define NBIOT_REFUSAL_CASE(number, name, words) \
    case number: \
        return words;
    switch (refusal) {
    case 0:
        return "accepted";
        NBIOT_REFUSALS(NBIOT_REFUSAL_CASE)
    default:
        return "none";
    }
#undef NBIOT_REFUSAL_CASE
}

static inline const char *nbiot_cause_name(uint64_t cause)
{
    static const char *const names[] = {"none", "npbch", "npss", "nsss", "sib1", "message", "bitmap"};
    return cause < sizeof names / sizeof names[0] ? names[cause] : "unknown";
}

/* ---- Structs as numbers */

static inline void nbiot_lay_messages(const struct nbiot_messages *messages, uint64_t *to)
{
    to[NBIOT_MESSAGES_WINDOW] = messages->window;
    to[NBIOT_MESSAGES_OFFSET] = messages->offset;
    to[NBIOT_MESSAGES_COUNT] = messages->count;
    for (int i = 0; i < 4; i++) {
        uint64_t *s = to + NBIOT_MESSAGES_FIRST + i * NBIOT_SCHEDULE_NUMBERS;
        s[NBIOT_SCHEDULE_PERIOD] = messages->schedule[i].period;
        s[NBIOT_SCHEDULE_EVERY] = messages->schedule[i].every;
        s[NBIOT_SCHEDULE_SIZE] = messages->schedule[i].size;
    }
}

static inline void nbiot_lay_eight(const struct nbiot_cell *cell, uint64_t *to)
{
    to[NBIOT_CELL_MODE] = cell->mode;
    to[NBIOT_CELL_CARRIER] = cell->carrier;
    to[NBIOT_CELL_IDENTITY] = cell->identity;
    to[NBIOT_CELL_NPORTS] = cell->narrowband_ports;
    to[NBIOT_CELL_CPORTS] = cell->cell_ports;
    to[NBIOT_CELL_CONTROL] = cell->control_region;
    to[NBIOT_CELL_SIB1] = cell->sib1_schedule;
    to[NBIOT_CELL_BITS] = cell->bitmap_length;
}

/* A cell's numbers and how many they are. */
struct nbiot_laid_cell {
    uint64_t at[NBIOT_CELL_WITH_MESSAGES];
    size_t count;
};

static inline struct nbiot_laid_cell nbiot_lay_cell(const struct nbiot_cell *cell)
{
    struct nbiot_laid_cell to;
    nbiot_lay_eight(cell, to.at);
    to.count = NBIOT_CELL_NUMBERS;
    if (cell->messages != NULL) {
        nbiot_lay_messages(cell->messages, to.at + NBIOT_CELL_MESSAGES);
        to.count = NBIOT_CELL_WITH_MESSAGES;
    }
    return to;
}

/* The arguments of a call that are lent bytes, a cell's bitmaps, a laid cell with its bitmaps, and a whole array. */
#define NBIOT_LENT(bytes) (bytes).at, (bytes).count
#define NBIOT_BITMAPS(cell) NBIOT_LENT((cell)->anchor_bitmap), NBIOT_LENT((cell)->non_anchor_bitmap)
#define NBIOT_CELL(laid, cell) NBIOT_LENT(laid), NBIOT_BITMAPS(cell)
#define NBIOT_WHOLE(array) array, sizeof(array) / sizeof((array)[0])

static inline void nbiot_lay_npdsch(const struct nbiot_npdsch_grant *grant, uint64_t *to)
{
    to[NBIOT_DOWN_N] = grant->n;
    to[NBIOT_DOWN_DELAY] = grant->delay;
    to[NBIOT_DOWN_RMAX] = grant->rmax;
    to[NBIOT_DOWN_SUBFRAMES] = grant->subframes;
    to[NBIOT_DOWN_COPIES] = grant->copies;
}

static inline void nbiot_lay_npdcch(const struct nbiot_npdcch_grant *grant, uint64_t *to)
{
    to[NBIOT_CONTROL_N] = grant->n;
    to[NBIOT_CONTROL_R] = grant->r;
    to[NBIOT_CONTROL_FORMAT] = grant->format;
    to[NBIOT_CONTROL_NCCE] = grant->ncce;
}

static inline void nbiot_lay_npusch(const struct nbiot_npusch_grant *grant, uint64_t *to)
{
    to[NBIOT_UP_N] = grant->n;
    to[NBIOT_UP_SPACING] = grant->spacing;
    to[NBIOT_UP_SUBCARRIER] = grant->subcarrier;
    to[NBIOT_UP_UNITS] = grant->units;
    to[NBIOT_UP_COPIES] = grant->copies;
    to[NBIOT_UP_DELAY] = grant->delay;
    to[NBIOT_UP_MCS] = grant->mcs;
}

static inline void nbiot_lay_ack(const struct nbiot_ack_grant *grant, uint64_t *to)
{
    to[NBIOT_ACK_N] = grant->n;
    to[NBIOT_ACK_SPACING] = grant->spacing;
    to[NBIOT_ACK_FIELD] = grant->field;
    to[NBIOT_ACK_COPIES] = grant->copies;
}

static inline void nbiot_lay_windows(const struct nbiot_windows *windows, uint64_t *to)
{
    to[NBIOT_WINDOWS_COUNT] = windows->count;
    for (int i = 0; i < 4; i++) {
        uint64_t *w = to + NBIOT_WINDOWS_FIRST + i * NBIOT_WINDOW_NUMBERS;
        w[NBIOT_WINDOW_PERIOD] = windows->window[i].period;
        w[NBIOT_WINDOW_START] = windows->window[i].start;
        w[NBIOT_WINDOW_LENGTH] = windows->window[i].length;
        w[NBIOT_WINDOW_TONE] = windows->window[i].tone;
    }
}

/* ---- Numbers as structs */

static inline struct nbiot_downlink_plan nbiot_read_downlink_plan(const uint64_t *a)
{
    struct nbiot_downlink_plan to = {a[NBIOT_PLAN_NO], a[NBIOT_PLAN_FIRST], a[NBIOT_PLAN_LAST], a[NBIOT_PLAN_COPIES],
                                     a[NBIOT_PLAN_PLACES]};
    return to;
}

static inline struct nbiot_uplink_plan nbiot_read_uplink_plan(const uint64_t *a)
{
    struct nbiot_uplink_plan to = {a[NBIOT_PLAN_NO],     a[NBIOT_PLAN_FIRST], a[NBIOT_PLAN_LAST], a[NBIOT_PLAN_COPIES],
                                   a[NBIOT_PLAN_PLACES], a[NBIOT_PLAN_SIZE],  a[NBIOT_PLAN_ORDER]};
    return to;
}

static inline struct nbiot_downlink_place nbiot_read_downlink_place(const uint64_t *a)
{
    struct nbiot_downlink_place to = {a[NBIOT_PLACE_NO], a[NBIOT_PLACE_T], a[NBIOT_PLACE_SLOT], a[NBIOT_PLACE_L],
                                      a[NBIOT_PLACE_K],  a[NBIOT_PLACE_SYMBOL]};
    return to;
}

static inline struct nbiot_uplink_place nbiot_read_uplink_place(const uint64_t *a)
{
    struct nbiot_uplink_place to = {a[NBIOT_PLACE_UP_NO], a[NBIOT_PLACE_UP_SLOT], a[NBIOT_PLACE_UP_L],
                                    a[NBIOT_PLACE_UP_K], a[NBIOT_PLACE_UP_SYMBOL]};
    return to;
}

static inline struct nbiot_downlink_back nbiot_read_downlink_back(const uint64_t *a)
{
    struct nbiot_downlink_back to = {a[NBIOT_BACK_NO],       a[NBIOT_BACK_OURS], a[NBIOT_BACK_SYMBOL],
                                     a[NBIOT_BACK_POSITION], a[NBIOT_BACK_KIND], a[NBIOT_BACK_CAUSE]};
    return to;
}

static inline struct nbiot_back nbiot_read_back(const uint64_t *a)
{
    struct nbiot_back to = {a[NBIOT_BACK_NO], a[NBIOT_BACK_OURS], a[NBIOT_BACK_SYMBOL], a[NBIOT_BACK_POSITION],
                            a[NBIOT_BACK_KIND]};
    return to;
}

static inline struct nbiot_step nbiot_read_step(const uint64_t *a)
{
    struct nbiot_step to = {a[NBIOT_STEP_NO], a[NBIOT_STEP_FINISHED], a[NBIOT_STEP_T],     a[NBIOT_STEP_SLOT],
                            a[NBIOT_STEP_L],  a[NBIOT_STEP_K],        a[NBIOT_STEP_SYMBOL]};
    return to;
}

/* ---- A cell */

static inline uint64_t nbiot_cell_judge(const struct nbiot_cell *cell)
{
    struct nbiot_laid_cell c = nbiot_lay_cell(cell);
    return nbiot_judge(NBIOT_CELL(c, cell));
}

static inline struct nbiot_subframe nbiot_cell_cause(const struct nbiot_cell *cell, uint64_t t)
{
    struct nbiot_laid_cell c = nbiot_lay_cell(cell);
    uint64_t a[NBIOT_SUBFRAME_NUMBERS] = {0};
    a[0] = nbiot_cause(NBIOT_CELL(c, cell), t, NBIOT_WHOLE(a));
    struct nbiot_subframe to = {a[NBIOT_SUBFRAME_NO], a[NBIOT_SUBFRAME_CAUSE]};
    return to;
}

static inline struct nbiot_eligible nbiot_cell_count(const struct nbiot_cell *cell)
{
    struct nbiot_laid_cell c = nbiot_lay_cell(cell);
    uint64_t a[NBIOT_COUNT_NUMBERS] = {0};
    a[0] = nbiot_count(NBIOT_CELL(c, cell), NBIOT_WHOLE(a));
    struct nbiot_eligible to = {a[NBIOT_COUNT_NO], a[NBIOT_COUNT_E]};
    return to;
}

static inline struct nbiot_bitmap_in_force nbiot_cell_bitmap(const struct nbiot_cell *cell)
{
    struct nbiot_laid_cell c = nbiot_lay_cell(cell);
    uint64_t a[NBIOT_BITMAP_NUMBERS] = {0};
    a[0] = nbiot_bitmap(NBIOT_CELL(c, cell), NBIOT_WHOLE(a));
    struct nbiot_bitmap_in_force to = {a[NBIOT_BITMAP_NO], cell->anchor_bitmap};
    if (a[NBIOT_BITMAP_BUFFER] == 1) {
        to.bytes = cell->non_anchor_bitmap;
    }
    to.bytes.count = (size_t)a[NBIOT_BITMAP_BYTES];
    return to;
}

/* ---- NPDSCH */

static inline struct nbiot_downlink_plan nbiot_npdsch_plan(const struct nbiot_cell *cell,
                                                           const struct nbiot_npdsch_grant *grant)
{
    struct nbiot_laid_cell c = nbiot_lay_cell(cell);
    uint64_t g[NBIOT_DOWN_NUMBERS], a[NBIOT_PLAN_DOWN_NUMBERS] = {0};
    nbiot_lay_npdsch(grant, g);
    a[0] = nbiot_plan_down(NBIOT_CELL(c, cell), NBIOT_WHOLE(g), NBIOT_WHOLE(a));
    return nbiot_read_downlink_plan(a);
}

static inline struct nbiot_downlink_place nbiot_npdsch_forward(const struct nbiot_cell *cell,
                                                               const struct nbiot_npdsch_grant *grant,
                                                               uint64_t position)
{
    struct nbiot_laid_cell c = nbiot_lay_cell(cell);
    uint64_t g[NBIOT_DOWN_NUMBERS], a[NBIOT_PLACE_NUMBERS] = {0};
    nbiot_lay_npdsch(grant, g);
    a[0] = nbiot_forward_down(NBIOT_CELL(c, cell), NBIOT_WHOLE(g), position, NBIOT_WHOLE(a));
    return nbiot_read_downlink_place(a);
}

static inline struct nbiot_downlink_back nbiot_npdsch_backward(const struct nbiot_cell *cell,
                                                               const struct nbiot_npdsch_grant *grant,
                                                               uint64_t t, uint64_t slot, uint64_t l, uint64_t k)
{
    struct nbiot_laid_cell c = nbiot_lay_cell(cell);
    uint64_t g[NBIOT_DOWN_NUMBERS], a[NBIOT_BACK_NUMBERS] = {0};
    nbiot_lay_npdsch(grant, g);
    a[0] = nbiot_backward_down(NBIOT_CELL(c, cell), NBIOT_WHOLE(g), t, slot, l, k, NBIOT_WHOLE(a));
    return nbiot_read_downlink_back(a);
}

/* A walk's record: its numbers and how many they are. */
struct nbiot_laid_walk {
    uint64_t at[NBIOT_WALK_DOWN_WITH_MESSAGES];
    size_t count;
};

static inline struct nbiot_laid_walk nbiot_lay_npdsch_walk(const struct nbiot_npdsch_walk *walk)
{
    struct nbiot_laid_walk to;
    to.at[NBIOT_WALK_P] = walk->position;
    nbiot_lay_eight(&walk->cell, to.at + NBIOT_WALK_CELL);
    nbiot_lay_npdsch(&walk->grant, to.at + NBIOT_WALK_GRANT);
    to.count = NBIOT_WALK_DOWN_NUMBERS;
    if (walk->cell.messages != NULL) {
        nbiot_lay_messages(walk->cell.messages, to.at + NBIOT_WALK_DOWN_NUMBERS);
        to.count = NBIOT_WALK_DOWN_WITH_MESSAGES;
    }
    return to;
}

static inline struct nbiot_step nbiot_npdsch_step(struct nbiot_npdsch_walk *walk)
{
    struct nbiot_laid_walk w = nbiot_lay_npdsch_walk(walk);
    uint64_t a[NBIOT_STEP_NUMBERS] = {0};
    a[0] = nbiot_step_down(NBIOT_LENT(w), NBIOT_BITMAPS(&walk->cell), NBIOT_WHOLE(a));
    walk->position = w.at[NBIOT_WALK_P];
    return nbiot_read_step(a);
}

static inline uint64_t nbiot_npdsch_fill(const struct nbiot_cell *cell, const struct nbiot_npdsch_grant *grant,
                                         uint64_t i, struct nbiot_bytes bits, float level,
                                         struct nbiot_numbers *output)
{
    struct nbiot_laid_cell c = nbiot_lay_cell(cell);
    uint64_t g[NBIOT_DOWN_NUMBERS];
    nbiot_lay_npdsch(grant, g);
    return nbiot_fill(NBIOT_CELL(c, cell), NBIOT_WHOLE(g), i, NBIOT_LENT(bits), level, &output->at[0][0][0][0],
                      NBIOT_FILL_NUMBERS);
}

static inline struct nbiot_amplitude nbiot_npdsch_element(const struct nbiot_cell *cell,
                                                          const struct nbiot_npdsch_grant *grant,
                                                          uint64_t i, uint64_t slot, uint64_t l, uint64_t k,
                                                          struct nbiot_bytes bits, float level)
{
    struct nbiot_laid_cell c = nbiot_lay_cell(cell);
    uint64_t g[NBIOT_DOWN_NUMBERS], a[NBIOT_ELEMENT_NUMBERS] = {0};
    float pair[NBIOT_AMPLITUDES] = {0};
    nbiot_lay_npdsch(grant, g);
    a[0] = nbiot_element(NBIOT_CELL(c, cell), NBIOT_WHOLE(g), i, slot, l, k, NBIOT_LENT(bits), level,
                         NBIOT_WHOLE(a), NBIOT_WHOLE(pair));
    struct nbiot_amplitude to = {a[NBIOT_ELEMENT_NO], a[NBIOT_ELEMENT_STATE], pair[NBIOT_AMPLITUDE_RE],
                                 pair[NBIOT_AMPLITUDE_IM]};
    return to;
}

/* ---- NPDCCH */

static inline struct nbiot_downlink_plan nbiot_npdcch_plan(const struct nbiot_cell *cell,
                                                           const struct nbiot_npdcch_grant *grant)
{
    struct nbiot_laid_cell c = nbiot_lay_cell(cell);
    uint64_t g[NBIOT_CONTROL_NUMBERS], a[NBIOT_PLAN_DOWN_NUMBERS] = {0};
    nbiot_lay_npdcch(grant, g);
    a[0] = nbiot_plan_control(NBIOT_CELL(c, cell), NBIOT_WHOLE(g), NBIOT_WHOLE(a));
    return nbiot_read_downlink_plan(a);
}

static inline struct nbiot_downlink_place nbiot_npdcch_forward(const struct nbiot_cell *cell,
                                                               const struct nbiot_npdcch_grant *grant,
                                                               uint64_t position)
{
    struct nbiot_laid_cell c = nbiot_lay_cell(cell);
    uint64_t g[NBIOT_CONTROL_NUMBERS], a[NBIOT_PLACE_NUMBERS] = {0};
    nbiot_lay_npdcch(grant, g);
    a[0] = nbiot_forward_control(NBIOT_CELL(c, cell), NBIOT_WHOLE(g), position, NBIOT_WHOLE(a));
    return nbiot_read_downlink_place(a);
}

static inline struct nbiot_downlink_back nbiot_npdcch_backward(const struct nbiot_cell *cell,
                                                               const struct nbiot_npdcch_grant *grant,
                                                               uint64_t t, uint64_t slot, uint64_t l, uint64_t k)
{
    struct nbiot_laid_cell c = nbiot_lay_cell(cell);
    uint64_t g[NBIOT_CONTROL_NUMBERS], a[NBIOT_BACK_NUMBERS] = {0};
    nbiot_lay_npdcch(grant, g);
    a[0] = nbiot_backward_control(NBIOT_CELL(c, cell), NBIOT_WHOLE(g), t, slot, l, k, NBIOT_WHOLE(a));
    return nbiot_read_downlink_back(a);
}

static inline struct nbiot_laid_walk nbiot_lay_npdcch_walk(const struct nbiot_npdcch_walk *walk)
{
    struct nbiot_laid_walk to;
    to.at[NBIOT_WALK_P] = walk->position;
    nbiot_lay_eight(&walk->cell, to.at + NBIOT_WALK_CELL);
    nbiot_lay_npdcch(&walk->grant, to.at + NBIOT_WALK_GRANT);
    to.count = NBIOT_WALK_CONTROL_NUMBERS;
    if (walk->cell.messages != NULL) {
        nbiot_lay_messages(walk->cell.messages, to.at + NBIOT_WALK_CONTROL_NUMBERS);
        to.count = NBIOT_WALK_CONTROL_WITH_MESSAGES;
    }
    return to;
}

static inline struct nbiot_step nbiot_npdcch_step(struct nbiot_npdcch_walk *walk)
{
    struct nbiot_laid_walk w = nbiot_lay_npdcch_walk(walk);
    uint64_t a[NBIOT_STEP_NUMBERS] = {0};
    a[0] = nbiot_step_control(NBIOT_LENT(w), NBIOT_BITMAPS(&walk->cell), NBIOT_WHOLE(a));
    walk->position = w.at[NBIOT_WALK_P];
    return nbiot_read_step(a);
}

/* ---- NPUSCH format 1 */

static inline struct nbiot_uplink_plan nbiot_npusch_plan(const struct nbiot_npusch_grant *grant,
                                                         const struct nbiot_windows *windows)
{
    uint64_t g[NBIOT_UP_NUMBERS], w[NBIOT_WINDOWS_NUMBERS], a[NBIOT_PLAN_UP_NUMBERS] = {0};
    nbiot_lay_npusch(grant, g);
    if (windows == NULL) {
        a[0] = nbiot_plan_up(NBIOT_WHOLE(g), NBIOT_WHOLE(a));
    } else {
        nbiot_lay_windows(windows, w);
        a[0] = nbiot_plan_up_windows(NBIOT_WHOLE(g), NBIOT_WHOLE(w), NBIOT_WHOLE(a));
    }
    return nbiot_read_uplink_plan(a);
}

static inline struct nbiot_uplink_place nbiot_npusch_forward(const struct nbiot_npusch_grant *grant,
                                                             const struct nbiot_windows *windows, uint64_t position)
{
    uint64_t g[NBIOT_UP_NUMBERS], w[NBIOT_WINDOWS_NUMBERS], a[NBIOT_PLACE_UP_NUMBERS] = {0};
    nbiot_lay_npusch(grant, g);
    if (windows == NULL) {
        a[0] = nbiot_forward_up(NBIOT_WHOLE(g), position, NBIOT_WHOLE(a));
    } else {
        nbiot_lay_windows(windows, w);
        a[0] = nbiot_forward_up_windows(NBIOT_WHOLE(g), NBIOT_WHOLE(w), position, NBIOT_WHOLE(a));
    }
    return nbiot_read_uplink_place(a);
}

static inline struct nbiot_back nbiot_npusch_backward(const struct nbiot_npusch_grant *grant,
                                                      const struct nbiot_windows *windows,
                                                      uint64_t slot, uint64_t l, uint64_t k)
{
    uint64_t g[NBIOT_UP_NUMBERS], w[NBIOT_WINDOWS_NUMBERS], a[NBIOT_BACK_UP_NUMBERS] = {0};
    nbiot_lay_npusch(grant, g);
    if (windows == NULL) {
        a[0] = nbiot_backward_up(NBIOT_WHOLE(g), slot, l, k, NBIOT_WHOLE(a));
    } else {
        nbiot_lay_windows(windows, w);
        a[0] = nbiot_backward_up_windows(NBIOT_WHOLE(g), NBIOT_WHOLE(w), slot, l, k, NBIOT_WHOLE(a));
    }
    return nbiot_read_back(a);
}

static inline struct nbiot_step nbiot_npusch_step(struct nbiot_npusch_walk *walk)
{
    uint64_t r[NBIOT_WALK_UP_NUMBERS], w[NBIOT_WINDOWS_NUMBERS], a[NBIOT_STEP_NUMBERS] = {0};
    r[NBIOT_WALK_P] = walk->position;
    nbiot_lay_npusch(&walk->grant, r + NBIOT_WALK_UP_GRANT);
    if (walk->windows == NULL) {
        a[0] = nbiot_step_up(NBIOT_WHOLE(r), NBIOT_WHOLE(a));
    } else {
        nbiot_lay_windows(walk->windows, w);
        a[0] = nbiot_step_up_windows(NBIOT_WHOLE(r), NBIOT_WHOLE(w), NBIOT_WHOLE(a));
    }
    walk->position = r[NBIOT_WALK_P];
    return nbiot_read_step(a);
}

/* ---- Acknowledgements on NPUSCH format 2 */

static inline struct nbiot_uplink_plan nbiot_ack_plan(const struct nbiot_ack_grant *grant,
                                                      const struct nbiot_windows *windows)
{
    uint64_t g[NBIOT_ACK_NUMBERS], w[NBIOT_WINDOWS_NUMBERS], a[NBIOT_PLAN_UP_NUMBERS] = {0};
    nbiot_lay_ack(grant, g);
    if (windows == NULL) {
        a[0] = nbiot_plan_ack(NBIOT_WHOLE(g), NBIOT_WHOLE(a));
    } else {
        nbiot_lay_windows(windows, w);
        a[0] = nbiot_plan_ack_windows(NBIOT_WHOLE(g), NBIOT_WHOLE(w), NBIOT_WHOLE(a));
    }
    return nbiot_read_uplink_plan(a);
}

static inline struct nbiot_uplink_place nbiot_ack_forward(const struct nbiot_ack_grant *grant,
                                                          const struct nbiot_windows *windows, uint64_t position)
{
    uint64_t g[NBIOT_ACK_NUMBERS], w[NBIOT_WINDOWS_NUMBERS], a[NBIOT_PLACE_UP_NUMBERS] = {0};
    nbiot_lay_ack(grant, g);
    if (windows == NULL) {
        a[0] = nbiot_forward_ack(NBIOT_WHOLE(g), position, NBIOT_WHOLE(a));
    } else {
        nbiot_lay_windows(windows, w);
        a[0] = nbiot_forward_ack_windows(NBIOT_WHOLE(g), NBIOT_WHOLE(w), position, NBIOT_WHOLE(a));
    }
    return nbiot_read_uplink_place(a);
}

static inline struct nbiot_back nbiot_ack_backward(const struct nbiot_ack_grant *grant,
                                                   const struct nbiot_windows *windows,
                                                   uint64_t slot, uint64_t l, uint64_t k)
{
    uint64_t g[NBIOT_ACK_NUMBERS], w[NBIOT_WINDOWS_NUMBERS], a[NBIOT_BACK_UP_NUMBERS] = {0};
    nbiot_lay_ack(grant, g);
    if (windows == NULL) {
        a[0] = nbiot_backward_ack(NBIOT_WHOLE(g), slot, l, k, NBIOT_WHOLE(a));
    } else {
        nbiot_lay_windows(windows, w);
        a[0] = nbiot_backward_ack_windows(NBIOT_WHOLE(g), NBIOT_WHOLE(w), slot, l, k, NBIOT_WHOLE(a));
    }
    return nbiot_read_back(a);
}

static inline struct nbiot_step nbiot_ack_step(struct nbiot_ack_walk *walk)
{
    uint64_t r[NBIOT_WALK_ACK_NUMBERS], w[NBIOT_WINDOWS_NUMBERS], a[NBIOT_STEP_NUMBERS] = {0};
    r[NBIOT_WALK_P] = walk->position;
    nbiot_lay_ack(&walk->grant, r + NBIOT_WALK_UP_GRANT);
    if (walk->windows == NULL) {
        a[0] = nbiot_step_ack(NBIOT_WHOLE(r), NBIOT_WHOLE(a));
    } else {
        nbiot_lay_windows(walk->windows, w);
        a[0] = nbiot_step_ack_windows(NBIOT_WHOLE(r), NBIOT_WHOLE(w), NBIOT_WHOLE(a));
    }
    walk->position = r[NBIOT_WALK_P];
    return nbiot_read_step(a);
}

/* ---- The plain engine */

/* Windows as numbers, or none, and how many they are. */
struct nbiot_laid_windows {
    uint64_t at[NBIOT_WINDOWS_NUMBERS];
    size_t count;
};

static inline struct nbiot_laid_windows nbiot_lay_lent(const struct nbiot_windows *windows)
{
    struct nbiot_laid_windows to = {{0}, 0};
    if (windows != NULL) {
        nbiot_lay_windows(windows, to.at);
        to.count = NBIOT_WINDOWS_NUMBERS;
    }
    return to;
}

static inline struct nbiot_downlink_place nbiot_npdsch_forward_plain(const struct nbiot_cell *cell,
                                                                     const struct nbiot_npdsch_grant *grant,
                                                                     uint64_t position)
{
    struct nbiot_laid_cell c = nbiot_lay_cell(cell);
    uint64_t g[NBIOT_DOWN_NUMBERS], a[NBIOT_PLACE_NUMBERS] = {0};
    nbiot_lay_npdsch(grant, g);
    a[0] = nbiot_forward_down_plain(NBIOT_CELL(c, cell), NBIOT_WHOLE(g), position, NBIOT_WHOLE(a));
    return nbiot_read_downlink_place(a);
}

static inline struct nbiot_step nbiot_npdsch_step_plain(struct nbiot_npdsch_walk *walk)
{
    struct nbiot_laid_walk w = nbiot_lay_npdsch_walk(walk);
    uint64_t a[NBIOT_STEP_NUMBERS] = {0};
    a[0] = nbiot_step_down_plain(NBIOT_LENT(w), NBIOT_BITMAPS(&walk->cell), NBIOT_WHOLE(a));
    walk->position = w.at[NBIOT_WALK_P];
    return nbiot_read_step(a);
}

static inline struct nbiot_downlink_place nbiot_npdcch_forward_plain(const struct nbiot_cell *cell,
                                                                     const struct nbiot_npdcch_grant *grant,
                                                                     uint64_t position)
{
    struct nbiot_laid_cell c = nbiot_lay_cell(cell);
    uint64_t g[NBIOT_CONTROL_NUMBERS], a[NBIOT_PLACE_NUMBERS] = {0};
    nbiot_lay_npdcch(grant, g);
    a[0] = nbiot_forward_control_plain(NBIOT_CELL(c, cell), NBIOT_WHOLE(g), position, NBIOT_WHOLE(a));
    return nbiot_read_downlink_place(a);
}

static inline struct nbiot_step nbiot_npdcch_step_plain(struct nbiot_npdcch_walk *walk)
{
    struct nbiot_laid_walk w = nbiot_lay_npdcch_walk(walk);
    uint64_t a[NBIOT_STEP_NUMBERS] = {0};
    a[0] = nbiot_step_control_plain(NBIOT_LENT(w), NBIOT_BITMAPS(&walk->cell), NBIOT_WHOLE(a));
    walk->position = w.at[NBIOT_WALK_P];
    return nbiot_read_step(a);
}

static inline struct nbiot_uplink_place nbiot_npusch_forward_plain(const struct nbiot_npusch_grant *grant,
                                                                   const struct nbiot_windows *windows,
                                                                   uint64_t position)
{
    struct nbiot_laid_windows w = nbiot_lay_lent(windows);
    uint64_t g[NBIOT_UP_NUMBERS], a[NBIOT_PLACE_UP_NUMBERS] = {0};
    nbiot_lay_npusch(grant, g);
    a[0] = nbiot_forward_up_plain(NBIOT_WHOLE(g), NBIOT_LENT(w), position, NBIOT_WHOLE(a));
    return nbiot_read_uplink_place(a);
}

static inline struct nbiot_step nbiot_npusch_step_plain(struct nbiot_npusch_walk *walk)
{
    struct nbiot_laid_windows w = nbiot_lay_lent(walk->windows);
    uint64_t r[NBIOT_WALK_UP_NUMBERS], a[NBIOT_STEP_NUMBERS] = {0};
    r[NBIOT_WALK_P] = walk->position;
    nbiot_lay_npusch(&walk->grant, r + NBIOT_WALK_UP_GRANT);
    a[0] = nbiot_step_up_plain(NBIOT_WHOLE(r), NBIOT_LENT(w), NBIOT_WHOLE(a));
    walk->position = r[NBIOT_WALK_P];
    return nbiot_read_step(a);
}

static inline struct nbiot_uplink_place nbiot_ack_forward_plain(const struct nbiot_ack_grant *grant,
                                                                const struct nbiot_windows *windows,
                                                                uint64_t position)
{
    struct nbiot_laid_windows w = nbiot_lay_lent(windows);
    uint64_t g[NBIOT_ACK_NUMBERS], a[NBIOT_PLACE_UP_NUMBERS] = {0};
    nbiot_lay_ack(grant, g);
    a[0] = nbiot_forward_ack_plain(NBIOT_WHOLE(g), NBIOT_LENT(w), position, NBIOT_WHOLE(a));
    return nbiot_read_uplink_place(a);
}

static inline struct nbiot_step nbiot_ack_step_plain(struct nbiot_ack_walk *walk)
{
    struct nbiot_laid_windows w = nbiot_lay_lent(walk->windows);
    uint64_t r[NBIOT_WALK_ACK_NUMBERS], a[NBIOT_STEP_NUMBERS] = {0};
    r[NBIOT_WALK_P] = walk->position;
    nbiot_lay_ack(&walk->grant, r + NBIOT_WALK_UP_GRANT);
    a[0] = nbiot_step_ack_plain(NBIOT_WHOLE(r), NBIOT_LENT(w), NBIOT_WHOLE(a));
    walk->position = r[NBIOT_WALK_P];
    return nbiot_read_step(a);
}

/* ---- Where NPDCCH may start */

static inline struct nbiot_candidates nbiot_search_space_candidates(const struct nbiot_cell *cell,
                                                                    const struct nbiot_search_space *space)
{
    struct nbiot_laid_cell c = nbiot_lay_cell(cell);
    uint64_t s[NBIOT_SPACE_NUMBERS], a[NBIOT_SEARCH_NUMBERS] = {0};
    struct nbiot_candidates to;
    s[NBIOT_SPACE_N] = space->n;
    s[NBIOT_SPACE_RMAX] = space->rmax;
    s[NBIOT_SPACE_G] = space->g;
    s[NBIOT_SPACE_ALPHA] = space->alpha;
    a[0] = nbiot_search(NBIOT_CELL(c, cell), NBIOT_WHOLE(s), NBIOT_WHOLE(a));
    to.refusal = a[NBIOT_SEARCH_NO];
    to.start = a[NBIOT_SEARCH_START];
    to.count = a[NBIOT_SEARCH_COUNT];
    for (int i = 0; i < 15; i++) {
        const uint64_t *b = a + NBIOT_SEARCH_FIRST + i * NBIOT_CANDIDATE_NUMBERS;
        to.candidate[i].first = b[NBIOT_CANDIDATE_FIRST];
        to.candidate[i].r = b[NBIOT_CANDIDATE_R];
        to.candidate[i].last = b[NBIOT_CANDIDATE_LAST];
    }
    return to;
}

/* ---- The broadcast */

static inline struct nbiot_downlink_place nbiot_npbch_forward(const struct nbiot_cell *cell, uint64_t position)
{
    struct nbiot_laid_cell c = nbiot_lay_cell(cell);
    uint64_t a[NBIOT_PLACE_NUMBERS] = {0};
    a[0] = nbiot_forward_npbch(NBIOT_CELL(c, cell), position, NBIOT_WHOLE(a));
    return nbiot_read_downlink_place(a);
}

static inline struct nbiot_downlink_place nbiot_sib1_forward(const struct nbiot_cell *cell, uint64_t position)
{
    struct nbiot_laid_cell c = nbiot_lay_cell(cell);
    uint64_t a[NBIOT_PLACE_NUMBERS] = {0};
    a[0] = nbiot_forward_sib1(NBIOT_CELL(c, cell), position, NBIOT_WHOLE(a));
    return nbiot_read_downlink_place(a);
}

static inline struct nbiot_back nbiot_npbch_backward(const struct nbiot_cell *cell,
                                                     uint64_t t, uint64_t slot, uint64_t l, uint64_t k)
{
    struct nbiot_laid_cell c = nbiot_lay_cell(cell);
    uint64_t a[NBIOT_BACK_UP_NUMBERS] = {0};
    a[0] = nbiot_backward_npbch(NBIOT_CELL(c, cell), t, slot, l, k, NBIOT_WHOLE(a));
    return nbiot_read_back(a);
}

static inline struct nbiot_back nbiot_sib1_backward(const struct nbiot_cell *cell,
                                                    uint64_t t, uint64_t slot, uint64_t l, uint64_t k)
{
    struct nbiot_laid_cell c = nbiot_lay_cell(cell);
    uint64_t a[NBIOT_BACK_UP_NUMBERS] = {0};
    a[0] = nbiot_backward_sib1(NBIOT_CELL(c, cell), t, slot, l, k, NBIOT_WHOLE(a));
    return nbiot_read_back(a);
}

#undef NBIOT_LENT
#undef NBIOT_BITMAPS
#undef NBIOT_CELL
#undef NBIOT_WHOLE

#endif
