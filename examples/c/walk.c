/*
 * Plans an NPDSCH grant, says why subframes are skipped, walks it to its end, fills its first subframe, and plans its
 * acknowledgement, without random access windows and with one.
 */
#include "nbiot.h"

#include <inttypes.h>
#include <stdio.h>

/* A standalone anchor, identity 0, one port, no bitmap; a grant of 8 subframes that ends in subframe 15. */
static const struct nbiot_cell cell = {.mode = NBIOT_STANDALONE, .carrier = NBIOT_ANCHOR, .narrowband_ports = 1};
static const struct nbiot_npdsch_grant grant = {.n = 15, .rmax = 64, .subframes = 6};

static int refused(const char *what, uint64_t no)
{
    if (no != 0) {
        printf("%s: refused, %" PRIu64 ": %s\n", what, no, nbiot_refusal_words(no));
    }
    return no != 0;
}

static int plan(struct nbiot_downlink_plan *to)
{
    *to = nbiot_npdsch_plan(&cell, &grant);
    if (refused("plan", to->refusal)) {
        return 1;
    }
    printf("plan: subframes %" PRIu64 " to %" PRIu64 ", copies %" PRIu64 ", places %" PRIu64 "\n",
           to->first, to->last, to->copies, to->places);
    return 0;
}

/* Each subframe between the first and the last that is not sent: backward hands on the cell's cause. */
static int skipped(uint64_t first, uint64_t last)
{
    for (uint64_t t = first; t <= last; t++) {
        struct nbiot_subframe subframe = nbiot_cell_cause(&cell, t);
        struct nbiot_downlink_back back = nbiot_npdsch_backward(&cell, &grant, t, 0, 0, 0);
        if (refused("cause", subframe.refusal) || refused("backward", back.refusal) || subframe.cause != back.cause) {
            return 1;
        }
        if (subframe.cause != NBIOT_CAUSE_NONE) {
            printf("skipped: subframe %" PRIu64 ", cause %s\n", t, nbiot_cause_name(subframe.cause));
        }
    }
    return 0;
}

/* Every place asked back: it is ours, with the walk's position and symbol. */
static int agrees(uint64_t position, const struct nbiot_step *at)
{
    struct nbiot_downlink_back back = nbiot_npdsch_backward(&cell, &grant, at->t, at->slot, at->l, at->k);
    return back.refusal == 0 && back.ours && back.position == position && back.symbol == at->symbol;
}

static int walk(uint64_t places)
{
    struct nbiot_npdsch_walk record = {.cell = cell, .grant = grant};
    uint64_t subframe = 0;
    for (;;) {
        uint64_t position = record.position;
        struct nbiot_step at = nbiot_npdsch_step(&record);
        if (refused("step", at.refusal)) {
            return 1;
        }
        if (at.finished) {
            printf("walk: finished at %" PRIu64 " of %" PRIu64 "\n", position, places);
            return position != places;
        }
        if (!agrees(position, &at)) {
            printf("walk: backward differs at %" PRIu64 "\n", position);
            return 1;
        }
        if (at.t != subframe) {
            subframe = at.t;
            printf("walk: position %" PRIu64 " is subframe %" PRIu64 ", slot %" PRIu64 ", l %" PRIu64 ", k %" PRIu64
                   ", symbol %" PRIu64 "\n",
                   position, at.t, at.slot, at.l, at.k, at.symbol);
        }
    }
}

/* 8 subframes of 160 symbols need 320 bytes. */
static int fill(void)
{
    static const uint8_t codeword[320] = {0x1b};
    static struct nbiot_numbers out;
    const struct nbiot_bytes bits = {codeword, sizeof codeword};
    if (refused("fill", nbiot_npdsch_fill(&cell, &grant, 0, bits, 1.0f, &out))) {
        return 1;
    }
    for (int k = 0; k < 4; k++) {
        printf("fill: slot 0, l 0, k %d is %+.7f %+.7fi\n", k, (double)out.at[0][0][k][0], (double)out.at[0][0][k][1]);
    }
    struct nbiot_amplitude element = nbiot_npdsch_element(&cell, &grant, 0, 0, 5, 0, bits, 1.0f);
    if (refused("element", element.refusal)) {
        return 1;
    }
    printf("element: slot 0, l 5, k 0 has state %" PRIu64 "\n", element.state);
    return 0;
}

/* A window of 22.4 ms at 32, 112, 192 ms and so on, on tones 0 to 11. */
static const struct nbiot_windows windows = {
    .count = 1,
    .window = {{.period = 80, .start = 32, .length = 688128, .tone = 0}},
};

static int acknowledge(const char *name, uint64_t n, const struct nbiot_windows *beside)
{
    const struct nbiot_ack_grant ack = {.n = n, .spacing = NBIOT_15_KHZ};
    struct nbiot_uplink_plan to = nbiot_ack_plan(&ack, beside);
    if (refused(name, to.refusal)) {
        return 1;
    }
    printf("%s: slots %" PRIu64 " to %" PRIu64 ", places %" PRIu64 "\n", name, to.first, to.last, to.places);
    return 0;
}

int main(void)
{
    struct nbiot_downlink_plan p;
    return plan(&p) || skipped(p.first, p.last) || walk(p.places) || fill() ||
           acknowledge("acknowledgement", p.last, NULL) ||
           acknowledge("acknowledgement beside a window", p.last, &windows);
}
