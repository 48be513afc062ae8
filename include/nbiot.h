/*
 * Where each symbol of an NB-IoT grant stands, and what stands at each place of the grid.
 *
 *     struct nbiot_cell cell = {.mode = NBIOT_STANDALONE, .narrowband_ports = 1};
 *     struct nbiot_npdsch_grant grant = {.n = 15, .rmax = 64, .subframes = 6};
 *     struct nbiot_downlink_place at = nbiot_npdsch_forward(&cell, &grant, 60);
 *     if (at.refusal != 0) {
 *         puts(nbiot_refusal_words(at.refusal));
 *     }
 *
 * The answer is subframe at.t, slot at.slot, symbol at.l and subcarrier at.k, where symbol at.symbol of the codeword
 * stands: 21, 0, 5, 1 and 60.
 *
 * Link with libnbiot_c.a, which is for x86-64 and freestanding but for memcpy and memset. Nothing is kept between
 * calls and nothing is allocated; calls may run side by side. The functions below are static inline: they lay the
 * structs out as numbers for the functions that the archive exports, which nbiot_numbers.h declares. A later version
 * may give these more numbers; what is written with the structs stays as it is, if fields that it does not know are
 * set to 0.
 *
 * Every number may be passed in every field: what is bad is refused. Each answer has the number of its refusal, 0 if
 * there is none, and of a refused question all else is 0; a walk and the output of a fill then stay as they were.
 * Times are counted from 0 on and do not turn: t in subframes of 1 ms, slots of the uplink in 0.5 ms at 15 kHz and
 * in 2 ms at 3.75 kHz, slots of the downlink 0 or 1 in their subframe. l is the symbol in a slot, 0 to 6, k the
 * subcarrier.
 */
#ifndef NBIOT_H
#define NBIOT_H

#include <stddef.h>
#include <stdint.h>

/*
 * The refusals. Of those that apply the first in this list is the answer: the order is the list's, not the number's.
 * nbiot_refusal_words has these words; 0 is "accepted", and a number that is not in the list "none". 255 is no
 * answer to what is asked here: it comes before all others, from the functions on numbers alone.
 */
#define NBIOT_REFUSALS(REFUSAL) \
    REFUSAL(1, MODE, "mode above 3 or carrier above 1") \
    REFUSAL(2, IDENTITY, "identity above 503") \
    REFUSAL(3, NARROWBAND_PORTS, "narrowband ports not 1 or 2") \
    REFUSAL(4, CELL_PORTS, "cell ports not 1, 2 or 4 in-band, or not 0 in the other modes") \
    REFUSAL(5, CONTROL_REGION, "control region not 1 to 3 in-band, or not 0 in the other modes") \
    REFUSAL(24, UNEQUAL_PORTS, "mode 0 with cell ports other than the narrowband ports") \
    REFUSAL(6, SIB1_SCHEDULE, "SIB1 schedule above 11") \
    REFUSAL(7, BITMAP, "bitmap length not 0, 10 or 40, its buffer too short, or spare bits set") \
    REFUSAL(21, MESSAGES, \
            "a number of the messages that is not listed, a fifth schedule, or a window longer than its period") \
    REFUSAL(8, NONE_ALLOWED, "the bitmap alone allows no subframe") \
    REFUSAL(18, ALL_TAKEN, "it allows some, and the anchor or its messages take them all") \
    REFUSAL(25, NOT_ANCHOR, "the broadcast of a non-anchor") \
    REFUSAL(9, N, "n above 2^30 - 1, of an acknowledgement above 2^31 - 1") \
    REFUSAL(10, FIELD, "a field above its largest number, or NCCE 1 with format 1") \
    REFUSAL(11, SUBCARRIER, "subcarrier field 48 to 63 at 3.75 kHz, 19 to 63 at 15 kHz") \
    REFUSAL(12, RMAX, "Rmax or NPDCCH copies not a power of two, 1 to 2048") \
    REFUSAL(22, PERIOD, "a search space whose period is below 4 subframes") \
    REFUSAL(23, OFFSET, "a search space whose offset is not below a hyperframe, 10240 subframes") \
    REFUSAL(13, MCS, "MCS 5 to 15") \
    REFUSAL(19, WINDOWS, \
            "a fifth random access window, a number of a window that is not listed, or its tones past 47") \
    REFUSAL(20, NEVER_FREE, "the windows leave no group of slots ever free on the granted tones") \
    REFUSAL(14, NO_SUCH_PLACE, "position or transmitted subframe past the end, or a place outside the grid") \
    REFUSAL(15, LENGTH, "bits not ceil(N * E / 4) bytes, or output not 336 numbers") \
    REFUSAL(16, LEVEL, "level not from 2^-20 to 2^20") \
    REFUSAL(17, TWO_PORTS, "fill asked for two ports") \
    REFUSAL(255, TOO_SHORT, \
            "a cell, grant, walk, windows, search space, answer or amplitudes buffer is too short")

#define NBIOT_REFUSAL_NAME(number, name, words) NBIOT_REFUSED_##name = number,
enum nbiot_refusal { NBIOT_REFUSALS(NBIOT_REFUSAL_NAME) NBIOT_ACCEPTED = 0 };
#undef NBIOT_REFUSAL_NAME

static inline const char *nbiot_refusal_words(uint64_t refusal);

/* ---- A cell */

/* Bytes that are lent: where there are none the pointer may be any, NULL too. */
struct nbiot_bytes {
    const uint8_t *at;
    size_t count;
};

/* System information messages, which take subframes of an anchor. Schedules past the count are not read. */
struct nbiot_schedule {
    uint64_t period; /* frames from window to window: 64 to 4096, a power of two */
    uint64_t every;  /* a copy begins every 2nd, 4th, 8th or 16th frame of a window */
    uint64_t size;   /* subframes of a copy: 2 or 8 */
};

struct nbiot_messages {
    uint64_t window; /* 160, 320, 480, 640, 960, 1280 or 1600 ms */
    uint64_t offset; /* 0 to 15 frames */
    uint64_t count;  /* of schedules, 0 to 4 */
    struct nbiot_schedule schedule[4];
};

enum nbiot_mode { NBIOT_IN_BAND_SAME_IDENTITY, NBIOT_IN_BAND_OTHER_IDENTITY, NBIOT_GUARD_BAND, NBIOT_STANDALONE };
enum nbiot_carrier { NBIOT_ANCHOR, NBIOT_NON_ANCHOR };

struct nbiot_cell {
    uint64_t mode;             /* enum nbiot_mode */
    uint64_t carrier;          /* enum nbiot_carrier */
    uint64_t identity;         /* 0 to 503 */
    uint64_t narrowband_ports; /* 1 or 2 */
    uint64_t cell_ports;       /* in-band of the same identity as the narrowband ports, of another 1, 2 or 4, else 0 */
    uint64_t control_region;   /* 1 to 3 in-band, else 0 */
    uint64_t sib1_schedule;    /* 0 to 11 */
    uint64_t bitmap_length;    /* in bits: 0, which allows every subframe, 10 or 40 */
    struct nbiot_bytes anchor_bitmap;     /* each is read by its own carrier alone; */
    struct nbiot_bytes non_anchor_bitmap; /* the first bit is the highest of byte 0 */
    const struct nbiot_messages *messages; /* NULL: none */
};

/* Why a subframe is not usable: the first of these that applies. */
enum nbiot_subframe_cause {
    NBIOT_CAUSE_NONE, /* usable; or nothing is said, as of a refused cell */
    NBIOT_CAUSE_NPBCH,
    NBIOT_CAUSE_NPSS,
    NBIOT_CAUSE_NSSS,
    NBIOT_CAUSE_SIB1,
    NBIOT_CAUSE_MESSAGE, /* a system information message takes it */
    NBIOT_CAUSE_BITMAP   /* withheld by the bitmap */
};

/* "none", "npbch", "npss", "nsss", "sib1", "message" or "bitmap"; "unknown" of any other number. */
static inline const char *nbiot_cause_name(uint64_t cause);

struct nbiot_subframe {
    uint64_t refusal;
    uint64_t cause; /* enum nbiot_subframe_cause */
};

struct nbiot_eligible {
    uint64_t refusal;
    uint64_t elements; /* E, of one subframe */
};

struct nbiot_bitmap_in_force {
    uint64_t refusal;
    struct nbiot_bytes bytes; /* the first bytes of the carrier's own: 0, 2 or 5 */
};

/* The refusal of a cell, or 0. */
static inline uint64_t nbiot_cell_judge(const struct nbiot_cell *cell);

/* Why subframe t, any t, is not usable. */
static inline struct nbiot_subframe nbiot_cell_cause(const struct nbiot_cell *cell, uint64_t t);

/* How many elements of a subframe are eligible. */
static inline struct nbiot_eligible nbiot_cell_count(const struct nbiot_cell *cell);

static inline struct nbiot_bitmap_in_force nbiot_cell_bitmap(const struct nbiot_cell *cell);

/* ---- The downlink: NPDSCH and NPDCCH */

/* An NPDSCH grant that ends in subframe n. */
struct nbiot_npdsch_grant {
    uint64_t n;         /* 0 to 2^30 - 1 */
    uint64_t delay;     /* field, 0 to 7 */
    uint64_t rmax;      /* the number itself: a power of two, 1 to 2048 */
    uint64_t subframes; /* field, 0 to 7: 1, 2, 3, 4, 5, 6, 8, 10 */
    uint64_t copies;    /* field, 0 to 15: 1 to 2048 */
};

/* An NPDCCH that is sent r times from subframe n on. */
struct nbiot_npdcch_grant {
    uint64_t n;      /* 0 to 2^30 - 1 */
    uint64_t r;      /* the number itself: a power of two, 1 to 2048 */
    uint64_t format; /* 0: one NCCE, 1: both */
    uint64_t ncce;   /* 0 or 1, of format 1 0 */
};

struct nbiot_downlink_plan {
    uint64_t refusal;
    uint64_t first; /* subframe */
    uint64_t last;
    uint64_t copies; /* the number */
    uint64_t places;
};

struct nbiot_downlink_place {
    uint64_t refusal;
    uint64_t t;
    uint64_t slot;
    uint64_t l;
    uint64_t k;
    uint64_t symbol; /* of the codeword */
};

/* What is not one of the grant's places: nothing of these, a narrowband or an uplink reference, a cell reference. */
enum nbiot_kind { NBIOT_KIND_PLAIN, NBIOT_KIND_REFERENCE, NBIOT_KIND_CELL_REFERENCE };

struct nbiot_downlink_back {
    uint64_t refusal;
    uint64_t ours;     /* 1: one of the grant's places, with its symbol and position; 0: not, with its kind */
    uint64_t symbol;
    uint64_t position;
    uint64_t kind;     /* enum nbiot_kind */
    uint64_t cause;    /* enum nbiot_subframe_cause: why the grant skips subframe t between its first and its last */
};

static inline struct nbiot_downlink_plan nbiot_npdsch_plan(const struct nbiot_cell *cell,
                                                           const struct nbiot_npdsch_grant *grant);
static inline struct nbiot_downlink_plan nbiot_npdcch_plan(const struct nbiot_cell *cell,
                                                           const struct nbiot_npdcch_grant *grant);

/* Forward: the place of a position, counted from 0 in time order and then element order, and the symbol there. */
static inline struct nbiot_downlink_place nbiot_npdsch_forward(const struct nbiot_cell *cell,
                                                               const struct nbiot_npdsch_grant *grant,
                                                               uint64_t position);
static inline struct nbiot_downlink_place nbiot_npdcch_forward(const struct nbiot_cell *cell,
                                                               const struct nbiot_npdcch_grant *grant,
                                                               uint64_t position);

/* Backward: what stands at a place. Any t may be asked. */
static inline struct nbiot_downlink_back nbiot_npdsch_backward(const struct nbiot_cell *cell,
                                                               const struct nbiot_npdsch_grant *grant,
                                                               uint64_t t, uint64_t slot, uint64_t l, uint64_t k);
static inline struct nbiot_downlink_back nbiot_npdcch_backward(const struct nbiot_cell *cell,
                                                               const struct nbiot_npdcch_grant *grant,
                                                               uint64_t t, uint64_t slot, uint64_t l, uint64_t k);

/*
 * Walk: the places of a grant one after the other. A step judges the record anew, answers what forward answers at
 * the position and moves the position on. At the end it answers finished and moves nothing.
 */
struct nbiot_npdsch_walk {
    uint64_t position; /* starts at 0 */
    struct nbiot_cell cell;
    struct nbiot_npdsch_grant grant;
};

struct nbiot_npdcch_walk {
    uint64_t position;
    struct nbiot_cell cell;
    struct nbiot_npdcch_grant grant;
};

struct nbiot_step {
    uint64_t refusal;
    uint64_t finished; /* 1 at the end, with zeros */
    uint64_t t;        /* of the uplink 0 */
    uint64_t slot;
    uint64_t l;
    uint64_t k;
    uint64_t symbol;
};

static inline struct nbiot_step nbiot_npdsch_step(struct nbiot_npdsch_walk *walk);
static inline struct nbiot_step nbiot_npdcch_step(struct nbiot_npdcch_walk *walk);

/* ---- The uplink: NPUSCH format 1, and acknowledgements on format 2 */

enum nbiot_spacing { NBIOT_3_75_KHZ, NBIOT_15_KHZ };

/* A grant of NPUSCH format 1 that ends in subframe n. */
struct nbiot_npusch_grant {
    uint64_t n;          /* 0 to 2^30 - 1 */
    uint64_t spacing;    /* enum nbiot_spacing */
    uint64_t subcarrier; /* field, 0 to 47 at 3.75 kHz, 0 to 18 at 15 kHz */
    uint64_t units;      /* field, 0 to 7: 1, 2, 3, 4, 5, 6, 8, 10 resource units */
    uint64_t copies;     /* field, 0 to 7: 1 to 128 */
    uint64_t delay;      /* field, 0 to 3: 8, 16, 32, 64 */
    uint64_t mcs;        /* 0 to 4 */
};

/* The acknowledgement of an NPDSCH whose last subframe is n. */
struct nbiot_ack_grant {
    uint64_t n;       /* 0 to 2^31 - 1 */
    uint64_t spacing; /* enum nbiot_spacing */
    uint64_t field;   /* of tone and delay, 0 to 15 */
    uint64_t copies;  /* field, 0 to 7: 1 to 128 */
};

/* Random access windows, which postpone uplink slots. Windows past the count are not read. */
struct nbiot_window {
    uint64_t period; /* 40, 80, 160, 320, 640, 1280 or 2560 ms */
    uint64_t start;  /* 8 to 1024 ms, a power of two: windows begin at every ms equal to it modulo the period */
    uint64_t length; /* in 1/30720 ms: 172032 or 196608, times a power of two up to 64 */
    uint64_t tone;   /* the first of 12 tones at 3.75 kHz, 0 to 36; a 15 kHz tone k covers 4k to 4k + 3 */
};

struct nbiot_windows {
    uint64_t count; /* 0 to 4 */
    struct nbiot_window window[4];
};

struct nbiot_uplink_plan {
    uint64_t refusal;
    uint64_t first; /* slot */
    uint64_t last;
    uint64_t copies; /* the number */
    uint64_t places;
    uint64_t size;  /* transport block size */
    uint64_t order; /* modulation order */
};

struct nbiot_uplink_place {
    uint64_t refusal;
    uint64_t slot;
    uint64_t l;
    uint64_t k;
    uint64_t symbol; /* of the codeword */
};

struct nbiot_back {
    uint64_t refusal;
    uint64_t ours;     /* 1: one of the places, with its symbol and position; 0: not, with its kind */
    uint64_t symbol;
    uint64_t position;
    uint64_t kind;     /* enum nbiot_kind */
};

/* Windows may be NULL here and in the walks: none. */
static inline struct nbiot_uplink_plan nbiot_npusch_plan(const struct nbiot_npusch_grant *grant,
                                                         const struct nbiot_windows *windows);
static inline struct nbiot_uplink_plan nbiot_ack_plan(const struct nbiot_ack_grant *grant,
                                                      const struct nbiot_windows *windows);

static inline struct nbiot_uplink_place nbiot_npusch_forward(const struct nbiot_npusch_grant *grant,
                                                             const struct nbiot_windows *windows, uint64_t position);
static inline struct nbiot_uplink_place nbiot_ack_forward(const struct nbiot_ack_grant *grant,
                                                          const struct nbiot_windows *windows, uint64_t position);

static inline struct nbiot_back nbiot_npusch_backward(const struct nbiot_npusch_grant *grant,
                                                      const struct nbiot_windows *windows,
                                                      uint64_t slot, uint64_t l, uint64_t k);
static inline struct nbiot_back nbiot_ack_backward(const struct nbiot_ack_grant *grant,
                                                   const struct nbiot_windows *windows,
                                                   uint64_t slot, uint64_t l, uint64_t k);

struct nbiot_npusch_walk {
    uint64_t position;
    struct nbiot_npusch_grant grant;
    const struct nbiot_windows *windows;
};

struct nbiot_ack_walk {
    uint64_t position;
    struct nbiot_ack_grant grant;
    const struct nbiot_windows *windows;
};

static inline struct nbiot_step nbiot_npusch_step(struct nbiot_npusch_walk *walk);
static inline struct nbiot_step nbiot_ack_step(struct nbiot_ack_walk *walk);

/*
 * ---- The plain engine, for acceptance tests
 *
 * Forward and step once more, by an engine that uses none of the quick search. It goes one subframe or slot at a time,
 * so that its time grows with the way to the position. On every input it answers what the other one does.
 */
static inline struct nbiot_downlink_place nbiot_npdsch_forward_plain(const struct nbiot_cell *cell,
                                                                     const struct nbiot_npdsch_grant *grant,
                                                                     uint64_t position);
static inline struct nbiot_downlink_place nbiot_npdcch_forward_plain(const struct nbiot_cell *cell,
                                                                     const struct nbiot_npdcch_grant *grant,
                                                                     uint64_t position);
static inline struct nbiot_uplink_place nbiot_npusch_forward_plain(const struct nbiot_npusch_grant *grant,
                                                                   const struct nbiot_windows *windows,
                                                                   uint64_t position);
static inline struct nbiot_uplink_place nbiot_ack_forward_plain(const struct nbiot_ack_grant *grant,
                                                                const struct nbiot_windows *windows,
                                                                uint64_t position);
static inline struct nbiot_step nbiot_npdsch_step_plain(struct nbiot_npdsch_walk *walk);
static inline struct nbiot_step nbiot_npdcch_step_plain(struct nbiot_npdcch_walk *walk);
static inline struct nbiot_step nbiot_npusch_step_plain(struct nbiot_npusch_walk *walk);
static inline struct nbiot_step nbiot_ack_step_plain(struct nbiot_ack_walk *walk);

/* ---- Where NPDCCH may start */

/* A UE-specific search space, asked from subframe n on. */
struct nbiot_search_space {
    uint64_t n;     /* 0 to 2^30 - 1 */
    uint64_t rmax;  /* the number itself: a power of two, 1 to 2048 */
    uint64_t g;     /* field, 0 to 7: 1.5, 2, 4, 8, 16, 32, 48, 64; the period is rmax times it, in subframes */
    uint64_t alpha; /* field, 0 to 3: the offset is 0, 1/8, 1/4 or 3/8 of the period, rounded down */
};

struct nbiot_candidate {
    uint64_t first; /* subframe: the n of an NPDCCH grant */
    uint64_t r;     /* how often it is sent: its r */
    uint64_t last;  /* subframe: the n of the grant that it orders */
};

/* All candidates of format 1 from the start on, by their first subframe and then by R; past the count all are 0. */
struct nbiot_candidates {
    uint64_t refusal;
    uint64_t start; /* the first start not before n, which need not be usable */
    uint64_t count; /* 1, 3, 7 or 15 */
    struct nbiot_candidate candidate[15];
};

static inline struct nbiot_candidates nbiot_search_space_candidates(const struct nbiot_cell *cell,
                                                                    const struct nbiot_search_space *space);

/*
 * ---- The broadcast: NPBCH and SIB1, which an anchor sends by itself
 *
 * Forward has the places of one period from subframe 0 on, 64 frames of NPBCH (6400 places) and 256 of SIB1.
 * Backward takes any subframe by its number in its period. NPBCH's elements and kinds are always those of a cell in-
 * band with two narrowband ports, four cell ports and a control region of 3.
 */
static inline struct nbiot_downlink_place nbiot_npbch_forward(const struct nbiot_cell *cell, uint64_t position);
static inline struct nbiot_downlink_place nbiot_sib1_forward(const struct nbiot_cell *cell, uint64_t position);
static inline struct nbiot_back nbiot_npbch_backward(const struct nbiot_cell *cell,
                                                     uint64_t t, uint64_t slot, uint64_t l, uint64_t k);
static inline struct nbiot_back nbiot_sib1_backward(const struct nbiot_cell *cell,
                                                    uint64_t t, uint64_t slot, uint64_t l, uint64_t k);

/*
 * ---- The numbers of a transmitted subframe of an NPDSCH, on one port
 *
 * QPSK from the bits of the whole codeword, the first bit the highest of byte 0: two bits a symbol, N * E symbols for
 * N subframes with E eligible elements each (a plan's places by its copies), rounded up to whole bytes. i counts the
 * transmitted subframes from 0 on. The processor has to round to nearest, as usual, and not to trap floating-point
 * exceptions.
 */

/* at[slot][l][k][0] is the real number of an element, at[slot][l][k][1] the imaginary one; +0 where not ours. */
struct nbiot_numbers {
    float at[2][7][12][2];
};

enum nbiot_state { NBIOT_STATE_SILENT, NBIOT_STATE_REFERENCE, NBIOT_STATE_CELL_REFERENCE, NBIOT_STATE_SYMBOL = 4 };

struct nbiot_amplitude {
    uint64_t refusal;
    uint64_t state; /* enum nbiot_state */
    float re;       /* of a symbol, else +0 */
    float im;
};

/* The refusal, or 0 and all of the output written. */
static inline uint64_t nbiot_npdsch_fill(const struct nbiot_cell *cell, const struct nbiot_npdsch_grant *grant,
                                         uint64_t i, struct nbiot_bytes bits, float level,
                                         struct nbiot_numbers *output);

/* One element of it. */
static inline struct nbiot_amplitude nbiot_npdsch_element(const struct nbiot_cell *cell,
                                                          const struct nbiot_npdsch_grant *grant,
                                                          uint64_t i, uint64_t slot, uint64_t l, uint64_t k,
                                                          struct nbiot_bytes bits, float level);

#include "nbiot_inline.h"

#endif
