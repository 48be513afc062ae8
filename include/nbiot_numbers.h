/*
 * The functions that libnbiot_c.a exports, on buffers of numbers. nbiot.h includes this file and has a function over
 * structs for each question: use those, unless every buffer is to be your own. What is asked and answered is said
 * there, and the numbers of refusals, causes, kinds and states are named there.
 *
 * Buffers. Each goes with the number of its elements. A pointer points to that many; where there are none it may be
 * any, NULL too. Buffers that are written overlap no other buffer of the call.
 *
 * Every function returns a refusal number, 0 if there is none. A buffer of a cell, grant, walk, windows, search
 * space, answer or amplitudes that is too short is 255, judged before all others, and then nothing is written. Any
 * other refused call answers its number and zeros in the answer; output and walk stay as they were. A buffer that is
 * longer than needed keeps its rest, so that a later version may answer more numbers.
 */
#ifndef NBIOT_NUMBERS_H
#define NBIOT_NUMBERS_H

#include <stddef.h>
#include <stdint.h>

#ifdef __cplusplus
extern "C" {
#endif

#define NBIOT_TOO_SHORT 255

/*
 * System information messages, which take subframes of an anchor: the window's length and offset, a count up to 4,
 * then four schedules; those past the count are not read. Schedule i, from 0, has its numbers from
 * NBIOT_MESSAGES_FIRST + i * NBIOT_SCHEDULE_NUMBERS on.
 */
enum {
    NBIOT_SCHEDULE_PERIOD, /* frames from window to window: 64 to 4096, a power of two */
    NBIOT_SCHEDULE_EVERY,  /* a copy begins every 2nd, 4th, 8th or 16th frame of a window */
    NBIOT_SCHEDULE_SIZE,   /* subframes of a copy: 2 or 8 */
    NBIOT_SCHEDULE_NUMBERS
};

enum {
    NBIOT_MESSAGES_WINDOW, /* 160, 320, 480, 640, 960, 1280 or 1600 ms */
    NBIOT_MESSAGES_OFFSET, /* 0 to 15 frames */
    NBIOT_MESSAGES_COUNT,
    NBIOT_MESSAGES_FIRST,
    NBIOT_MESSAGES_NUMBERS = NBIOT_MESSAGES_FIRST + 4 * NBIOT_SCHEDULE_NUMBERS
};

/*
 * A cell's numbers: eight, or these and the messages' fifteen. A buffer of 8 to 22 numbers is read as eight, for
 * which no message is sent; one of 23 or more has messages. Until the version that knows messages a longer buffer was
 * read as eight.
 */
enum {
    NBIOT_CELL_MODE,     /* 0 in-band same identity, 1 in-band different identity, 2 guard band, 3 standalone */
    NBIOT_CELL_CARRIER,  /* 0 anchor, 1 non-anchor */
    NBIOT_CELL_IDENTITY, /* 0 to 503 */
    NBIOT_CELL_NPORTS,   /* narrowband reference ports, 1 or 2 */
    NBIOT_CELL_CPORTS,   /* cell reference ports: in mode 0 as the narrowband ports, in mode 1 1, 2 or 4, else 0 */
    NBIOT_CELL_CONTROL,  /* control region: 1 to 3 in-band, else 0 */
    NBIOT_CELL_SIB1,     /* SIB1 schedule, 0 to 11 */
    NBIOT_CELL_BITS,     /* bitmap length: 0, 10 or 40 */
    NBIOT_CELL_NUMBERS,
    NBIOT_CELL_MESSAGES = NBIOT_CELL_NUMBERS,
    NBIOT_CELL_WITH_MESSAGES = NBIOT_CELL_MESSAGES + NBIOT_MESSAGES_NUMBERS
};

/* An NPUSCH format 1 grant. It ends in subframe n; the rest are fields of the grant. */
enum {
    NBIOT_UP_N,
    NBIOT_UP_SPACING,    /* 0: 3.75 kHz, 1: 15 kHz */
    NBIOT_UP_SUBCARRIER,
    NBIOT_UP_UNITS,
    NBIOT_UP_COPIES,
    NBIOT_UP_DELAY,
    NBIOT_UP_MCS,
    NBIOT_UP_NUMBERS
};

/* An acknowledgement on NPUSCH format 2 of an NPDSCH that ends in subframe n. The rest are fields. */
enum {
    NBIOT_ACK_N,
    NBIOT_ACK_SPACING,   /* 0: 3.75 kHz, 1: 15 kHz */
    NBIOT_ACK_FIELD,     /* the 4-bit field of tone and delay */
    NBIOT_ACK_COPIES,
    NBIOT_ACK_NUMBERS
};

/*
 * Random access windows, which postpone uplink slots: a count up to 4, then four windows; those past the count are
 * not read, but the buffer has all 17 numbers. Window i, from 0, has its numbers from NBIOT_WINDOWS_FIRST + i *
 * NBIOT_WINDOW_NUMBERS on. Each uplink function is here twice: by its short name it knows no window; where the name
 * ends in _windows they are lent, after the grant or the walk. Lent a buffer of no numbers or a count of 0, that one
 * answers what the short one does.
 */
enum {
    NBIOT_WINDOW_PERIOD, /* 40, 80, 160, 320, 640, 1280 or 2560 ms */
    NBIOT_WINDOW_START,  /* 8 to 1024 ms, a power of two: windows begin at every t equal to it modulo the period */
    NBIOT_WINDOW_LENGTH, /* in 1/30720 ms: 172032 or 196608, times a power of two up to 64 */
    NBIOT_WINDOW_TONE,   /* the first of 12 tones at 3.75 kHz, 0 to 36; a 15 kHz tone k covers 4k to 4k + 3 */
    NBIOT_WINDOW_NUMBERS
};

enum {
    NBIOT_WINDOWS_COUNT,
    NBIOT_WINDOWS_FIRST,
    NBIOT_WINDOWS_NUMBERS = NBIOT_WINDOWS_FIRST + 4 * NBIOT_WINDOW_NUMBERS
};

/* An NPDSCH grant that ends in subframe n. Delay, subframes and copies are fields, rmax is the number itself. */
enum {
    NBIOT_DOWN_N,
    NBIOT_DOWN_DELAY,
    NBIOT_DOWN_RMAX,
    NBIOT_DOWN_SUBFRAMES,
    NBIOT_DOWN_COPIES,
    NBIOT_DOWN_NUMBERS
};

/* An NPDCCH sent r times from subframe n on. */
enum {
    NBIOT_CONTROL_N,
    NBIOT_CONTROL_R,
    NBIOT_CONTROL_FORMAT, /* 0: one NCCE, 1: both */
    NBIOT_CONTROL_NCCE,
    NBIOT_CONTROL_NUMBERS
};

/* A UE-specific search space of NPDCCH, asked from subframe n on. G and the offset are fields, rmax is a number. */
enum {
    NBIOT_SPACE_N,
    NBIOT_SPACE_RMAX,
    NBIOT_SPACE_G,     /* 0 to 7: 1.5, 2, 4, 8, 16, 32, 48, 64; the period is rmax times it, in subframes */
    NBIOT_SPACE_ALPHA, /* 0 to 3: the offset is 0, 1/8, 1/4 or 3/8 of the period, rounded down */
    NBIOT_SPACE_NUMBERS
};

/*
 * Judge a cell. The anchor's bitmap and the non-anchor's are lent; only the carrier's own is read. The first bit is
 * the highest of byte 0.
 */
uint64_t nbiot_judge(const uint64_t *cell, size_t cell_len,
                     const uint8_t *anchor, size_t anchor_len,
                     const uint8_t *other, size_t other_len);

/*
 * The bitmap in force. It is not copied: the answer names the buffer that it is a part of and its bytes, from the
 * buffer's first on.
 */
enum {
    NBIOT_BITMAP_NO,
    NBIOT_BITMAP_BUFFER, /* 0 anchor, 1 other */
    NBIOT_BITMAP_BYTES,  /* 0, 2 or 5 */
    NBIOT_BITMAP_NUMBERS
};

uint64_t nbiot_bitmap(const uint64_t *cell, size_t cell_len,
                      const uint8_t *anchor, size_t anchor_len,
                      const uint8_t *other, size_t other_len,
                      uint64_t *answer, size_t answer_len);

/* E: how many elements of a subframe are eligible. */
enum {
    NBIOT_COUNT_NO,
    NBIOT_COUNT_E,
    NBIOT_COUNT_NUMBERS
};

uint64_t nbiot_count(const uint64_t *cell, size_t cell_len,
                     const uint8_t *anchor, size_t anchor_len,
                     const uint8_t *other, size_t other_len,
                     uint64_t *answer, size_t answer_len);

/* The cause of subframe t, any t. */
enum {
    NBIOT_SUBFRAME_NO,
    NBIOT_SUBFRAME_CAUSE,
    NBIOT_SUBFRAME_NUMBERS
};

uint64_t nbiot_cause(const uint64_t *cell, size_t cell_len,
                     const uint8_t *anchor, size_t anchor_len,
                     const uint8_t *other, size_t other_len, uint64_t t,
                     uint64_t *answer, size_t answer_len);

/* Plan a grant. An uplink plan counts slots, a downlink plan subframes and has no size and order. */
enum {
    NBIOT_PLAN_NO,
    NBIOT_PLAN_FIRST,
    NBIOT_PLAN_LAST,
    NBIOT_PLAN_COPIES,
    NBIOT_PLAN_PLACES,
    NBIOT_PLAN_DOWN_NUMBERS,
    NBIOT_PLAN_SIZE = NBIOT_PLAN_DOWN_NUMBERS, /* transport block size */
    NBIOT_PLAN_ORDER,                          /* modulation order */
    NBIOT_PLAN_UP_NUMBERS
};

uint64_t nbiot_plan_up(const uint64_t *grant, size_t grant_len,
                       uint64_t *answer, size_t answer_len);

uint64_t nbiot_plan_up_windows(const uint64_t *grant, size_t grant_len,
                               const uint64_t *windows, size_t windows_len,
                               uint64_t *answer, size_t answer_len);

uint64_t nbiot_plan_ack(const uint64_t *grant, size_t grant_len,
                        uint64_t *answer, size_t answer_len);

uint64_t nbiot_plan_ack_windows(const uint64_t *grant, size_t grant_len,
                                const uint64_t *windows, size_t windows_len,
                                uint64_t *answer, size_t answer_len);

uint64_t nbiot_plan_down(const uint64_t *cell, size_t cell_len,
                         const uint8_t *anchor, size_t anchor_len,
                         const uint8_t *other, size_t other_len,
                         const uint64_t *grant, size_t grant_len,
                         uint64_t *answer, size_t answer_len);

uint64_t nbiot_plan_control(const uint64_t *cell, size_t cell_len,
                            const uint8_t *anchor, size_t anchor_len,
                            const uint8_t *other, size_t other_len,
                            const uint64_t *grant, size_t grant_len,
                            uint64_t *answer, size_t answer_len);

/* Forward: the place of position p, counted in time order and then element order, and the codeword symbol there. */
enum {
    NBIOT_PLACE_UP_NO,
    NBIOT_PLACE_UP_SLOT,
    NBIOT_PLACE_UP_L,
    NBIOT_PLACE_UP_K,
    NBIOT_PLACE_UP_SYMBOL,
    NBIOT_PLACE_UP_NUMBERS
};

enum {
    NBIOT_PLACE_NO,
    NBIOT_PLACE_T, /* subframe */
    NBIOT_PLACE_SLOT,
    NBIOT_PLACE_L,
    NBIOT_PLACE_K,
    NBIOT_PLACE_SYMBOL,
    NBIOT_PLACE_NUMBERS
};

uint64_t nbiot_forward_up(const uint64_t *grant, size_t grant_len, uint64_t p,
                          uint64_t *answer, size_t answer_len);

uint64_t nbiot_forward_up_windows(const uint64_t *grant, size_t grant_len,
                                  const uint64_t *windows, size_t windows_len, uint64_t p,
                                  uint64_t *answer, size_t answer_len);

uint64_t nbiot_forward_ack(const uint64_t *grant, size_t grant_len, uint64_t p,
                           uint64_t *answer, size_t answer_len);

uint64_t nbiot_forward_ack_windows(const uint64_t *grant, size_t grant_len,
                                   const uint64_t *windows, size_t windows_len, uint64_t p,
                                   uint64_t *answer, size_t answer_len);

uint64_t nbiot_forward_down(const uint64_t *cell, size_t cell_len,
                            const uint8_t *anchor, size_t anchor_len,
                            const uint8_t *other, size_t other_len,
                            const uint64_t *grant, size_t grant_len, uint64_t p,
                            uint64_t *answer, size_t answer_len);

uint64_t nbiot_forward_control(const uint64_t *cell, size_t cell_len,
                               const uint8_t *anchor, size_t anchor_len,
                               const uint8_t *other, size_t other_len,
                               const uint64_t *grant, size_t grant_len, uint64_t p,
                               uint64_t *answer, size_t answer_len);

/*
 * Backward: what stands at symbol l and subcarrier k of a slot, in the downlink of a slot of subframe t. In the
 * downlink the last number is the cause that makes a subframe between the first and the last one sent unusable;
 * elsewhere there is none.
 */
enum {
    NBIOT_BACK_NO,
    NBIOT_BACK_OURS,     /* 1: one of the grant's places, with its symbol and position; 0: not */
    NBIOT_BACK_SYMBOL,
    NBIOT_BACK_POSITION,
    NBIOT_BACK_KIND,     /* not ours: 0 plain, 1 narrowband or uplink reference, 2 cell reference */
    NBIOT_BACK_UP_NUMBERS,
    NBIOT_BACK_CAUSE = NBIOT_BACK_UP_NUMBERS,
    NBIOT_BACK_NUMBERS
};

uint64_t nbiot_backward_up(const uint64_t *grant, size_t grant_len,
                           uint64_t slot, uint64_t l, uint64_t k,
                           uint64_t *answer, size_t answer_len);

uint64_t nbiot_backward_up_windows(const uint64_t *grant, size_t grant_len,
                                   const uint64_t *windows, size_t windows_len,
                                   uint64_t slot, uint64_t l, uint64_t k,
                                   uint64_t *answer, size_t answer_len);

uint64_t nbiot_backward_ack(const uint64_t *grant, size_t grant_len,
                            uint64_t slot, uint64_t l, uint64_t k,
                            uint64_t *answer, size_t answer_len);

uint64_t nbiot_backward_ack_windows(const uint64_t *grant, size_t grant_len,
                                    const uint64_t *windows, size_t windows_len,
                                    uint64_t slot, uint64_t l, uint64_t k,
                                    uint64_t *answer, size_t answer_len);

uint64_t nbiot_backward_down(const uint64_t *cell, size_t cell_len,
                             const uint8_t *anchor, size_t anchor_len,
                             const uint8_t *other, size_t other_len,
                             const uint64_t *grant, size_t grant_len,
                             uint64_t t, uint64_t slot, uint64_t l, uint64_t k,
                             uint64_t *answer, size_t answer_len);

uint64_t nbiot_backward_control(const uint64_t *cell, size_t cell_len,
                                const uint8_t *anchor, size_t anchor_len,
                                const uint8_t *other, size_t other_len,
                                const uint64_t *grant, size_t grant_len,
                                uint64_t t, uint64_t slot, uint64_t l, uint64_t k,
                                uint64_t *answer, size_t answer_len);

/*
 * Walk: the places of a grant one after the other. The record is the caller's: the position, which starts at 0, in
 * the downlink the cell's eight numbers, then the grant's, and after it in the downlink the messages' fifteen, if the
 * record has room for them. A step judges the record anew, answers what forward answers at the position and moves the
 * position on; the other numbers stay. At the end it answers finished and moves nothing. An uplink step has t 0.
 */
enum {
    NBIOT_WALK_P,
    NBIOT_WALK_UP_GRANT,
    NBIOT_WALK_CELL = NBIOT_WALK_UP_GRANT,
    NBIOT_WALK_GRANT = NBIOT_WALK_CELL + NBIOT_CELL_NUMBERS,
    NBIOT_WALK_UP_NUMBERS = NBIOT_WALK_UP_GRANT + NBIOT_UP_NUMBERS,
    NBIOT_WALK_ACK_NUMBERS = NBIOT_WALK_UP_GRANT + NBIOT_ACK_NUMBERS,
    NBIOT_WALK_DOWN_NUMBERS = NBIOT_WALK_GRANT + NBIOT_DOWN_NUMBERS,
    NBIOT_WALK_CONTROL_NUMBERS = NBIOT_WALK_GRANT + NBIOT_CONTROL_NUMBERS,
    NBIOT_WALK_DOWN_WITH_MESSAGES = NBIOT_WALK_DOWN_NUMBERS + NBIOT_MESSAGES_NUMBERS,
    NBIOT_WALK_CONTROL_WITH_MESSAGES = NBIOT_WALK_CONTROL_NUMBERS + NBIOT_MESSAGES_NUMBERS
};

enum {
    NBIOT_STEP_NO,
    NBIOT_STEP_FINISHED, /* 1 at the end, with zeros */
    NBIOT_STEP_T,
    NBIOT_STEP_SLOT,
    NBIOT_STEP_L,
    NBIOT_STEP_K,
    NBIOT_STEP_SYMBOL,
    NBIOT_STEP_NUMBERS
};

uint64_t nbiot_step_up(uint64_t *walk, size_t walk_len,
                       uint64_t *answer, size_t answer_len);

uint64_t nbiot_step_up_windows(uint64_t *walk, size_t walk_len,
                               const uint64_t *windows, size_t windows_len,
                               uint64_t *answer, size_t answer_len);

uint64_t nbiot_step_ack(uint64_t *walk, size_t walk_len,
                        uint64_t *answer, size_t answer_len);

uint64_t nbiot_step_ack_windows(uint64_t *walk, size_t walk_len,
                                const uint64_t *windows, size_t windows_len,
                                uint64_t *answer, size_t answer_len);

uint64_t nbiot_step_down(uint64_t *walk, size_t walk_len,
                         const uint8_t *anchor, size_t anchor_len,
                         const uint8_t *other, size_t other_len,
                         uint64_t *answer, size_t answer_len);

uint64_t nbiot_step_control(uint64_t *walk, size_t walk_len,
                            const uint8_t *anchor, size_t anchor_len,
                            const uint8_t *other, size_t other_len,
                            uint64_t *answer, size_t answer_len);

/*
 * The plain engine, for acceptance tests: forward and step once more, by an engine that uses none of the quick
 * search. It goes one subframe or slot at a time and keeps only that number and running counts, so that its time
 * grows with the way to the position. On every input each of these functions returns, answers and leaves what the
 * function without _plain does; an uplink one what the one that ends in _windows does, where windows of no numbers
 * are no window.
 */
uint64_t nbiot_forward_up_plain(const uint64_t *grant, size_t grant_len,
                                const uint64_t *windows, size_t windows_len, uint64_t p,
                                uint64_t *answer, size_t answer_len);

uint64_t nbiot_forward_ack_plain(const uint64_t *grant, size_t grant_len,
                                 const uint64_t *windows, size_t windows_len, uint64_t p,
                                 uint64_t *answer, size_t answer_len);

uint64_t nbiot_forward_down_plain(const uint64_t *cell, size_t cell_len,
                                  const uint8_t *anchor, size_t anchor_len,
                                  const uint8_t *other, size_t other_len,
                                  const uint64_t *grant, size_t grant_len, uint64_t p,
                                  uint64_t *answer, size_t answer_len);

uint64_t nbiot_forward_control_plain(const uint64_t *cell, size_t cell_len,
                                     const uint8_t *anchor, size_t anchor_len,
                                     const uint8_t *other, size_t other_len,
                                     const uint64_t *grant, size_t grant_len, uint64_t p,
                                     uint64_t *answer, size_t answer_len);

uint64_t nbiot_step_up_plain(uint64_t *walk, size_t walk_len,
                             const uint64_t *windows, size_t windows_len,
                             uint64_t *answer, size_t answer_len);

uint64_t nbiot_step_ack_plain(uint64_t *walk, size_t walk_len,
                              const uint64_t *windows, size_t windows_len,
                              uint64_t *answer, size_t answer_len);

uint64_t nbiot_step_down_plain(uint64_t *walk, size_t walk_len,
                               const uint8_t *anchor, size_t anchor_len,
                               const uint8_t *other, size_t other_len,
                               uint64_t *answer, size_t answer_len);

uint64_t nbiot_step_control_plain(uint64_t *walk, size_t walk_len,
                                  const uint8_t *anchor, size_t anchor_len,
                                  const uint8_t *other, size_t other_len,
                                  uint64_t *answer, size_t answer_len);

/*
 * Where NPDCCH may start: the first start of the search space not before n, which need not be usable, and all
 * candidates of format 1 from there on, by their first subframe and then by R. Candidate i, from 0, has its numbers
 * from NBIOT_SEARCH_FIRST + i * NBIOT_CANDIDATE_NUMBERS on; past the count all are 0. A candidate's last subframe is
 * the n of the grant that it orders.
 */
enum {
    NBIOT_CANDIDATE_FIRST, /* first subframe: the n of an NPDCCH grant */
    NBIOT_CANDIDATE_R,     /* how often it is sent: its r */
    NBIOT_CANDIDATE_LAST,  /* last subframe */
    NBIOT_CANDIDATE_NUMBERS
};

enum {
    NBIOT_SEARCH_NO,
    NBIOT_SEARCH_START,
    NBIOT_SEARCH_COUNT, /* 1, 3, 7 or 15 */
    NBIOT_SEARCH_FIRST,
    NBIOT_SEARCH_NUMBERS = NBIOT_SEARCH_FIRST + 15 * NBIOT_CANDIDATE_NUMBERS
};

uint64_t nbiot_search(const uint64_t *cell, size_t cell_len,
                      const uint8_t *anchor, size_t anchor_len,
                      const uint8_t *other, size_t other_len,
                      const uint64_t *space, size_t space_len,
                      uint64_t *answer, size_t answer_len);

/*
 * The broadcast: NPBCH and SIB1, which an anchor sends by itself. Forward has the places of one period from subframe
 * 0 on, 64 frames of NPBCH (6400 places) and 256 of SIB1; the answer is that of an NPDSCH's forward. Backward takes
 * any subframe by its number in its period, and its answer has no cause. NPBCH's elements and kinds are always those
 * of a cell in-band with two narrowband ports, four cell ports and a control region of 3.
 */
uint64_t nbiot_forward_npbch(const uint64_t *cell, size_t cell_len,
                             const uint8_t *anchor, size_t anchor_len,
                             const uint8_t *other, size_t other_len, uint64_t p,
                             uint64_t *answer, size_t answer_len);

uint64_t nbiot_backward_npbch(const uint64_t *cell, size_t cell_len,
                              const uint8_t *anchor, size_t anchor_len,
                              const uint8_t *other, size_t other_len,
                              uint64_t t, uint64_t slot, uint64_t l, uint64_t k,
                              uint64_t *answer, size_t answer_len);

uint64_t nbiot_forward_sib1(const uint64_t *cell, size_t cell_len,
                            const uint8_t *anchor, size_t anchor_len,
                            const uint8_t *other, size_t other_len, uint64_t p,
                            uint64_t *answer, size_t answer_len);

uint64_t nbiot_backward_sib1(const uint64_t *cell, size_t cell_len,
                             const uint8_t *anchor, size_t anchor_len,
                             const uint8_t *other, size_t other_len,
                             uint64_t t, uint64_t slot, uint64_t l, uint64_t k,
                             uint64_t *answer, size_t answer_len);

/*
 * Fill transmitted subframe i of an NPDSCH on one port: QPSK from the codeword's bits, the first bit the highest of
 * byte 0. Element (slot * 7 + l) * 12 + k has its real number at twice its number and its imaginary one after it; +0
 * where not ours.
 */
enum { NBIOT_FILL_NUMBERS = 336 };

uint64_t nbiot_fill(const uint64_t *cell, size_t cell_len,
                    const uint8_t *anchor, size_t anchor_len,
                    const uint8_t *other, size_t other_len,
                    const uint64_t *grant, size_t grant_len,
                    uint64_t i, const uint8_t *bits, size_t bits_len, float level,
                    float *output, size_t output_len);

/* One element of transmitted subframe i. */
enum {
    NBIOT_ELEMENT_NO,
    NBIOT_ELEMENT_STATE, /* 0 silent, 1 or 2 a reference of that kind, 4 a symbol */
    NBIOT_ELEMENT_NUMBERS
};

enum {
    NBIOT_AMPLITUDE_RE, /* a symbol's two numbers, else +0 */
    NBIOT_AMPLITUDE_IM,
    NBIOT_AMPLITUDES
};

uint64_t nbiot_element(const uint64_t *cell, size_t cell_len,
                       const uint8_t *anchor, size_t anchor_len,
                       const uint8_t *other, size_t other_len,
                       const uint64_t *grant, size_t grant_len,
                       uint64_t i, uint64_t slot, uint64_t l, uint64_t k,
                       const uint8_t *bits, size_t bits_len, float level,
                       uint64_t *answer, size_t answer_len,
                       float *amplitudes, size_t amplitudes_len);

#ifdef __cplusplus
}
#endif

#endif
