/* ISDB-S3 slot framer and its reader: slots, whole frames, TMCC blocks, symbols as labels and as signal points, TS packets,
 * TLV packets, plans as text, and settings on a card.
 *
 * A call that lists numbers answers one of them, or 0 where it is accepted: the refusal of the first test that failed, tested
 * in the order of the list; s3_word gives its word. It answers the number itself, or a struct by value in which the number
 * stands first. A refusal leaves every area as it was found; what else is in the struct is then 0, or what the call says.
 *
 * An area is a pointer and its length in elements. A pointer is aligned as its elements are, and points to as many of them as
 * the length says; where the length is 0 nothing is read or written, and the pointer may be null, as that of an empty
 * std::vector is. An area that is written overlaps no other area of the call. The calls keep no state: they may be made by any
 * number of threads at once, and need no more than 256 KiB of stack. */
#ifndef S3FRAME_H
#define S3FRAME_H

#ifndef __cplusplus
#include <stdbool.h>
#endif
#include <stddef.h>
#include <stdint.h>

#ifdef __cplusplus
extern "C" {
#endif

/* The version of the library that this header belongs to: 10,000 times the major number, 100 times the minor one, and the
 * patch number. s3_version answers that of the library that is linked. */
#define S3_VERSION 900

/* A result that nobody looks at is a mistake, of which the compiler warns. */
#if defined(__cplusplus) && __cplusplus >= 201703L
#define S3_RESULT [[nodiscard]]
#elif defined(__STDC_VERSION__) && __STDC_VERSION__ >= 202311L
#define S3_RESULT [[nodiscard]]
#elif defined(__GNUC__)
#define S3_RESULT __attribute__((warn_unused_result))
#else
#define S3_RESULT
#endif

/* The numbers. */
enum s3_refusal {
    S3_ACCEPTED = 0,
    S3_REFUSED_PLAN = 1,       /* a plan without 1 to 8 groups, slot 0, or text that is no plan's; where no plan is handed in,
                                * an unknown modulation or rate */
    S3_REFUSED_DUMMY = 2,      /* a dummy where data was asked for, or a data slot at a pass */
    S3_REFUSED_FULL = 3,       /* slot 120 is past */
    S3_REFUSED_LENGTH = 4,     /* an area isn't exactly its length, a number of a TLV call is outside its bounds, or symbol 0
                                * of BPSK */
    S3_REFUSED_TABLE = 5,      /* a parity table breaks its form */
    S3_REFUSED_REGISTER = 6,   /* start or register is 0 or too wide; mask is too wide or lacks the top bit */
    S3_REFUSED_SYNC = 7,       /* a TS packet doesn't begin 0x47 */
    S3_REFUSED_PARITY = 8,     /* a received LDPC parity bit is wrong */
    S3_REFUSED_BCH = 9,        /* the received BCH bits are wrong */
    S3_REFUSED_TAIL = 11,      /* one of the last two TMCC bits is 1 */
    S3_REFUSED_LABEL = 12,     /* a label is 2^modulation or more */
    S3_REFUSED_VALUE = 13,     /* a group's modulation or rate is unknown, or its slots are 0 or no multiple of 5 */
    S3_REFUSED_ORDER = 14,     /* the groups do not fall */
    S3_REFUSED_TOTAL = 15,     /* the slots of all groups do not add to 120 */
    S3_REFUSED_PACKET = 16,    /* a TLV head is wrong, a null's body isn't all 0xFF, or a head or length runs past the
                                * packets */
    S3_REFUSED_BLOCK = 17,     /* a card has no block of this number, or the block's mark, edition or sum is wrong, or a
                                * filler in it isn't 0 */
    S3_REFUSED_COORDINATE = 18 /* a coordinate that is used is infinite or not a number */
};

/* The word of a number; that of 0 is "accepted", and a number that no call answers has none, "unknown". */
S3_RESULT static inline const char *s3_word(uint32_t number) {
    static const char *const words[] = {"accepted", "plan", "dummy", "full", "length", "table", "register", "sync",
                                        "parity", "BCH", "unknown", "tail", "label", "value", "order", "total",
                                        "packet", "block", "coordinate"};
    return number < sizeof words / sizeof *words ? words[number] : "unknown";
}

/* Sizes. */
#define S3_GROUPS ((size_t)8)                /* the most groups of a plan */
#define S3_SLOTS ((size_t)120)               /* slots of a frame, and elements of the lists of s3_read_frame */
#define S3_SLOT_OCTETS ((size_t)5610)        /* octets of a coded slot */
#define S3_FRAME_OCTETS ((size_t)673200)     /* octets of a coded frame: slot s begins at 5,610 * (s - 1) */
#define S3_HEADER_OCTETS ((size_t)22)        /* octets of a slot's header */
#define S3_PACKET_OCTETS ((size_t)188)       /* octets of a TS packet */
#define S3_MOST_SOURCE ((size_t)5071)        /* header and data octets of the largest slot, that of rate 11 */
#define S3_MOST_TABLE ((size_t)510)          /* numbers of the longest published parity table, that of rate 10 */
#define S3_LIST_OCTETS ((size_t)512)         /* octets of the area of s3_plan_list */
#define S3_TMCC_OCTETS ((size_t)1178)        /* octets of a frame's 9,422 TMCC bits and two zeros */
#define S3_TMCC_BLOCK_OCTETS ((size_t)3960)  /* octets of a coded TMCC block */
#define S3_TMCC_BLOCK_LABELS ((size_t)31680) /* labels of a TMCC block */
#define S3_SETTING_OCTETS ((size_t)512)      /* octets of a setting's block on a card */
#define S3_MOST_SETTINGS ((size_t)64)        /* the most blocks of a card */

/* What stands for no octet of a slot where the TLV calls report one or take one. */
#define S3_NO_BEGIN 65535u

/* The six stuff bits of a slot are a number from 0 to 63, the first bit the highest. */
#define S3_STUFF_ONES 63u /* six ones, which coding sends */
#define S3_NO_STUFF 255u  /* what stands for no stuff bits */

/* Where parity broke: the failing position of a slot or TMCC block is the lowest one at which a received parity bit is wrong,
 * counted from 0 among the parity bits, of which a slot has 374 * (120 - R) and a block 22,066. */
#define S3_NO_POSITION 65535u /* what stands for none */

/* Rates 1 to 11 are 1/3, 2/5, 1/2, 3/5, 2/3, 3/4, 7/9, 4/5, 5/6, 7/8, 9/10.
 * R, the rows of the parity table, are 41, 49, 61, 73, 81, 89, 93, 97, 101, 105, 109.
 * P, the packets of a slot, are 10, 12, 15, 18, 20, 22, 23, 24, 25, 26, 27: s3_packets_of.
 * T, the length of the published parity table, is 278, 333, 356, 402, 432, 461, 471, 465, 481, 510, 439: s3_table_entries.
 * Modulations 1 to 5 are pi/2-shift BPSK, QPSK, 8PSK, 16APSK, 32APSK: bits in a symbol.
 *
 * mask, start: the settings of the 25-bit dispersal register; a TMCC block has 15 bits. Mask has the top bit.
 *
 * table: for each row of the rate's code a count from 1 to 16 and then that many different addresses. In a whole-frame call
 * the groups' tables follow each other in group order. A wrong table_length is refused 5.
 *
 * source: the 22 header octets of a slot, then its 187 * P data octets. In a whole-frame call the data slots lie end to end.
 */

/* A plan: of the groups 0, 1, .. the first `count` are in use, and what stands behind them does not count. Its rules are
 * tested one after the other, each over the whole plan: a count outside 1 to 8 is refused 1; an unknown modulation or rate, or
 * slots that are 0 or no multiple of 5, 13; groups that do not fall strictly, higher modulation first, then higher rate, 14;
 * slots of all groups that do not add to 120, 15. Of a group's n slots the first n * modulation / 5 carry data; the others are
 * dummies. */
typedef struct s3_plan {
    uint16_t count;
    uint16_t modulation[8];
    uint16_t rate[8];
    uint16_t slots[8];
} s3_plan;

/* The frame state: a plan, the settings of the register, the next slot from 1, and the register there. It comes from s3_open,
 * and from each call to the next; what stands behind the groups in use stays as it is. */
typedef struct s3_state {
    uint16_t count;
    uint16_t modulation[8];
    uint16_t rate[8];
    uint16_t slots[8];
    uint32_t mask;
    uint32_t start;
    uint16_t slot;
    uint32_t register_;
} s3_state;

/* A number, and the state after the call. */
typedef struct s3_answer {
    uint8_t number;
    s3_state state;
} s3_answer;

/* Where a slot lies: its group from 0, the group's modulation and rate, and whether the slot carries data. */
typedef struct s3_slot_place {
    size_t group;
    uint32_t modulation;
    uint32_t rate;
    bool carries;
} s3_slot_place;

/* A number, and the place of the slot. */
typedef struct s3_placed {
    uint8_t number;
    s3_slot_place place;
} s3_placed;

/* A slot that was read: the state after it, its stuff bits or S3_NO_STUFF, its failing position or S3_NO_POSITION. */
typedef struct s3_slot_read {
    uint8_t number;
    s3_state state;
    uint8_t stuff;
    uint16_t position;
} s3_slot_read;

/* A number, and with 8 the failing position, else S3_NO_POSITION. */
typedef struct s3_word_answer {
    uint8_t number;
    uint16_t position;
} s3_word_answer;

/* A signal point: its in-phase coordinate and its quadrature coordinate. */
typedef struct s3_point_answer {
    uint8_t number;
    float i;
    float q;
} s3_point_answer;

/* The register of the signal point arrangement signal, one step on. */
typedef struct s3_step_answer {
    uint8_t number;
    uint32_t register_;
} s3_step_answer;

/* How many octets of TLV packets are taken in all, and how many of a cut filler are owed. */
typedef struct s3_fill_answer {
    uint8_t number;
    size_t taken;
    size_t owed;
} s3_fill_answer;

/* How many octets of TLV packets were written, and where in the slots an unfinished last packet begins. */
typedef struct s3_read_answer {
    uint8_t number;
    size_t written;
    size_t unfinished;
} s3_read_answer;

/* Mask and start of a register. */
typedef struct s3_register {
    uint32_t mask;
    uint32_t start;
} s3_register;

/* Those of the slots' register, of 25 bits, and of the TMCC blocks', of 15. */
typedef struct s3_registers {
    s3_register slots;
    s3_register tmcc;
} s3_registers;

/* A setting that a card keeps. */
typedef struct s3_settings_answer {
    uint8_t number;
    s3_plan plan;
    s3_registers registers;
} s3_settings_answer;

/* A plan that a text says. */
typedef struct s3_plan_read {
    uint8_t number;
    s3_plan plan;
} s3_plan_read;

/* The version of the library, to be compared with S3_VERSION. */
S3_RESULT uint32_t s3_version(void);

/* What to lend: these four answer a count, and 0 where the plan is refused or the rate is unknown. */

/* Header and data octets of all data slots: the source of s3_code_frame and s3_read_frame. */
S3_RESULT size_t s3_source_octets(s3_plan plan);

/* Numbers of the groups' published parity tables: those of s3_published_tables. */
S3_RESULT size_t s3_tables_entries(s3_plan plan);

/* T, the numbers of the published parity table of a rate. */
S3_RESULT size_t s3_table_entries(uint32_t rate);

/* P, the packets of a slot of a rate. */
S3_RESULT size_t s3_packets_of(uint32_t rate);

/* The plan that a text says: for each group a line of modulation, rate and slots, 1 to 3 digits each without a leading zero,
 * one space between them and a line feed behind them; 128 octets at most.
 * Numbers: 1 (also of the text), 13, 14, 15. The plan of a refusal is all zeros. */
S3_RESULT s3_plan_read s3_plan_of_text(const uint8_t *text, size_t text_length);

/* The list of the plan that a text says: a line of column names, a line for each run of data slots and of dummies, and a line
 * of the sums; or the line `refused N` alone, N the number of s3_plan_of_text. Answers how many octets are written.
 *   list  512 octets: the list, and what was found behind it */
S3_RESULT size_t s3_plan_list(const uint8_t *text, size_t text_length, uint8_t list[512]);

/* Where a slot lies.
 * Numbers: 1 (also slot 0), 13, 14, 15, 3. The place of a refusal is all zeros. */
S3_RESULT s3_placed s3_place(s3_plan plan, uint32_t slot);

/* Opens a frame: the state at slot 1, with the register at its start.
 * Numbers: 1, 13, 14, 15, 6. The state of a refusal is all zeros. */
S3_RESULT s3_answer s3_open(s3_plan plan, uint32_t mask, uint32_t start);

/* Passes a dummy: the state one slot on, with the register as it was.
 * Numbers: 1 (also slot 0), 13, 14, 15, 6, 3, 2 (at a data slot). The state of a refusal is the one handed in. */
S3_RESULT s3_answer s3_pass(s3_state state);

/* Codes one data slot: the state one slot on, with the register there.
 *   source  22 + 187 * P octets
 *   coded   5,610 octets: the slot
 * Numbers: 1 (also slot 0), 13, 14, 15, 6, 3, 2 (at a dummy), 4, 5. The state of a refusal is the one handed in. */
S3_RESULT s3_answer s3_code_slot(s3_state state, const uint16_t *table, size_t table_length, const uint8_t *source,
                                 size_t source_length, uint8_t *coded, size_t coded_length);

/* Reads one data slot; its stuff bits may be any. Coding what was read gives the same slot only where their number is
 * S3_STUFF_ONES; for other numbers it gives the slot with ones there and its parity made anew.
 *   coded   5,610 octets
 *   source  22 + 187 * P octets: header and data
 * Numbers: 1 (also slot 0), 13, 14, 15, 6, 3, 2 (at a dummy), 4, 5, 8, 9. With 8 and 9 the state moves on as with 0; that of
 * another refusal is the one handed in. */
S3_RESULT s3_slot_read s3_read_slot(s3_state state, const uint16_t *table, size_t table_length, const uint8_t *coded,
                                    size_t coded_length, uint8_t *source, size_t source_length);

/* Checks the LDPC parity of a slot, whatever its dispersal.
 *   coded  5,610 octets
 * Numbers: 1, 4, 5, 8. */
S3_RESULT s3_word_answer s3_check_parity(uint32_t rate, const uint16_t *table, size_t table_length, const uint8_t *coded,
                                         size_t coded_length);

/* Codes a whole frame.
 *   source  the octets of all data slots, end to end
 *   frame   673,200 octets: each data slot in its part; the dummies' parts are left as found
 * Numbers: 1, 13, 14, 15, 6, 4, 5. */
S3_RESULT uint8_t s3_code_frame(s3_plan plan, uint32_t mask, uint32_t start, const uint16_t *tables, size_t tables_length,
                                const uint8_t *source, size_t source_length, uint8_t *frame, size_t frame_length);

/* Reads a whole frame; the stuff bits of its slots may be any.
 *   frame      673,200 octets
 *   source     the octets of all data slots, end to end; those of a slot that is not read with 0 are left as found
 *   answers    120 octets, one for each slot: 0, 2 for a dummy, or 8, 9
 *   stuff      120 octets, one for each slot: the stuff bits, 0 to 63, or S3_NO_STUFF where the slot's answer isn't 0
 *   positions  120 numbers, one for each slot: the failing position, or S3_NO_POSITION where the slot's answer isn't 8
 * Numbers: 1, 13, 14, 15, 6, 4, 5. */
S3_RESULT uint8_t s3_read_frame(s3_plan plan, uint32_t mask, uint32_t start, const uint16_t *tables, size_t tables_length,
                                const uint8_t *frame, size_t frame_length, uint8_t *source, size_t source_length,
                                uint8_t *answers, size_t answers_length, uint8_t *stuff, size_t stuff_length,
                                uint16_t *positions, size_t positions_length);

/* Codes a TMCC block, under a parity table of rate 3.
 *   source  1,178 octets: 9,422 bits, and two zeros
 *   block   3,960 octets
 * Numbers: 6, 4, 5, 11. */
S3_RESULT uint8_t s3_code_tmcc(uint32_t mask, uint32_t start, const uint16_t *table, size_t table_length,
                               const uint8_t *source, size_t source_length, uint8_t *block, size_t block_length);

/* Reads a TMCC block, under a parity table of rate 3.
 *   block   3,960 octets
 *   source  1,178 octets: 9,422 bits, and two zeros
 * Numbers: 6, 4, 5, 8, 9. */
S3_RESULT s3_word_answer s3_read_tmcc(uint32_t mask, uint32_t start, const uint16_t *table, size_t table_length,
                                      const uint8_t *block, size_t block_length, uint8_t *source, size_t source_length);

/* The labels of a slot, one octet each.
 *   coded   5,610 octets
 *   labels  44,880 / modulation octets
 * Numbers: 1, 4. */
S3_RESULT uint8_t s3_labels(uint32_t modulation, uint32_t rate, const uint8_t *coded, size_t coded_length,
                            uint8_t *labels, size_t labels_length);

/* The slot of labels.
 *   labels  44,880 / modulation octets, each below 2^modulation
 *   coded   5,610 octets
 * Numbers: 1, 4, 12. */
S3_RESULT uint8_t s3_slot_of_labels(uint32_t modulation, uint32_t rate, const uint8_t *labels, size_t labels_length,
                                    uint8_t *coded, size_t coded_length);

/* The labels of a TMCC block, one octet each.
 *   block   3,960 octets
 *   labels  31,680 octets
 * Numbers: 4. */
S3_RESULT uint8_t s3_tmcc_labels(const uint8_t *block, size_t block_length, uint8_t *labels, size_t labels_length);

/* The TMCC block of labels.
 *   labels  31,680 octets, each 0 or 1
 *   block   3,960 octets
 * Numbers: 4, 12. */
S3_RESULT uint8_t s3_tmcc_of_labels(const uint8_t *labels, size_t labels_length, uint8_t *block, size_t block_length);

/* A signal point has an in-phase coordinate I and a quadrature coordinate Q. The caller knows them: in_phase and quadrature
 * lend I and Q of each label of a modulation, label 0 first, as 2^modulation floats each. A float is one of IEEE 754, of 32
 * bits. Those of the labels asked for must be finite; a point is made of them by copying and negation, right to the last bit.
 *
 * symbol: with BPSK the number of the symbol in the frame, from 1 on. Points of even symbols are turned by 90 degrees
 * anticlockwise, which makes (I, Q) into (-Q, I). With other modulations it does not count.
 *
 * A modulator calls s3_labels, then s3_points. For the symbols of the signal point arrangement signal it calls
 * s3_arranged_point, and s3_arranged_step from each to the next: these take the mask of a 15-bit register, which has the top
 * bit, and the register as it stands. */

/* The point of a label.
 *   in_phase    2^modulation floats
 *   quadrature  2^modulation floats
 * Numbers: 1, 4 (with BPSK also symbol 0), 12, 18. The coordinates of a refusal are zeros. */
S3_RESULT s3_point_answer s3_point(uint32_t modulation, uint32_t label, uint32_t symbol, const float *in_phase,
                                   size_t in_phase_length, const float *quadrature, size_t quadrature_length);

/* The point of a label in the signal point arrangement signal: that of s3_point, turned by 180 degrees, which makes (I, Q)
 * into (-I, -Q), where the register's bit of weight 2^14 is 1.
 *   in_phase    2^modulation floats
 *   quadrature  2^modulation floats
 * Numbers: 1, 6, 4 (with BPSK also symbol 0), 12, 18. The coordinates of a refusal are zeros. */
S3_RESULT s3_point_answer s3_arranged_point(uint32_t modulation, uint32_t label, uint32_t symbol, const float *in_phase,
                                            size_t in_phase_length, const float *quadrature, size_t quadrature_length,
                                            uint32_t mask, uint32_t register_);

/* Steps the register of the signal point arrangement signal.
 * Numbers: 6. The register of a refusal is 0. */
S3_RESULT s3_step_answer s3_arranged_step(uint32_t mask, uint32_t register_);

/* The points of labels, each that of s3_point. symbol is that of the first label; the others count on from it, past 2^32 too.
 *   labels      any number of octets, each below 2^modulation
 *   in_phase    2^modulation floats
 *   quadrature  2^modulation floats
 *   i           as many floats as labels: I of each
 *   q           as many floats as labels: Q of each
 * Numbers: 1, 4 (with BPSK also symbol 0), 12, 18, each tested of all labels before the next. */
S3_RESULT uint8_t s3_points(uint32_t modulation, uint32_t symbol, const uint8_t *labels, size_t labels_length,
                            const float *in_phase, size_t in_phase_length, const float *quadrature,
                            size_t quadrature_length, float *i, size_t i_length, float *q, size_t q_length);

/* Packs the TS packets of one slot.
 *   packets  188 * P octets, each packet beginning 0x47
 *   octets   187 * P octets: the packets without it
 * Numbers: 1, 4, 7. */
S3_RESULT uint8_t s3_pack(uint32_t rate, const uint8_t *packets, size_t packets_length, uint8_t *octets,
                          size_t octets_length);

/* Unpacks the data octets of one slot.
 *   octets   187 * P octets
 *   packets  188 * P octets: the packets, 0x47 put back
 * Numbers: 1, 4. */
S3_RESULT uint8_t s3_unpack(uint32_t rate, const uint8_t *octets, size_t octets_length, uint8_t *packets,
                            size_t packets_length);

/* A TLV packet is 0x7F, a type octet (0x01, 0x02, 0x03, 0xFE or 0xFF), the length of its body in two octets, the high one
 * first, and the body. One of type 0xFF is a null packet: its body is all 0xFF. One stream of packets fills all data slots of
 * a group, end to end across slots and frames; where packets run out, empty null packets, 7F FF 00 00, fill up. Slots are
 * lent as their data octets alone, end to end. */

/* Fills slots: with the octets owed, the packets from `taken` on, and fillers, the last of which the slots' end may cut.
 *   packets  whole packets end to end, those taken before included; none at all, too
 *   taken    how many of their octets were taken before: 0 at first, at most packets_length
 *   owed     how many octets of a cut filler come first: 0 to 3, and 0 unless taken is 0 or packets_length
 *   slots    187 * P octets for each of n slots, at least one
 *   begins   n numbers: the octet of each slot where the first packet or filler begins, or S3_NO_BEGIN
 * Numbers: 1, 4 (also taken or owed outside these bounds), 16 (in any of the packets). */
S3_RESULT s3_fill_answer s3_tlv_fill(uint32_t rate, const uint8_t *packets, size_t packets_length, size_t taken,
                                     size_t owed, uint8_t *slots, size_t slots_length, uint16_t *begins,
                                     size_t begins_length);

/* Reads the TLV packets of slots, without empty null packets. A packet that meets a lost slot is dropped, and reading goes on
 * at the next beginning that a slot behind it reports. A head or null body that is whole and wrong counts as losing the rest
 * of the slot where that head begins.
 *   slots    187 * P octets for each of n slots, at least one; those of a lost slot are not looked at
 *   begins   n numbers, the slots' reports: below 187 * P, or S3_NO_BEGIN
 *   lost     n octets: 1 for a lost slot, else 0
 *   first    the octet of the first slot to read first, below 187 * P, or S3_NO_BEGIN for the first reported beginning
 *   packets  as many octets as slots: the whole packets end to end; what is behind them is left as found
 * Answers where in slots an unfinished last packet begins, or slots_length.
 * Numbers: 1, 4 (also a report, mark or first octet outside these bounds). */
S3_RESULT s3_read_answer s3_tlv_read(uint32_t rate, const uint8_t *slots, size_t slots_length, const uint16_t *begins,
                                     size_t begins_length, const uint8_t *lost, size_t lost_length, uint32_t first,
                                     uint8_t *packets, size_t packets_length);

/* A card holds 0 to 64 settings: blocks of 512 octets, end to end, numbered from 0. Numbers of several octets have the high
 * octet first.
 *   octet  octets
 *       0       4  `S3PL`
 *       4       1  edition: 1
 *       5       1  number of groups
 *       6      24  eight groups: modulation, rate and slots in an octet each; zeros behind the last
 *      30       4  mask of the slots' register, of 25 bits
 *      34       4  start of the slots' register
 *      38       4  mask of the TMCC blocks' register, of 15 bits
 *      42       4  start of the TMCC blocks' register
 *      46     464  zeros
 *     510       2  sum of the 510 octets before it, modulo 65,536 */

/* Reads a setting.
 *   card    512 octets for each of 0 to 64 blocks
 *   number  that of the block, from 0
 * Numbers: 4, 17, 1, 13, 14, 15 (the block's plan), 6 (its masks and starts). Plan and registers of a refusal are all
 * zeros. */
S3_RESULT s3_settings_answer s3_read_settings(const uint8_t *card, size_t card_length, size_t number);

/* Replaces a setting, whatever its block holds. The other blocks keep their octets.
 *   card    512 octets for each of 0 to 64 blocks
 *   number  that of the block, from 0
 * Numbers: 4, 17 (the card has no block of this number), 1, 13, 14, 15, 6. */
S3_RESULT uint8_t s3_replace_settings(uint8_t *card, size_t card_length, size_t number, s3_plan plan,
                                      s3_registers registers);

/* Copies the published parity table of a rate.
 *   table  T numbers
 * Numbers: 1, 4. */
S3_RESULT uint8_t s3_published_table(uint32_t rate, uint16_t *table, size_t table_length);

/* Copies the published parity tables of a plan's groups, in group order, as the whole-frame calls take them.
 *   tables  as many numbers as s3_tables_entries says
 * Numbers: 1, 13, 14, 15, 4. */
S3_RESULT uint8_t s3_published_tables(s3_plan plan, uint16_t *tables, size_t tables_length);

#ifdef __cplusplus
}
#endif

#endif
