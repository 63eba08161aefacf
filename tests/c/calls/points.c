/* Signal points: one by one, in the signal point arrangement signal, and of many labels. Floats are put and compared by their
 * bits alone, so that the signs of zeros count, and what NaNs hold. */
#include "samples.h"
#include "topics.h"

#define SIGN 0x80000000u
#define SIGNALLING 0xFFA5A5A5u /* a NaN that signals */
#define TOP (1u << 14)         /* the register's bit that turns a point */

/* What the lists hold for a label: each coordinate is another one, those of Q are negative. */
#define I_OF(label) (0x3F800000u + (label))
#define Q_OF(label) (0xBF000000u + (label))

/* The lists, with room for lengths that are too large, and the points of as many labels as a slot has at most. */
static float in_phase[33], quadrature[33];
static area i_out, q_out;
enum { MOST_LABELS = 44880 };

static void put(float *to, uint32_t bits)
{
    memcpy(to, &bits, sizeof bits);
}

static uint32_t bits_of(float value)
{
    uint32_t bits;
    memcpy(&bits, &value, sizeof bits);
    return bits;
}

static void put_lists(void)
{
    for (uint32_t label = 0; label < COUNT(in_phase); label++) {
        put(in_phase + label, I_OF(label));
        put(quadrature + label, Q_OF(label));
    }
}

static s3_point_answer point(uint32_t modulation, uint32_t label, uint32_t symbol, size_t i_count, size_t q_count)
{
    return s3_point(modulation, label, symbol, in_phase, i_count, quadrature, q_count);
}

static s3_point_answer arranged(uint32_t modulation, uint32_t label, uint32_t symbol, size_t count, uint32_t mask,
                                uint32_t held)
{
    return s3_arranged_point(modulation, label, symbol, in_phase, count, quadrature, count, mask, held);
}

/* Whether an answer is this point; whether it is this refusal, with zeros. */
static bool gives(s3_point_answer answer, uint32_t i, uint32_t q)
{
    return answer.number == S3_ACCEPTED && bits_of(answer.i) == i && bits_of(answer.q) == q;
}

static bool refuses(s3_point_answer answer, uint32_t number)
{
    return answer.number == number && bits_of(answer.i) == 0 && bits_of(answer.q) == 0;
}

/* The points of labels, into areas of their number and lists of the modulation's. */
static uint8_t points(uint32_t modulation, uint32_t symbol, const uint8_t *labels, size_t count)
{
    const size_t n = (size_t)1 << modulation;
    return s3_points(modulation, symbol, labels, count, in_phase, n, quadrature, n, floats(i_out), count, floats(q_out),
                     count);
}

static void put_areas(void)
{
    put_found(i_out);
    put_found(q_out);
}

/* Whether both areas are as found from a point on. */
static bool left_from(size_t count)
{
    return untouched_from(i_out, count * sizeof(float)) && untouched_from(q_out, count * sizeof(float));
}

/* Whether the areas hold this point at a place. */
static bool is_at(size_t place, uint32_t i, uint32_t q)
{
    return bits_of(floats(i_out)[place]) == i && bits_of(floats(q_out)[place]) == q;
}

static void points_of_all_labels(void)
{
    static const uint32_t odd[] = {1, 3, 65535, 65537, UINT32_MAX}, even[] = {2, 65536, 1u << 31, UINT32_MAX - 1};
    put_lists();
    for (uint32_t modulation = 1; modulation <= 5; modulation++) {
        const uint32_t n = 1u << modulation;
        for (uint32_t label = 0; label < n; label++) {
            const uint32_t i = I_OF(label), q = Q_OF(label);
            const bool turned = modulation == 1;
            for (size_t k = 0; k < COUNT(odd); k++) EXPECT(gives(point(modulation, label, odd[k], n, n), i, q));
            for (size_t k = 0; k < COUNT(even); k++) {
                EXPECT(gives(point(modulation, label, even[k], n, n), turned ? q ^ SIGN : i, turned ? i : q));
            }
            EXPECT(turned || gives(point(modulation, label, 0, n, n), i, q));
            EXPECT(gives(arranged(modulation, label, 65536, n, BLOCK_MASK, 1), turned ? q ^ SIGN : i, turned ? i : q));
        }
    }
}

/* Labels that have a label in their low octet, or in their low 16 bits. */
static void unknown_labels(void)
{
    static const uint32_t beyond[] = {256, 256 + 1, 65536, 65536 + 1, 1u << 31, UINT32_MAX};
    put_lists();
    for (uint32_t modulation = 1; modulation <= 5; modulation++) {
        const uint32_t n = 1u << modulation;
        EXPECT(refuses(point(modulation, n, 1, n, n), S3_REFUSED_LABEL));
        EXPECT(refuses(arranged(modulation, n, 1, n, BLOCK_MASK, 1), S3_REFUSED_LABEL));
        for (size_t k = 0; k < COUNT(beyond); k++) {
            EXPECT(refuses(point(modulation, beyond[k], 1, n, n), S3_REFUSED_LABEL));
            EXPECT(refuses(arranged(modulation, beyond[k], 1, n, BLOCK_MASK, 1), S3_REFUSED_LABEL));
        }
    }
}

/* What is finite at its edges: zero, the least and the largest denormal number, the least normal one, the largest one; and
 * what is not: infinity, NaNs that signal, and quiet ones. */
static const uint32_t edges[] = {0, 1, 0x007FFFFF, 0x00800000, 0x7F7FFFFF};
static const uint32_t not_finite[] = {0x7F800000, 0x7F800001, 0x7FA5A5A5, 0x7FBFFFFF, 0x7FC00000, 0x7FD12345, 0x7FFFFFFF};

static void edges_of_coordinates(void)
{
    static const uint8_t twice[] = {1, 1};
    for (size_t k = 0; k < COUNT(edges) * COUNT(edges) * 4; k++) {
        const uint32_t i = edges[k / 4 % COUNT(edges)] | (k & 1 ? SIGN : 0);
        const uint32_t q = edges[k / 4 / COUNT(edges)] | (k & 2 ? SIGN : 0);
        put(in_phase + 1, i);
        put(quadrature + 1, q);
        EXPECT(gives(point(1, 1, 1, 2, 2), i, q) && gives(point(1, 1, 2, 2, 2), q ^ SIGN, i));
        EXPECT(gives(arranged(1, 1, 1, 2, BLOCK_MASK, TOP), i ^ SIGN, q ^ SIGN));
        EXPECT(gives(arranged(1, 1, 2, 2, BLOCK_MASK, TOP), q, i ^ SIGN));
        EXPECT(points(1, 1, twice, 2) == S3_ACCEPTED && is_at(0, i, q) && is_at(1, q ^ SIGN, i));
    }
}

/* An entry counts where it is used, and there alone. */
static void coordinates_not_finite(void)
{
    static const uint8_t with[] = {4, 6, 5}, without[] = {4, 6};
    for (size_t k = 0; k < COUNT(not_finite) * 4; k++) {
        put_lists();
        put((k & 2 ? in_phase : quadrature) + 5, not_finite[k / 4] | (k & 1 ? SIGN : 0));
        EXPECT(refuses(point(3, 5, 1, 8, 8), S3_REFUSED_COORDINATE));
        EXPECT(refuses(arranged(3, 5, 1, 8, BLOCK_MASK, TOP), S3_REFUSED_COORDINATE));
        EXPECT(gives(point(3, 4, 1, 8, 8), I_OF(4), Q_OF(4)) && gives(point(3, 6, 1, 8, 8), I_OF(6), Q_OF(6)));
        EXPECT(gives(arranged(3, 4, 1, 8, BLOCK_MASK, 1), I_OF(4), Q_OF(4)));
        EXPECT(refuses(point(3, 8 + 5, 1, 8, 8), S3_REFUSED_LABEL) && refuses(point(3, 5, 1, 8, 7), S3_REFUSED_LENGTH));
        put_areas();
        EXPECT(points(3, 1, with, 3) == S3_REFUSED_COORDINATE && left_from(0));
        EXPECT(points(3, 1, without, 2) == S3_ACCEPTED && left_from(2));
        EXPECT(is_at(0, I_OF(4), Q_OF(4)) && is_at(1, I_OF(6), Q_OF(6)));
    }
}

/* In each call what is behind the refusal is wrong too, or all of it is right. */
static void refusing_a_point(void)
{
    static const size_t wrong[] = {0, 1, 3, 4};
    put_lists();
    put(in_phase + 1, not_finite[0]);
    for (size_t k = 0; k < COUNT(no_modulations); k++) {
        EXPECT(refuses(point(no_modulations[k], 2, 0, 3, 3), S3_REFUSED_PLAN));
        EXPECT(refuses(point(no_modulations[k], 0, 1, 2, 2), S3_REFUSED_PLAN));
        EXPECT(refuses(arranged(no_modulations[k], 2, 0, 3, 0, 0), S3_REFUSED_PLAN));
        EXPECT(refuses(arranged(no_modulations[k], 0, 1, 2, BLOCK_MASK, 1), S3_REFUSED_PLAN));
    }
    for (size_t k = 0; k < COUNT(wrong); k++) {
        EXPECT(refuses(point(1, 2, 1, wrong[k], 2), S3_REFUSED_LENGTH));
        EXPECT(refuses(point(1, 0, 1, 2, wrong[k]), S3_REFUSED_LENGTH));
        EXPECT(refuses(arranged(1, 2, 1, wrong[k], BLOCK_MASK, 1), S3_REFUSED_LENGTH));
        EXPECT(refuses(arranged(1, 0, 1, wrong[k], BLOCK_MASK, 1), S3_REFUSED_LENGTH));
    }
    EXPECT(refuses(point(1, 2, 0, 2, 2), S3_REFUSED_LENGTH) && refuses(point(1, 0, 0, 2, 2), S3_REFUSED_LENGTH));
    EXPECT(refuses(arranged(1, 2, 0, 2, BLOCK_MASK, 1), S3_REFUSED_LENGTH));
    EXPECT(refuses(point(1, 1, 1, 2, 2), S3_REFUSED_COORDINATE));
    EXPECT(refuses(arranged(1, 1, 1, 2, BLOCK_MASK, 1), S3_REFUSED_COORDINATE));
}

static bool steps_to(s3_step_answer answer, uint32_t number, uint32_t held)
{
    return answer.number == number && answer.register_ == held;
}

/* Masks and registers of 15 bits, one of which is wrong. They are tested behind the modulation, before all else. */
static void stepping(void)
{
    static const struct {
        uint32_t mask, held;
    } wrong[] = {{0, 1}, {1u << 13, 1}, {1u << 15, 1}, {3u << 14, 1}, {MASK, 1}, {UINT32_MAX, 1}, {(1u << 16) | TOP, 1},
                 {TOP, 0}, {TOP, 1u << 15}, {TOP, 65536 + 1}, {TOP, (1u << 31) + 1}, {0x7FFF, UINT32_MAX}};
    EXPECT(steps_to(s3_arranged_step(BLOCK_MASK, 1), S3_ACCEPTED, 2));
    EXPECT(steps_to(s3_arranged_step(BLOCK_MASK, TOP), S3_ACCEPTED, 1));
    EXPECT(steps_to(s3_arranged_step(0x4001, 3), S3_ACCEPTED, 7));
    EXPECT(steps_to(s3_arranged_step(0x7FFF, 0x7FFF), S3_ACCEPTED, 0x7FFF));
    EXPECT(steps_to(s3_arranged_step(0x7FFF, 0x7FFE), S3_ACCEPTED, 0x7FFC));
    put_lists();
    for (size_t k = 0; k < COUNT(wrong); k++) {
        EXPECT(steps_to(s3_arranged_step(wrong[k].mask, wrong[k].held), S3_REFUSED_REGISTER, 0));
        EXPECT(refuses(arranged(1, 2, 0, 3, wrong[k].mask, wrong[k].held), S3_REFUSED_REGISTER));
        EXPECT(refuses(arranged(1, 0, 1, 2, wrong[k].mask, wrong[k].held), S3_REFUSED_REGISTER));
    }
}

/* The signal point arrangement signal of document 002, 2.2.1.11: all labels in their order, 32 symbols. Under mask 2^14 and
 * start 1 its register gives a one at symbols 15 and 30, each time comes round to 1, and stands at 4 behind the last. */
static void arrangement_signal(uint32_t modulation)
{
    const uint32_t n = 1u << modulation;
    s3_step_answer step = {S3_ACCEPTED, START};
    put_lists();
    for (uint32_t symbol = 1; symbol <= 32; symbol++) {
        const uint32_t label = (symbol - 1) % n, turn = symbol % 15 == 0 ? SIGN : 0;
        const bool quarter = modulation == 1 && symbol % 2 == 0;
        const uint32_t i = quarter ? Q_OF(label) ^ SIGN : I_OF(label), q = quarter ? I_OF(label) : Q_OF(label);
        EXPECT(gives(arranged(modulation, label, symbol, n, BLOCK_MASK, step.register_), i ^ turn, q ^ turn));
        step = s3_arranged_step(BLOCK_MASK, step.register_);
    }
    EXPECT(steps_to(step, S3_ACCEPTED, 4));
    /* The top bit turns, whatever the others are, and not what mask and register share. */
    EXPECT(gives(arranged(2, 3, 0, 4, 0x7FFF, 0x7FFF), I_OF(3) ^ SIGN, Q_OF(3) ^ SIGN));
    EXPECT(gives(arranged(2, 3, 0, 4, 0x7FFF, 0x4001), I_OF(3) ^ SIGN, Q_OF(3) ^ SIGN));
    EXPECT(gives(arranged(2, 3, 0, 4, 0x7FFF, 0x3FFF), I_OF(3), Q_OF(3)));
    EXPECT(gives(arranged(2, 3, 0, 4, 0x7FFF, 0x0001), I_OF(3), Q_OF(3)));
}

/* Lends the point of an answer in place of label 0's; whether it is the one that stood there first. */
static bool comes_round(s3_point_answer answer)
{
    EXPECT(answer.number == S3_ACCEPTED);
    in_phase[0] = answer.i;
    quadrature[0] = answer.q;
    return gives(answer, I_OF(0), Q_OF(0));
}

/* Four quarter turns give the lent bits back, and two half turns; less do not. */
static void turns_that_come_round(void)
{
    put_lists();
    for (unsigned turn = 1; turn <= 4; turn++) EXPECT(comes_round(point(1, 0, 2, 2, 2)) == (turn == 4));
    for (unsigned turn = 1; turn <= 2; turn++) EXPECT(comes_round(arranged(5, 0, 0, 32, BLOCK_MASK, 0x4001)) == (turn == 2));
}

/* As a modulator does: the labels of a slot, and their points from a symbol on, each the lone call's under its number. */
static void points_of_a_slot(uint32_t modulation)
{
    static uint8_t slot[S3_SLOT_OCTETS], labels[MOST_LABELS];
    const size_t n = (size_t)1 << modulation, count = MOST_LABELS / modulation;
    fill(slot, sizeof slot);
    put_lists();
    EXPECT(s3_labels(modulation, 7, slot, sizeof slot, labels, count) == S3_ACCEPTED);
    for (uint32_t first = 31681; first <= 31682; first++) {
        size_t same = 0;
        put_areas();
        EXPECT(points(modulation, first, labels, count) == S3_ACCEPTED && left_from(count));
        for (size_t k = 0; k < count; k++) {
            const s3_point_answer lone = point(modulation, labels[k], first + (uint32_t)k, n, n);
            same += lone.number == S3_ACCEPTED && is_at(k, bits_of(lone.i), bits_of(lone.q));
        }
        EXPECT(same == count);
    }
}

/* Symbol numbers go on past 32 bits; without labels no entry is used. */
static void points_of_few_labels(void)
{
    static const uint8_t labels[] = {0, 0, 1, 1};
    put_lists();
    put_areas();
    EXPECT(points(1, UINT32_MAX, labels, 4) == S3_ACCEPTED && left_from(4));
    EXPECT(is_at(0, I_OF(0), Q_OF(0)) && is_at(1, Q_OF(0) ^ SIGN, I_OF(0)));
    EXPECT(is_at(2, I_OF(1), Q_OF(1)) && is_at(3, Q_OF(1) ^ SIGN, I_OF(1)));
    put_areas();
    EXPECT(points(1, UINT32_MAX, labels, 1) == S3_ACCEPTED && is_at(0, I_OF(0), Q_OF(0)) && left_from(1));
    EXPECT(points(1, UINT32_MAX - 1, labels, 1) == S3_ACCEPTED && is_at(0, Q_OF(0) ^ SIGN, I_OF(0)));
    EXPECT(points(1, 65536, labels, 1) == S3_ACCEPTED && is_at(0, Q_OF(0) ^ SIGN, I_OF(0)));
    for (size_t k = 0; k < COUNT(in_phase); k++) {
        put(in_phase + k, SIGNALLING);
        put(quadrature + k, SIGNALLING);
    }
    put_areas();
    for (uint32_t modulation = 1; modulation <= 5; modulation++) {
        EXPECT(points(modulation, 1, labels, 0) == S3_ACCEPTED);
        EXPECT(points(modulation, 0, labels, 0) == (modulation == 1 ? S3_REFUSED_LENGTH : S3_ACCEPTED));
        EXPECT(points(modulation, 1, labels, 1) == S3_REFUSED_COORDINATE);
    }
    EXPECT(left_from(0));
}

/* Four labels of QPSK with a wrong length, of one area at a time. */
static void wrong_lengths_of_points(const uint8_t *labels)
{
    static const size_t wrong[] = {0, 3, 5, 8};
    float *const i = floats(i_out), *const q = floats(q_out);
    for (size_t k = 0; k < COUNT(wrong); k++) {
        const size_t other = wrong[k];
        EXPECT(s3_points(2, 1, labels, 4, in_phase, other, quadrature, 4, i, 4, q, 4) == S3_REFUSED_LENGTH);
        EXPECT(s3_points(2, 1, labels, 4, in_phase, 4, quadrature, other, i, 4, q, 4) == S3_REFUSED_LENGTH);
        EXPECT(s3_points(2, 1, labels, 4, in_phase, 4, quadrature, 4, i, other, q, 4) == S3_REFUSED_LENGTH);
        EXPECT(s3_points(2, 1, labels, 4, in_phase, 4, quadrature, 4, i, 4, q, other) == S3_REFUSED_LENGTH);
        EXPECT(s3_points(2, 1, labels, 4, in_phase, 4, quadrature, 4, i, other, q, other) == S3_REFUSED_LENGTH);
    }
}

/* Each test is made of all labels before the next one. */
static void refusing_points(void)
{
    static const uint8_t right[] = {0, 2, 3, 0}, last[] = {1, 2, 3, 4}, first[] = {255, 2, 3, 1}, used[] = {0, 2, 3, 1};
    put_lists();
    put(quadrature + 1, not_finite[1]);
    put_areas();
    for (size_t k = 0; k < COUNT(no_modulations); k++) {
        EXPECT(s3_points(no_modulations[k], 0, last, 4, in_phase, 5, quadrature, 5, floats(i_out), 5, floats(q_out), 5)
               == S3_REFUSED_PLAN);
        EXPECT(s3_points(no_modulations[k], 1, right, 4, in_phase, 2, quadrature, 2, floats(i_out), 4, floats(q_out), 4)
               == S3_REFUSED_PLAN);
    }
    wrong_lengths_of_points(right);
    wrong_lengths_of_points(last);
    wrong_lengths_of_points(used);
    EXPECT(points(1, 0, last, 4) == S3_REFUSED_LENGTH && points(1, 0, right, 1) == S3_REFUSED_LENGTH);
    EXPECT(points(2, 0, last, 4) == S3_REFUSED_LABEL && points(2, 0, first, 4) == S3_REFUSED_LABEL);
    EXPECT(points(2, 0, used, 4) == S3_REFUSED_COORDINATE && points(2, 0, last, 3) == S3_REFUSED_COORDINATE);
    EXPECT(left_from(0));
    EXPECT(points(2, 0, right, 4) == S3_ACCEPTED && left_from(4));
    EXPECT(is_at(0, I_OF(0), Q_OF(0)) && is_at(1, I_OF(2), Q_OF(2)));
    EXPECT(is_at(2, I_OF(3), Q_OF(3)) && is_at(3, I_OF(0), Q_OF(0)));
}

void test_points(void)
{
    i_out = lend(MOST_LABELS * sizeof(float));
    q_out = lend(MOST_LABELS * sizeof(float));
    points_of_all_labels();
    unknown_labels();
    edges_of_coordinates();
    coordinates_not_finite();
    refusing_a_point();
    stepping();
    for (uint32_t modulation = 1; modulation <= 5; modulation++) {
        arrangement_signal(modulation);
        points_of_a_slot(modulation);
    }
    turns_that_come_round();
    points_of_few_labels();
    refusing_points();
}
