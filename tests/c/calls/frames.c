/* Coding and reading a whole frame, that of `mixed`. */
#include "parity.h"
#include "samples.h"
#include "topics.h"

static uint8_t sources[MIXED_SOURCE + 1];
static uint16_t tables[MIXED_TABLES];
static area frame, back, answers, stuff, positions;

/* The lengths of a call's areas. */
enum { TABLES, SOURCE, FRAME, ANSWERS, STUFF, POSITIONS, AREAS };
typedef struct lengths {
    size_t of[AREAS];
} lengths;
static const lengths right = {{MIXED_TABLES, MIXED_SOURCE, 673200, 120, 120, 120}};

/* Those lengths with one area's another. */
static lengths with(lengths given, unsigned which, size_t length)
{
    given.of[which] = length;
    return given;
}

static uint8_t code(uint32_t mask, uint32_t start, lengths given)
{
    const size_t *const of = given.of;
    return s3_code_frame(mixed, mask, start, tables, of[TABLES], sources, of[SOURCE], frame.octets, of[FRAME]);
}

static uint8_t read_frame(uint32_t mask, uint32_t start, lengths given)
{
    const size_t *const of = given.of;
    return s3_read_frame(mixed, mask, start, tables, of[TABLES], frame.octets, of[FRAME], back.octets, of[SOURCE],
                         answers.octets, of[ANSWERS], stuff.octets, of[STUFF], numbers(positions), of[POSITIONS]);
}

static bool all_untouched(void)
{
    return untouched(back) && untouched(answers) && untouched(stuff) && untouched(positions);
}

/* A wrong length comes behind the register and before the table. Coding has the first three areas alone. */
static void wrong_length(unsigned which, size_t length)
{
    const lengths wrong = with(right, which, length), two = with(wrong, TABLES, MIXED_TABLES - 1);
    EXPECT(read_frame(MASK, START, wrong) == S3_REFUSED_LENGTH && read_frame(MASK, START, two) == S3_REFUSED_LENGTH);
    EXPECT(read_frame(0, START, wrong) == S3_REFUSED_REGISTER && read_frame(MASK, 0, two) == S3_REFUSED_REGISTER);
    if (which > FRAME) return;
    EXPECT(code(MASK, START, wrong) == S3_REFUSED_LENGTH && code(MASK, START, two) == S3_REFUSED_LENGTH);
    EXPECT(code(0, START, wrong) == S3_REFUSED_REGISTER && code(MASK, 0, two) == S3_REFUSED_REGISTER);
}

static void refusing(void)
{
    static const size_t counts[] = {0, 1, 119, 121};
    const lengths cut = with(right, TABLES, MIXED_TABLES - 1);
    for (size_t k = 0; k < COUNT(counts); k++) {
        for (unsigned which = ANSWERS; which <= POSITIONS; which++) wrong_length(which, counts[k]);
    }
    for (size_t off = 0; off < 3; off += 2) {
        wrong_length(SOURCE, MIXED_SOURCE - 1 + off);
        wrong_length(FRAME, S3_FRAME_OCTETS - 1 + off);
    }
    EXPECT(code(MASK, START, cut) == S3_REFUSED_TABLE && read_frame(MASK, START, cut) == S3_REFUSED_TABLE);
    tables[471]++; /* a row's count, of the second group's table */
    EXPECT(code(MASK, START, right) == S3_REFUSED_TABLE && read_frame(MASK, START, right) == S3_REFUSED_TABLE);
    tables[471]--;
    EXPECT(code(1u << 25, START, right) == S3_REFUSED_REGISTER && code(MASK, 1u << 25, right) == S3_REFUSED_REGISTER);
    EXPECT(untouched(frame) && all_untouched());
}

/* The frame is what the slot calls make, and the dummies' parts are as found. */
static void coding(void)
{
    static uint8_t slot[S3_SLOT_OCTETS];
    s3_answer answer = s3_open(mixed, MASK, START);
    size_t from = 0;
    unsigned same = 0, left = 0;
    EXPECT(code(MASK, START, right) == S3_ACCEPTED && answer.number == S3_ACCEPTED);
    for (uint32_t s = 1; s <= S3_SLOTS; s++) {
        const uint8_t *const part = frame.octets + S3_SLOT_OCTETS * (s - 1);
        const s3_slot_place place = s3_place(mixed, s).place;
        const bool high = place.rate == 7;
        const size_t octets = high ? SOURCE_7 : SOURCE_3;
        if (!place.carries) {
            answer = s3_pass(answer.state);
            left += answer.number == S3_ACCEPTED && as_found(part, S3_SLOT_OCTETS);
            continue;
        }
        answer = s3_code_slot(answer.state, high ? tables : tables + 471, high ? 471 : 356, sources + from, octets, slot,
                              sizeof slot);
        same += answer.number == S3_ACCEPTED && answer.state.slot == s + 1 && memcmp(slot, part, sizeof slot) == 0;
        from += octets;
    }
    EXPECT(same == 94 && left == 26 && from == MIXED_SOURCE);
}

/* What is damaged in the frame that is read, a bit of each slot, with the parity made anew for 9; and what must be told of the
 * slot. They are neighbours, the last data slots of both groups, and a dummy. */
typedef struct damage {
    uint32_t slot, answer, bit, position;
} damage;
static const damage frame_damage[] = {
    {1, S3_REFUSED_PARITY, 374 * ROWS_7, 0},
    {2, S3_REFUSED_PARITY, 0, 521}, /* the lowest address of row 0 */
    {3, S3_REFUSED_PARITY, 8 * 5610 - 1, 374 * 27 - 1},
    {4, S3_REFUSED_BCH, 0, S3_NO_POSITION},
    {92, S3_REFUSED_PARITY, 374 * ROWS_7 + 700, 700},
    {93, S3_REFUSED_DUMMY, 374 * ROWS_7 + 700, S3_NO_POSITION},
    {117, S3_REFUSED_PARITY, 8 * 5610 - 1, 374 * 59 - 1},
};

static damage damage_of(uint32_t slot)
{
    damage none = {slot, S3_REFUSED_DUMMY, 0, S3_NO_POSITION};
    for (size_t k = 0; k < COUNT(frame_damage); k++) {
        if (frame_damage[k].slot == slot) return frame_damage[k];
    }
    if (slot <= 92 || slot == 116) none.answer = S3_ACCEPTED;
    return none;
}

/* Damages the frame, in which slots 5 and 116 get other stuff bits too. */
static void put_damage(void)
{
    put_stuff(frame.octets + 4 * S3_SLOT_OCTETS, ROWS_7, tables, 31);
    put_stuff(frame.octets + 115 * S3_SLOT_OCTETS, ROWS_3, tables + 471, 0);
    for (size_t k = 0; k < COUNT(frame_damage); k++) {
        uint8_t *const part = frame.octets + S3_SLOT_OCTETS * (frame_damage[k].slot - 1);
        flip(part, frame_damage[k].bit);
        if (frame_damage[k].answer == S3_REFUSED_BCH) new_parity(part, ROWS_7, tables);
    }
}

static void reading(void)
{
    unsigned told = 0;
    put_damage();
    EXPECT(read_frame(MASK, START, right) == S3_ACCEPTED);
    for (uint32_t s = 1; s <= S3_SLOTS; s++) {
        const damage wanted = damage_of(s);
        const uint32_t bits = wanted.answer != S3_ACCEPTED ? S3_NO_STUFF : s == 5 ? 31 : s == 116 ? 0 : S3_STUFF_ONES;
        told += answers.octets[s - 1] == wanted.answer && stuff.octets[s - 1] == bits
            && numbers(positions)[s - 1] == wanted.position;
    }
    EXPECT(told == S3_SLOTS);
    for (size_t k = 0; k < COUNT(frame_damage); k++) {
        const size_t s = frame_damage[k].slot, from = s <= 92 ? SOURCE_7 * (s - 1) : MIXED_SOURCE - SOURCE_3;
        const size_t octets = s <= 92 ? SOURCE_7 : s == 117 ? SOURCE_3 : 0;
        EXPECT(as_found(back.octets + from, octets));
        memcpy(back.octets + from, sources + from, octets);
    }
    EXPECT(memcmp(back.octets, sources, MIXED_SOURCE) == 0);
}

void test_frames(void)
{
    frame = lend(S3_FRAME_OCTETS);
    back = lend(MIXED_SOURCE);
    answers = lend(S3_SLOTS);
    stuff = lend(S3_SLOTS);
    positions = lend(S3_SLOTS * sizeof(uint16_t));
    EXPECT(s3_published_tables(mixed, tables, MIXED_TABLES) == S3_ACCEPTED);
    fill(sources, sizeof sources);
    refusing();
    coding();
    reading();
}
