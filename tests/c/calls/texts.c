/* The version, the sizes, the words of numbers, plans as text and their lists. */
#include "samples.h"
#include "topics.h"

static void version(void)
{
    EXPECT(s3_version() == S3_VERSION);
    EXPECT(S3_VERSION == 900);
}

/* A caller declares areas by these, and the other topics have the numbers. */
static void sizes(void)
{
    EXPECT(S3_GROUPS == 8 && S3_SLOTS == 120 && S3_SLOT_OCTETS == 5610 && S3_FRAME_OCTETS == 120 * 5610);
    EXPECT(S3_HEADER_OCTETS == 22 && S3_PACKET_OCTETS == 188 && S3_MOST_SOURCE == 22 + 187 * 27 && S3_MOST_TABLE == 510);
    EXPECT(S3_LIST_OCTETS == 512 && S3_SETTING_OCTETS == 512 && S3_MOST_SETTINGS == 64);
    EXPECT(S3_TMCC_OCTETS == 1178 && S3_TMCC_BLOCK_OCTETS == 3960 && S3_TMCC_BLOCK_LABELS == 8 * 3960);
    EXPECT(S3_NO_BEGIN == 65535 && S3_STUFF_ONES == 63 && S3_NO_STUFF == 255 && S3_NO_POSITION == 65535);
}

static void words(void)
{
    static const struct {
        uint32_t number;
        const char *word;
    } all[] = {
        {S3_ACCEPTED, "accepted"}, {S3_REFUSED_PLAN, "plan"}, {S3_REFUSED_DUMMY, "dummy"}, {S3_REFUSED_FULL, "full"},
        {S3_REFUSED_LENGTH, "length"}, {S3_REFUSED_TABLE, "table"}, {S3_REFUSED_REGISTER, "register"},
        {S3_REFUSED_SYNC, "sync"}, {S3_REFUSED_PARITY, "parity"}, {S3_REFUSED_BCH, "BCH"}, {10, "unknown"},
        {S3_REFUSED_TAIL, "tail"}, {S3_REFUSED_LABEL, "label"}, {S3_REFUSED_VALUE, "value"}, {S3_REFUSED_ORDER, "order"},
        {S3_REFUSED_TOTAL, "total"}, {S3_REFUSED_PACKET, "packet"}, {S3_REFUSED_BLOCK, "block"},
        {S3_REFUSED_COORDINATE, "coordinate"}, {19, "unknown"},
    };
    for (uint32_t k = 0; k < COUNT(all); k++) EXPECT(all[k].number == k && strcmp(s3_word(k), all[k].word) == 0);
    EXPECT(strcmp(s3_word(256), "unknown") == 0 && strcmp(s3_word(UINT32_MAX), "unknown") == 0);
}

/* Texts, and the numbers of their plans. A number has up to three digits, and 0 alone may begin with a zero. */
#define LINE "1 1 10\n"
static const struct {
    uint8_t number;
    const char *text;
} texts[] = {
    {S3_ACCEPTED, "4 7 115\n2 3 5\n"},
    {S3_ACCEPTED, "5 11 120\n"},
    {S3_ACCEPTED, "5 11 5\n5 10 5\n5 9 5\n4 11 5\n4 10 5\n3 9 5\n2 3 5\n1 1 85\n"},
    {S3_REFUSED_PLAN, ""},
    {S3_REFUSED_PLAN, "\n"},
    {S3_REFUSED_PLAN, "4 7 115\n2 3 5"},
    {S3_REFUSED_PLAN, "4 7 115\n2 3 5\n\n"},
    {S3_REFUSED_PLAN, "4 7 115\n2 3 05\n"},
    {S3_REFUSED_PLAN, "04 7 115\n2 3 5\n"},
    {S3_REFUSED_PLAN, "00 7 115\n"},
    {S3_REFUSED_PLAN, "4 7  115\n2 3 5\n"},
    {S3_REFUSED_PLAN, " 4 7 115\n2 3 5\n"},
    {S3_REFUSED_PLAN, "4 7 115 \n2 3 5\n"},
    {S3_REFUSED_PLAN, "4 7 115\r\n2 3 5\r\n"},
    {S3_REFUSED_PLAN, "4 7\n2 3 5\n"},
    {S3_REFUSED_PLAN, "4 7 -115\n"},
    {S3_REFUSED_PLAN, "5 11 0120\n"},
    {S3_REFUSED_PLAN, "5 11 1000\n"},
    {S3_REFUSED_PLAN, LINE LINE LINE LINE LINE LINE LINE LINE LINE},
    {S3_REFUSED_VALUE, "0 0 0\n"},
    {S3_REFUSED_VALUE, "4 7 116\n2 3 4\n"},
    {S3_REFUSED_VALUE, "5 11 999\n"},
    {S3_REFUSED_VALUE, "261 11 120\n"},
    {S3_REFUSED_VALUE, "5 267 120\n"},
    {S3_REFUSED_VALUE, "5 11 376\n"},
    {S3_REFUSED_ORDER, "2 3 5\n4 7 115\n"},
    {S3_REFUSED_ORDER, LINE LINE LINE LINE LINE LINE LINE LINE},
    {S3_REFUSED_TOTAL, "4 7 115\n"},
    {S3_REFUSED_TOTAL, "5 11 375\n"},
    /* wrong in two ways */
    {S3_REFUSED_PLAN, "4 12 0115\n"},
    {S3_REFUSED_VALUE, "2 3 4\n4 7 116\n"},
    {S3_REFUSED_ORDER, "2 3 5\n4 7 110\n"},
};

static s3_plan_read plan_of(const char *text)
{
    return s3_plan_of_text((const uint8_t *)text, strlen(text));
}

static void plans_of_texts(void)
{
    static const s3_plan one = {1, {5}, {11}, {120}}, two = {2, {4, 2}, {7, 3}, {115, 5}};
    static const s3_plan eight = {8, {5, 5, 5, 4, 4, 3, 2, 1}, {11, 10, 9, 11, 10, 9, 3, 1}, {5, 5, 5, 5, 5, 5, 5, 85}};
    for (size_t k = 0; k < COUNT(texts); k++) {
        const s3_plan_read read = plan_of(texts[k].text);
        EXPECT(read.number == texts[k].number);
        EXPECT(read.number == S3_ACCEPTED || same_plan(read.plan, no_plan));
    }
    EXPECT(same_plan(plan_of(texts[0].text).plan, two));
    EXPECT(same_plan(plan_of(texts[1].text).plan, one));
    EXPECT(same_plan(plan_of(texts[2].text).plan, eight));
}

/* Texts of too many lines or octets, some of which are right in the low octet or the low 16 bits of their length; and a text
 * that ends before its string does. */
static void lengths_of_texts(void)
{
    static const size_t lengths[] = {96, 97, 128, 129, 256 + 14, 65536 + 14};
    const char *const two = texts[0].text;
    const area lent = lend(65536 + 14);
    for (size_t k = 0; k < lent.size; k++) lent.octets[k] = (uint8_t)two[k % 14];
    for (size_t k = 0; k < COUNT(lengths); k++) {
        const s3_plan_read read = s3_plan_of_text(lent.octets, lengths[k]);
        EXPECT(read.number == S3_REFUSED_PLAN && same_plan(read.plan, no_plan));
    }
    EXPECT(s3_plan_of_text(lent.octets, 14).number == S3_ACCEPTED);
    EXPECT(s3_plan_of_text(lent.octets, 13).number == S3_REFUSED_PLAN);
    EXPECT(s3_plan_of_text(lent.octets, 8).number == S3_REFUSED_TOTAL);
}

/* Whether the list of a text is this one, and the area is as found behind it. */
static bool lists(area lent, const char *text, const char *list)
{
    put_found(lent);
    const size_t length = s3_plan_list((const uint8_t *)text, strlen(text), lent.octets);
    return length == strlen(list) && memcmp(lent.octets, list, length) == 0 && untouched_from(lent, length);
}

static void lists_of_texts(void)
{
    const area lent = lend(S3_LIST_OCTETS);
    EXPECT(lists(lent, "4 7 115\n2 3 5\n", "first last mod rate kind\n"
                                           "1 92 4 7 data\n"
                                           "93 115 4 7 dummy\n"
                                           "116 117 2 3 data\n"
                                           "118 120 2 3 dummy\n"
                                           "total 94 data 26 dummy\n"));
    EXPECT(lists(lent, "5 11 120\n", "first last mod rate kind\n"
                                     "1 120 5 11 data\n"
                                     "total 120 data 0 dummy\n"));
    for (size_t k = 0; k < COUNT(texts); k++) {
        const uint8_t number = texts[k].number;
        if (number == S3_REFUSED_PLAN) EXPECT(lists(lent, texts[k].text, "refused 1\n"));
        if (number == S3_REFUSED_VALUE) EXPECT(lists(lent, texts[k].text, "refused 13\n"));
        if (number == S3_REFUSED_ORDER) EXPECT(lists(lent, texts[k].text, "refused 14\n"));
        if (number == S3_REFUSED_TOTAL) EXPECT(lists(lent, texts[k].text, "refused 15\n"));
    }
}

void test_texts(void)
{
    version();
    sizes();
    words();
    plans_of_texts();
    lengths_of_texts();
    lists_of_texts();
}
