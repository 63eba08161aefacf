/* Calls of every kind through include/s3frame.h, with what each must answer and leave (documents 01 and 02). It is C that is
 * C++ too. The last line has the counts, and the exit status is 0 where all tests held. */
#include "checks.h"
#include "topics.h"

int main(void)
{
    static void (*const topics[])(void) = {test_texts, test_plans, test_states, test_slots, test_frames, test_tmcc,
                                           test_symbols, test_points, test_packets, test_tlv, test_settings,
                                           test_empty_areas};
    for (size_t k = 0; k < COUNT(topics); k++) {
        topics[k]();
        take_back();
    }
    return all_passed() ? 0 : 1;
}
