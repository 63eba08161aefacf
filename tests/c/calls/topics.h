/* The topics of the tests, one file each. */
#ifndef TOPICS_H
#define TOPICS_H

void test_texts(void);
void test_plans(void);
void test_states(void);
void test_slots(void);
void test_frames(void);
void test_tmcc(void);
void test_symbols(void);
void test_points(void);
void test_packets(void);
void test_tlv(void);
void test_settings(void);
void test_empty_areas(void);

#endif
