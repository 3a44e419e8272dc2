/* The tests, by topic; each runs those of its file. */
#ifndef TESTS_H
#define TESTS_H

void table_tests(void);
void table_trial_tests(void);
void table_refusal_tests(void);
void repeat_tests(void);
void long_run_tests(void);
void example_tests(void);
void question_tests(void);
void last_page_tests(void);
void line_tests(void);
void line_vector_tests(void);
void line_refusal_tests(void);
void line_storm_tests(void);
void list_example_tests(void);
void list_tests(void);
void list_refusal_tests(void);
void take_refusal_tests(void);
void complete_list_tests(void);
void journey_tests(void);
void many_tests(void);
void many_answer_tests(void);
void edge_tests(void);
void thread_tests(void);
/* Last: looks at what all the others reached. */
void refusal_tests(void);

#endif
