#include "check.h"
#include "tests.h"

int main(void)
{
    table_tests();
    table_trial_tests();
    table_refusal_tests();
    repeat_tests();
    long_run_tests();
    example_tests();
    question_tests();
    last_page_tests();
    line_tests();
    line_vector_tests();
    line_refusal_tests();
    line_storm_tests();
    list_example_tests();
    list_tests();
    list_refusal_tests();
    take_refusal_tests();
    complete_list_tests();
    journey_tests();
    many_tests();
    many_answer_tests();
    edge_tests();
    thread_tests();
    refusal_tests();
    return finish_tests();
}
