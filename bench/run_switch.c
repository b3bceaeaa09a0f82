/* The hand-written interpreter, with a budget of NUMBER cycles. */
#include "state.h"
#include "switch.h"

int main(int count, char **words)
{
    uint32_t budget;
    struct state *s = state_start(count, words, &budget);
    int answer = switch_run(s->registers, s->memory, STATE_HOME, budget, &s->cycles);
    state_save(s, words);
    return answer == SWITCH_SPENT ? 0 : 1;
}
