/* The stepper's run through its C entry, with a budget of NUMBER cycles. */
#include "jugrond.h"
#include "state.h"

int main(int count, char **words)
{
    uint32_t budget;
    uint16_t place;
    struct state *s = state_start(count, words, &budget);
    uint32_t answer = jugrond_run(s->registers, sizeof s->registers, s->memory, sizeof s->memory, STATE_HOME, budget,
                                  &s->cycles, &place);
    state_save(s, words);
    return answer == JUGROND_SPENT ? 0 : 1;
}
