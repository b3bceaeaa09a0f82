/* GNU's simulator: NUMBER instructions, each by the function that GNU's own run calls for a step (interrupts looked at,
   then the interpreter); what GNU's run does besides for its event queue after each step is left out. The lowest SP
   stays as it is at the start: GNU's simulator has none. */
#include "gnu_open.h"
#include "state.h"

static uint16_t word(const uint8_t *b)
{
    return (uint16_t)(b[0] << 8 | b[1]);
}

static void put_word(uint8_t *b, uint16_t v)
{
    b[0] = (uint8_t)(v >> 8);
    b[1] = (uint8_t)v;
}

static void set_registers(sim_cpu *cpu, const uint8_t *r)
{
    cpu_set_d(cpu, word(r));
    cpu_set_x(cpu, word(r + 2));
    cpu_set_y(cpu, word(r + 4));
    cpu_set_sp(cpu, word(r + 6));
    cpu_set_pc(cpu, word(r + 8));
    cpu_set_ccr(cpu, r[10]);
}

static void get_registers(sim_cpu *cpu, uint8_t *r)
{
    put_word(r, cpu_get_d(cpu));
    put_word(r + 2, cpu_get_x(cpu));
    put_word(r + 4, cpu_get_y(cpu));
    put_word(r + 6, cpu_get_sp(cpu));
    put_word(r + 8, cpu_get_pc(cpu));
    r[10] = cpu_get_ccr(cpu);
}

int main(int count, char **words)
{
    uint32_t instructions;
    struct state *s = state_start(count, words, &instructions);
    sim_cpu *cpu = gnu_open(s->memory);
    set_registers(cpu, s->registers);
    cpu->cpu_absolute_cycle = 0;
    for (uint32_t i = 0; i < instructions; i++)
        cpu_single_step(cpu);
    get_registers(cpu, s->registers);
    s->cycles = (uint32_t)cpu->cpu_absolute_cycle;
    state_save(s, words);
    return 0;
}
