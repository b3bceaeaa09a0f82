/* Executes one instruction in GNU's simulator for each state on standard input and prints what it answers.
   Input, a line for each state:   PLACE BEFORE N ADDRESSBYTE ...      (states.py writes them)
   Output, a line for each state:  AFTER CYCLES W ADDRESSBYTE ...      or HALT where the simulator stops instead
   BEFORE and AFTER: A B X Y SP PC flags, 11 bytes, high byte first. All numbers hexadecimal but for the cycles, which
   are decimal. Written bytes stand in the order of GNU's writes, with the value that is in memory afterwards. Link with
   -Wl,--wrap=sim_core_write_buffer, so that every write is seen here, also one that leaves the byte as it was. */
#include "gnu_open.h"
#include <stdio.h>
#include <string.h>

enum { BACKGROUND = 0x3C, MOST_LISTED = 16, MOST_WRITTEN = 32 };

static uint8_t memory[65536], expected[65536];
static unsigned written[MOST_WRITTEN], writes;

unsigned __real_sim_core_write_buffer(SIM_DESC, sim_cpu *, unsigned, const void *, address_word, unsigned);

unsigned __wrap_sim_core_write_buffer(SIM_DESC sd, sim_cpu *cpu, unsigned map, const void *from, address_word address,
                                      unsigned bytes)
{
    for (unsigned i = 0; i < bytes; i++) {
        unsigned at = (address + i) & 0xFFFF, j = 0;
        while (j < writes && written[j] != at)
            j++;
        if (j == MOST_WRITTEN)
            abort();
        if (j == writes)
            written[writes++] = at;
        expected[at] = ((const uint8_t *)from)[i];
    }
    return __real_sim_core_write_buffer(sd, cpu, map, from, address, bytes);
}

static void store(sim_cpu *cpu, const unsigned *r)
{
    cpu_set_d(cpu, r[0] << 8 | r[1]);
    cpu_set_x(cpu, r[2] << 8 | r[3]);
    cpu_set_y(cpu, r[4] << 8 | r[5]);
    cpu_set_sp(cpu, r[6] << 8 | r[7]);
    cpu_set_pc(cpu, r[8] << 8 | r[9]);
    cpu_set_ccr(cpu, r[10]);
}

static void print(sim_cpu *cpu)
{
    printf("%04X%04X%04X%04X%04X%02X %d %02X", cpu_get_d(cpu), cpu_get_x(cpu), cpu_get_y(cpu), cpu_get_sp(cpu),
           cpu_get_pc(cpu), cpu_get_ccr(cpu), cpu->cpu_current_cycle, writes);
    for (unsigned i = 0; i < writes; i++)
        printf(" %04X%02X", written[i], memory[written[i]]);
    putchar('\n');
}

/* One state: answers whether there was a line. */
static int one(sim_cpu *cpu)
{
    unsigned place, r[11], n, cell[MOST_LISTED];
    if (scanf("%x ", &place) != 1)
        return 0;
    for (int i = 0; i < 11; i++)
        if (scanf("%2x", &r[i]) != 1)
            abort();
    if (scanf("%x", &n) != 1 || n > MOST_LISTED)
        abort();
    for (unsigned i = 0; i < n; i++) {
        if (scanf("%x", &cell[i]) != 1)
            abort();
        memory[cell[i] >> 8] = expected[cell[i] >> 8] = cell[i];
    }

    jmp_buf halted;
    store(cpu, r);
    writes = 0;
    STATE_ENGINE(CPU_STATE(cpu))->jmpbuf = &halted;
    if (setjmp(halted) == 0) {
        cpu_single_step(cpu);
        print(cpu);
    } else
        puts("HALT");
    STATE_ENGINE(CPU_STATE(cpu))->jmpbuf = NULL;

    if (memcmp(memory, expected, sizeof memory) != 0)   /* every change went through the writes seen above */
        abort();
    for (unsigned i = 0; i < n; i++)
        memory[cell[i] >> 8] = expected[cell[i] >> 8] = BACKGROUND;
    for (unsigned i = 0; i < writes; i++)
        memory[written[i]] = expected[written[i]] = BACKGROUND;
    return 1;
}

int main(void)
{
    memset(memory, BACKGROUND, sizeof memory);
    memset(expected, BACKGROUND, sizeof expected);
    sim_cpu *cpu = gnu_open(memory);
    while (one(cpu))
        ;
    return 0;
}
