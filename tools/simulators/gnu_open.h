/* A 68HC11 of GNU's simulator over 65,536 plain bytes of ours: no on-chip device is mapped. The bytes are mapped twice,
   at $0 and at $10000, because GNU's 16-bit accesses do not wrap: the second byte after $FFFF is asked for at
   $10000. */
#ifndef GNU_OPEN_H
#define GNU_OPEN_H
#include "defs.h"
#include "sim-main.h"
#include <stdlib.h>

static sim_cia gnu_pc(sim_cpu *cpu) { return cpu_get_pc(cpu); }
static void gnu_set_pc(sim_cpu *cpu, sim_cia pc) { cpu_set_pc(cpu, pc); }

static sim_cpu *gnu_open(uint8_t *memory)
{
    static bfd_arch_info_type m6811 = { .arch = bfd_arch_m68hc11 };
    SIM_DESC sd = sim_state_alloc(SIM_OPEN_STANDALONE, NULL);
    if (sim_cpu_alloc_all(sd, 1) != SIM_RC_OK)
        abort();
    sim_cpu *cpu = STATE_CPU(sd, 0);
    CPU_STATE(cpu) = sd;
    cpu_initialize(sd, cpu);
    sim_core_attach(sd, NULL, 0, access_read_write_exec, 0, 0x00000, 0x10000, 0, NULL, memory);
    sim_core_attach(sd, NULL, 0, access_read_write_exec, 0, 0x10000, 0x10000, 0, NULL, memory);
    cpu->cpu_configured_arch = &m6811;
    cpu->cpu_type = CPU_M6811;
    cpu->cpu_interpretor = cpu_interp_m6811;
    CPU_PC_FETCH(cpu) = gnu_pc;
    CPU_PC_STORE(cpu) = gnu_set_pc;
    cpu_reset(cpu);
    return cpu;
}
#endif
