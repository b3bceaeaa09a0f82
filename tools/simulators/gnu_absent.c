/* What GNU's interpreter names and a machine without devices never reaches: each ends the program. */
#include "defs.h"
#include "sim-main.h"
#include "sim-hw.h"
#include <stdlib.h>

/* GNU's sim-config.c holds this; the 68HC11 is big-endian. */
enum bfd_endian current_target_byte_order = BFD_ENDIAN_BIG;

void sim_board_reset(SIM_DESC sd) { abort(); }
void sim_hw_abort(SIM_DESC sd, struct hw *device, const char *format, ...) { abort(); }
void sim_cpu_hw_io_read_buffer(sim_cpu *cpu, sim_cia cia, struct hw *device, void *to, int space, unsigned_word address,
                               unsigned bytes) { abort(); }
void sim_cpu_hw_io_write_buffer(sim_cpu *cpu, sim_cia cia, struct hw *device, const void *from, int space,
                                unsigned_word address, unsigned bytes) { abort(); }
unsigned sim_hw_io_read_buffer(SIM_DESC sd, struct hw *device, void *to, int space, unsigned_word address,
                               unsigned bytes) { abort(); }
unsigned sim_hw_io_write_buffer(SIM_DESC sd, struct hw *device, const void *from, int space, unsigned_word address,
                                unsigned bytes) { abort(); }
void trace_printf(SIM_DESC sd, sim_cpu *cpu, const char *format, ...) { abort(); }
