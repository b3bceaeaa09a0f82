/*
 * The host's stack that the calls of jugrond.h use.
 *
 *     host_stack measure              how many bytes each call uses below its caller, as a table; and whether the
 *                                     header's two figures cover that with the margin, and are not stale
 *     host_stack threads [ALL TICK]   makes every call in a thread of exactly ALL bytes, and those of a tick in one of
 *                                     exactly TICK bytes too. Where they are not given, they are the header's
 *
 * Each row is made in a process of its own, so that one that dies is told. Measuring paints a thread's stack and looks
 * how far down it was overwritten, with two paints. A call of memcpy or memset takes more stack the first time in a
 * program, when the dynamic linker looks it up: here each one is looked up (LD_BIND_NOT).
 * Last line: 'N passed, M failed'; the exit status tells.
 */
#define _GNU_SOURCE
#include "jugrond.h"

#include "routines.h"

#include <pthread.h>
#include <stdbool.h>
#include <stdio.h>
#include <stdlib.h>
#include <string.h>
#include <sys/mman.h>
#include <sys/wait.h>
#include <unistd.h>

#define MARGIN 16384         /* of the header's figures, for what is not the call's own */
#define STALE 65536          /* a figure that is more than this above what is used was measured of another build */
#define PAGE 4096            /* the figures are whole pages */
#define PAINTED (2 << 20)    /* bytes of a thread's stack when it is measured */
#define FAR_GUARD (16 << 20) /* below a thread's stack, so that no frame reaches over it */
#define PLACES 1024          /* of the opcode maps: 256 each without a prefix, with $18, $1A and $CD */
#define MARKS 4096           /* the most that a ticket can have */
#define LONGEST_TICKET 90138 /* home, and as many marks, each with a name */

static uint8_t registers[JUGROND_REGISTER_BYTES], memory[JUGROND_MEMORY_BYTES], slot[JUGROND_SLOT_BYTES];
static uint8_t p_ticket[P_MOST_TICKET_BYTES], p_image[P_IMAGE_BYTES + 1];
static uint8_t long_ticket[LONGEST_TICKET], long_image[MARKS], longest_image[65535];

static uint32_t cost, place32, cycles;
static uint16_t entry, home, stack, place16;

static void expect(uint32_t got, uint32_t wanted)
{
    if (got != wanted)
        _exit(3);
}

/* A routine and what it is judged to be. */
struct judged {
    const uint8_t *ticket, *image;
    size_t ticket_length, image_length;
    uint32_t outcome;
};

static void by_verdict(const struct judged *j)
{
    expect(jugrond_verdict(j->ticket, j->ticket_length, j->image, j->image_length, &entry, &home, &cost, &stack,
                           &place32),
           j->outcome);
}

static void by_start(const struct judged *j)
{
    expect(jugrond_start(j->ticket, j->ticket_length, j->image, j->image_length, registers, sizeof registers, memory,
                         sizeof memory, &home, &place32),
           j->outcome);
}

static void by_certify(const struct judged *j)
{
    expect(jugrond_certify(j->ticket, j->ticket_length, j->image, j->image_length, slot, sizeof slot, &place32),
           j->outcome);
}

typedef void judge(const struct judged *);

static void judge_p(judge *by)
{
    make_ticket(&routines[0], p_ticket);
    make_image(&routines[0], p_image);
    by(&(struct judged){p_ticket, p_image, P_TICKET_BYTES, P_IMAGE_BYTES, JUGROND_ACCEPTED});
}

static void judge_damaged(judge *by)
{
    for (size_t i = 1; i < routine_count; i++) {
        const struct routine *r = &routines[i];

        make_ticket(r, p_ticket);
        make_image(r, p_image);
        by(&(struct judged){p_ticket, p_image, r->ticket_length, r->image_length, r->outcome});
    }
}

static uint8_t *put(uint8_t *at, uint32_t value, int bytes)
{
    for (int i = bytes - 1; i >= 0; i--)
        *at++ = (uint8_t)(value >> (8 * i));
    return at;
}

/* The longest ticket: home; NOPs and an RTS, a mark with a name at each. The cost at the last NOP is given. */
static void make_longest(uint32_t last)
{
    uint8_t *at = put(put(put(long_ticket, 1, 1), 0x8000, 2), MARKS, 2);

    at = put(put(put(at, 2, 1), 0x0040, 2), 1, 2);
    at = put(put(put(at, 3, 1), 0x01f0, 2), 5, 2);
    at = put(put(put(at, 4, 1), 0x8000, 2), 2 * (MARKS - 1) + 5, 4);
    at = put(put(at, 7, 1), 0xffff, 2);
    for (uint32_t i = 0; i < MARKS; i++) {
        at = put(put(put(at, 5, 1), 0x8000 + i, 2), i == MARKS - 2 ? last : 2 * (MARKS - 1 - i) + 5, 4);
        at = put(put(put(put(at, 0, 4), 6, 1), 0x8000 + i, 2), 0x41424344, 4);
        at = put(at, 0x45464748, 4);
    }
    at = put(at, 0, 1);
    expect((uint32_t)(at - long_ticket), LONGEST_TICKET);
    memset(long_image, 0x01, sizeof long_image);
    long_image[MARKS - 1] = 0x39;
}

static void judge_longest(judge *by)
{
    make_longest(7);
    by(&(struct judged){long_ticket, long_image, LONGEST_TICKET, MARKS, JUGROND_ACCEPTED});
}

static void judge_longest_damaged(judge *by)
{
    make_longest(6);
    by(&(struct judged){long_ticket, long_image, LONGEST_TICKET, MARKS, 16});
}

/* The registers at an instruction of the opcode maps, with bytes after it that lead on to more instructions. */
static void set_place(uint32_t n)
{
    static const uint8_t prefixes[] = {0x00, 0x18, 0x1a, 0xcd};
    size_t at = 0x8000;

    for (size_t i = 0; i < sizeof memory; i++)
        memory[i] = (uint8_t)(i * 7 + (i >> 8));
    if (n >= 256)
        memory[at++] = prefixes[n / 256];
    memory[at] = (uint8_t)n;
    memcpy(registers, "\x12\x34\x10\x00\x20\x00\x01\xf0\x80\x00\xd0\x01\xf0", sizeof registers);
}

static void reset(void)
{
    expect(jugrond_reset(registers, sizeof registers), JUGROND_DONE);
}

static void step_everywhere(void)
{
    uint32_t done = 0;

    for (uint32_t n = 0; n < PLACES; n++) {
        set_place(n);
        done += jugrond_step(registers, sizeof registers, memory, sizeof memory, &cycles, &place16) == JUGROND_DONE;
    }
    expect(done, 305);
}

/* A run from each instruction on, as far as it goes. */
static void run_everywhere(void)
{
    for (uint32_t n = 0; n < PLACES; n++) {
        set_place(n);
        jugrond_run(registers, sizeof registers, memory, sizeof memory, 0, 10000, &cycles, &place16);
    }
}

static void start_p(void)
{
    make_image(&routines[0], p_image);
    expect(jugrond_start_certified(routines[0].slot, JUGROND_SLOT_BYTES, p_image, P_IMAGE_BYTES, registers,
                                   sizeof registers, memory, sizeof memory, &home, &place32),
           JUGROND_ACCEPTED);
}

static void run_p(void)
{
    start_p();
    expect(jugrond_run(registers, sizeof registers, memory, sizeof memory, home, 26, &cycles, &place16), JUGROND_HOME);
}

static void start_longest(void)
{
    memcpy(slot, routines[0].slot, sizeof slot);
    put(slot + JUGROND_SLOT_CODE_LENGTH, sizeof longest_image, 2);
    expect(jugrond_start_certified(slot, sizeof slot, longest_image, sizeof longest_image, registers, sizeof registers,
                                   memory, sizeof memory, &home, &place32),
           JUGROND_ACCEPTED);
    expect(jugrond_start_certified(slot, sizeof slot, longest_image, 1, registers, sizeof registers, memory,
                                   sizeof memory, &home, &place32),
           JUGROND_BAD_IMAGE);
}

/* A call with inputs: one that judges, or one of a tick. */
struct row {
    const char *call, *inputs;
    void (*judged)(judge *);
    judge *by;
    void (*tick)(void);
};

static const struct row rows[] = {
    {"jugrond_verdict", "P", judge_p, by_verdict, NULL},
    {"jugrond_verdict", "P, damaged in each way", judge_damaged, by_verdict, NULL},
    {"jugrond_verdict", "the longest ticket", judge_longest, by_verdict, NULL},
    {"jugrond_verdict", "the longest ticket, damaged", judge_longest_damaged, by_verdict, NULL},
    {"jugrond_start", "P", judge_p, by_start, NULL},
    {"jugrond_start", "P, damaged in each way", judge_damaged, by_start, NULL},
    {"jugrond_start", "the longest ticket", judge_longest, by_start, NULL},
    {"jugrond_start", "the longest ticket, damaged", judge_longest_damaged, by_start, NULL},
    {"jugrond_certify", "P", judge_p, by_certify, NULL},
    {"jugrond_certify", "P, damaged in each way", judge_damaged, by_certify, NULL},
    {"jugrond_certify", "the longest ticket", judge_longest, by_certify, NULL},
    {"jugrond_certify", "the longest ticket, damaged", judge_longest_damaged, by_certify, NULL},
    {"jugrond_start_certified", "P", NULL, NULL, start_p},
    {"jugrond_start_certified", "an image of 65,535 bytes", NULL, NULL, start_longest},
    {"jugrond_reset", "", NULL, NULL, reset},
    {"jugrond_step", "each place of the opcode maps", NULL, NULL, step_everywhere},
    {"jugrond_run", "P", NULL, NULL, run_p},
    {"jugrond_run", "from each place of the opcode maps", NULL, NULL, run_everywhere},
};
#define ROWS (sizeof rows / sizeof rows[0])

static const uint8_t *frame; /* of the thread's function, which makes the calls */

static void *make(void *argument)
{
    const struct row *r = argument;

    frame = __builtin_frame_address(0);
    if (r->tick != NULL)
        r->tick();
    else
        r->judged(r->by);
    return NULL;
}

/* Makes a row's calls in a thread, in this process. */
static void make_in_thread(const struct row *r, const pthread_attr_t *attributes)
{
    pthread_t thread;

    if (pthread_create(&thread, attributes, make, (void *)r) != 0 || pthread_join(thread, NULL) != 0)
        _exit(4);
}

static uint8_t painted[PAINTED] __attribute__((aligned(4096)));

/* The bytes below the thread's function that a row overwrites. */
static size_t used_with(const struct row *r, uint8_t paint)
{
    pthread_attr_t attributes;
    const uint8_t *lowest = painted;

    memset(painted, paint, sizeof painted);
    if (pthread_attr_init(&attributes) != 0 || pthread_attr_setstack(&attributes, painted, sizeof painted) != 0)
        _exit(4);
    make_in_thread(r, &attributes);
    while (lowest < frame && *lowest == paint)
        lowest++;
    return (size_t)(frame - lowest);
}

static void make_in_stack_of(const struct row *r, size_t bytes)
{
    pthread_attr_t attributes;

    if (pthread_attr_init(&attributes) != 0 || pthread_attr_setguardsize(&attributes, FAR_GUARD) != 0 ||
        pthread_attr_setstacksize(&attributes, bytes) != 0)
        _exit(4);
    make_in_thread(r, &attributes);
}

static size_t *shared; /* what a process finds, for the one that started it */

/* One row in a process of its own: measured with a paint, or where that is 0 made in a stack of some bytes. */
static bool in_process(const struct row *r, uint8_t paint, size_t bytes)
{
    int status = 0;
    pid_t child;

    fflush(stdout);
    child = fork();
    if (child == 0) {
        if (paint != 0)
            *shared = used_with(r, paint);
        else
            make_in_stack_of(r, bytes);
        _exit(0);
    }
    if (child < 0 || waitpid(child, &status, 0) != child)
        return false;
    if (WIFSIGNALED(status))
        printf("FAILED %s, %s: died of signal %d\n", r->call, r->inputs, WTERMSIG(status));
    else if (status != 0)
        printf("FAILED %s, %s: status %d\n", r->call, r->inputs, WEXITSTATUS(status));
    return status == 0;
}

static int passed, failed;

static void count(bool holds)
{
    if (holds)
        passed++;
    else
        failed++;
}

static void check_figure(const char *name, size_t figure, size_t used)
{
    bool covers = figure >= used + MARGIN, fresh = figure <= used + STALE, pages = figure % PAGE == 0;

    printf("%s is %zu: used %zu, left %zd%s%s%s\n", name, figure, used, (ssize_t)(figure - used),
           covers ? "" : ", TOO SMALL", fresh ? "" : ", STALE", pages ? "" : ", NOT IN PAGES");
    count(covers && fresh && pages);
}

static void measure(void)
{
    size_t most = 0, most_of_tick = 0;

    puts("| call | with | bytes of the host's stack |\n| --- | --- | --: |");
    for (const struct row *r = rows; r < rows + ROWS; r++) {
        static const uint8_t paints[] = {0xa5, 0x3c};
        size_t used = 0;
        bool done = true;

        for (size_t i = 0; i < sizeof paints; i++) {
            done = in_process(r, paints[i], 0) && done;
            used = *shared > used ? *shared : used;
        }
        count(done && used > 0);
        printf("| `%s` | %s | %zu |\n", r->call, r->inputs, used);
        if (used > most)
            most = used;
        if (r->tick != NULL && used > most_of_tick)
            most_of_tick = used;
    }
    check_figure("JUGROND_HOST_STACK_BYTES", JUGROND_HOST_STACK_BYTES, most);
    check_figure("JUGROND_HOST_STACK_TICK_BYTES", JUGROND_HOST_STACK_TICK_BYTES, most_of_tick);
}

static void threads(size_t all, size_t tick)
{
    for (const struct row *r = rows; r < rows + ROWS; r++) {
        count(in_process(r, 0, all));
        if (r->tick != NULL)
            count(in_process(r, 0, tick));
    }
}

int main(int argc, char **argv)
{
    if (getenv("LD_BIND_NOT") == NULL) {
        setenv("LD_BIND_NOT", "1", 1);
        execv("/proc/self/exe", argv);
        return 2;
    }
    shared = mmap(NULL, sizeof *shared, PROT_READ | PROT_WRITE, MAP_SHARED | MAP_ANONYMOUS, -1, 0);
    if (shared == MAP_FAILED)
        return 2;
    if (argc == 2 && strcmp(argv[1], "measure") == 0)
        measure();
    else if (argc == 2 && strcmp(argv[1], "threads") == 0)
        threads(JUGROND_HOST_STACK_BYTES, JUGROND_HOST_STACK_TICK_BYTES);
    else if (argc == 4 && strcmp(argv[1], "threads") == 0)
        threads(strtoul(argv[2], NULL, 10), strtoul(argv[3], NULL, 10));
    else
        return 2;
    printf("%d passed, %d failed\n", passed, failed);
    return failed == 0 ? EXIT_SUCCESS : EXIT_FAILURE;
}
