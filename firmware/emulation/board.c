/* The emulated core: start, the host's files by semihosting, instructions by a timer, the stack by painting it.
 *
 * The emulator advances its clock by the same time for each instruction (-icount), and the core's timer counts that
 * time in steps of its own; a loop whose instructions are known says how many. */
#include "platform.h"

#include <stdbool.h>
#include <stddef.h>

static const uint32_t PAINT = 0xA5A5A5A5u;

enum {
    /* The words at the stack's end that no call may touch. */
    SPARE_WORDS = 64,
    CALIBRATION_TURNS = 100000,
    INSTRUCTIONS_A_TURN = 2
};

extern uint32_t stack_end[], stack_top[], data_start[], data_end[], data_image[], bss_start[], bss_end[];

enum host_call { HOST_OPEN = 0x01, HOST_WRITE = 0x05, HOST_EXIT = 0x18 };
enum host_exit { HOST_FAILED = 0x20023, HOST_ENDED = 0x20026 };

static uint32_t ask_host(enum host_call what, uintptr_t with)
{
    register uint32_t r0 __asm__("r0") = (uint32_t)what;
    register uintptr_t r1 __asm__("r1") = with;
    __asm__ volatile("bkpt 0xAB" : "+r"(r0) : "r"(r1) : "memory");
    return r0;
}

/* The host's standard output, or its standard error. */
static uint32_t open_stream(bool is_error)
{
    static const char name[] = ":tt";
    uintptr_t words[] = { (uintptr_t)name, is_error ? 8 : 4, sizeof name - 1 };
    return ask_host(HOST_OPEN, (uintptr_t)words);
}

static uint32_t output, figures;

static void write_to(uint32_t stream, const char *text)
{
    size_t length = 0;
    while (text[length] != 0)
        length++;
    uintptr_t words[] = { stream, (uintptr_t)text, length };
    ask_host(HOST_WRITE, (uintptr_t)words);
}

void print(const char *text)
{
    write_to(output, text);
}

void print_figure(const char *text)
{
    write_to(figures, text);
}

static void fail(const char *what)
{
    write_to(figures, what);
    ask_host(HOST_EXIT, HOST_FAILED);
    for (;;) {
    }
}

__attribute__((used)) static void say_fault(void)
{
    fail("the core has faulted: the stack is too small, or an address is wrong\n");
}

/* The stack of what has faulted is of no use, so this begins a new one. */
__attribute__((naked)) static void fault(void)
{
    __asm__ volatile("ldr r0, =stack_top\n mov sp, r0\n bl say_fault\n .ltorg");
}

/* The core's own timer: 24 bits, counting down. */
#define TIMER_CONTROL (*(volatile uint32_t *)0xE000E010u)
#define TIMER_RELOAD (*(volatile uint32_t *)0xE000E014u)
#define TIMER_VALUE (*(volatile uint32_t *)0xE000E018u)
#define TIMER_MASK 0xFFFFFFu
#define TIMER_RAN_OUT (1u << 16)

static void start_timer(void)
{
    TIMER_RELOAD = TIMER_MASK;
    TIMER_CONTROL = 5; /* counting, by the core's clock */
}

__attribute__((noinline)) static void turn(void)
{
    uint32_t left = CALIBRATION_TURNS;
    __asm__ volatile(".syntax unified\n1: subs %0, %0, #1\n bne 1b" : "+l"(left) : : "cc");
}

static void nothing(void)
{
}

/* What is stored to the timer's value begins its count anew. */
static uint32_t steps_of(void (*function)(void))
{
    TIMER_VALUE = 0;
    uint32_t before = TIMER_VALUE;
    function();
    uint32_t steps = (before - TIMER_VALUE) & TIMER_MASK;
    if (TIMER_CONTROL & TIMER_RAN_OUT)
        fail("a call takes longer than the timer can count\n");
    return steps;
}

static uint32_t steps_for_turns, steps_for_nothing;

static uint32_t *stack_pointer(void)
{
    uint32_t *pointer;
    __asm__ volatile("mov %0, sp" : "=r"(pointer));
    return pointer;
}

struct taken measured(void (*function)(void))
{
    uint32_t *here = stack_pointer();
    for (uint32_t *word = stack_end; word < here; word++)
        *word = PAINT;
    uint32_t steps = steps_of(function) - steps_for_nothing;
    uint32_t *lowest = stack_end;
    while (*lowest == PAINT)
        lowest++;
    if (lowest < stack_end + SPARE_WORDS)
        fail("the stack is too small\n");
    return (struct taken){
        (uint32_t)((uint64_t)steps * CALIBRATION_TURNS * INSTRUCTIONS_A_TURN / steps_for_turns),
        (uint32_t)((uintptr_t)here - (uintptr_t)lowest)
    };
}

/* Sets up memory and the timer, runs the program, stops the machine. */
void start(void)
{
    const uint32_t *image = data_image;
    for (uint32_t *word = data_start; word < data_end; word++)
        *word = *image++;
    for (uint32_t *word = bss_start; word < bss_end; word++)
        *word = 0;
    output = open_stream(false);
    figures = open_stream(true);
    start_timer();
    steps_for_nothing = steps_of(nothing);
    steps_for_turns = steps_of(turn) - steps_for_nothing;
    requests();
    ask_host(HOST_EXIT, HOST_ENDED);
    for (;;) {
    }
}

/* The stack, the start, and what answers a fault. */
__attribute__((section(".vectors"), used)) static void (*const VECTORS[])(void) = {
    (void (*)(void))stack_top, start, fault, fault
};
