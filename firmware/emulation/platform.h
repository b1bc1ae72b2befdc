/* What requests.c needs of the machine it runs on: board.c is the emulated core, host.c the machine that compiles. */
#ifndef PLATFORM_H
#define PLATFORM_H

#include <stdint.h>

/* What a call took; 0 where the machine does not measure it. */
struct taken {
    uint32_t instructions;
    uint32_t stack;
};

/* Calls a function and measures it. Ends the program where the stack was too small for it. */
struct taken measured(void (*function)(void));

/* What both machines must print alike. */
void print(const char *text);

/* What was measured. */
void print_figure(const char *text);

/* The program, after which the machine stops. */
void requests(void);

#endif
