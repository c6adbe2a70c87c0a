/* Counts five interrupts of the decrementer, 1,000 cycles apart, while main waits.
 *
 * Prints: 5 ticks
 * Cycles: 12000
 */
#include "board.h"

#define TICKS 5
#define APART 1000
#define NEVER 0x7fffffff

static volatile unsigned ticks;

/* Called by the start file for each interrupt of the decrementer. A positive number ends what it came from. */
void on_decrementer(void)
{
        ticks++;
        set_decrementer(ticks < TICKS ? APART : NEVER);
}

int main(void)
{
        set_decrementer(APART);
        set_interrupts(1);
        while (ticks < TICKS) {
        }
        set_interrupts(0);
        send_number(ticks);
        send_text(" ticks\n");
        send_rest();
        return 0;
}
