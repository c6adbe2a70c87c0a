/* A greeting on the UART.
 *
 * Prints: Hello from C.
 * Cycles: 6000
 */
#include "board.h"

int main(void)
{
        send_text("Hello from C.\n");
        send_rest();
        return 0;
}
