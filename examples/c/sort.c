/* Sorts ten numbers by insertion, checks their sum by 64 bits, and prints them.
 *
 * Prints: -40 -7 0 3 8 19 42 300 1071 5000000000 sum 5000001396
 * Cycles: 20000
 */
#include "board.h"

#define COUNT 10

static long numbers[COUNT] = {1071, -7, 42, 5000000000, 0, 300, -40, 19, 8, 3};
static long sorted[COUNT];

static void insert(long *list, int count, long number)
{
        int place = count;
        while (place > 0 && list[place - 1] > number) {
                list[place] = list[place - 1];
                place--;
        }
        list[place] = number;
}

static void send_signed(long number)
{
        if (number < 0) {
                send('-');
                number = -number;
        }
        send_number(number);
}

int main(void)
{
        long sum = 0;
        for (int at = 0; at < COUNT; at++) {
                insert(sorted, at, numbers[at]);
        }
        for (int at = 0; at < COUNT; at++) {
                sum += sorted[at];
                send_signed(sorted[at]);
                send(' ');
        }
        send_text("sum ");
        send_signed(sum);
        send('\n');
        send_rest();
        return 0;
}
