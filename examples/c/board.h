/* The board's devices and registers as functions of C. docs/BOARD.md has the registers. */
#ifndef BOARD_H
#define BOARD_H

#define UART 0xC0002000ul
#define UART_TX (*(volatile unsigned char *)(UART + 0x00))
#define UART_STATUS (*(volatile unsigned char *)(UART + 0x10))
#define UART_SENT_ALL 2
#define UART_SEND_FULL 8
#define MSR_EE 0x8000ul

/* Sends a byte, once the queue has room for it. */
static inline void send(char byte)
{
        while (UART_STATUS & UART_SEND_FULL) {
        }
        UART_TX = byte;
}

/* Sends a text that ends with a zero. */
static inline void send_text(const char *text)
{
        for (; *text != 0; text++) {
                send(*text);
        }
}

/* Sends a number in decimal. */
static inline void send_number(unsigned long number)
{
        char digits[20];
        int count = 0;
        do {
                digits[count++] = '0' + number % 10;
                number /= 10;
        } while (number != 0);
        while (count > 0) {
                send(digits[--count]);
        }
}

/* Waits until every byte is sent. */
static inline void send_rest(void)
{
        while (!(UART_STATUS & UART_SENT_ALL)) {
        }
}

/* The decrementer, which falls by 1 each cycle; its interrupt comes while the top bit is 1. */
static inline void set_decrementer(unsigned cycles)
{
        __asm__ volatile("mtspr 22, %0" : : "r"((unsigned long)cycles) : "memory");
}

/* Lets interrupts come between instructions, or no more. */
static inline void set_interrupts(int on)
{
        unsigned long msr;
        __asm__ volatile("mfmsr %0" : "=r"(msr));
        msr = on ? msr | MSR_EE : msr & ~MSR_EE;
        __asm__ volatile("mtmsrd %0, 1" : : "r"(msr) : "memory");
}

#endif
