/* Adds up from ten down to one, keeps the sum, and ends by a supervisor call: a small program with a
   loop, a call, code, and data with and without bytes in the file. */

static volatile unsigned greatest = 10;

static volatile unsigned total;

__attribute__((noinline)) unsigned count(unsigned from)
{
    unsigned sum = 0;
    while (from != 0) {
        sum += from;
        from -= 1;
        __asm__ volatile("" : "+r"(sum)); /* keeps the loop a loop */
    }
    return sum;
}

void _start(void)
{
    total = count(greatest);
    __asm__ volatile("swi 0");
    __builtin_unreachable();
}
