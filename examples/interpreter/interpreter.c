/* Interprets a small code for a stack: a switch that becomes a jump through a table, in a loop that is left in its
   middle. The code works out 2 * (6 * 7 - 2). */

enum { STOP, PUSH, ADD, SUBTRACT, MULTIPLY, DOUBLE, DROP };

unsigned char code[] = {PUSH, 6, PUSH, 7, MULTIPLY, PUSH, 2, SUBTRACT, DOUBLE, STOP};

int stack[8];

int result;

__attribute__((noinline)) int interpret(const unsigned char *next, int *top)
{
    for (;;) {
        switch (*next++) {
        case STOP: return *top;
        case PUSH: *++top = *next++; break;
        case ADD: top--; top[0] += top[1]; break;
        case SUBTRACT: top--; top[0] -= top[1]; break;
        case MULTIPLY: top--; top[0] *= top[1]; break;
        case DOUBLE: top[0] += top[0]; break;
        case DROP: top--; break;
        }
    }
}

int main(void)
{
    result = interpret(code, stack);
    return 0;
}
