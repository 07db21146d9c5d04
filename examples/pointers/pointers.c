/* Calls functions through pointers in a table. */

typedef int Step(int);

static int twice(int value)
{
    return value + value;
}

static int square(int value)
{
    return value * value;
}

Step *steps[] = {twice, square, twice, square};

int result;

int main(void)
{
    int value = 3;
    for (unsigned i = 0; i < sizeof steps / sizeof steps[0]; i++)
        value = steps[i](value);
    result = value;
    return 0;
}
