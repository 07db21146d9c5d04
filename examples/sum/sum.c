/* Adds up an array: one loop, in a function that can also be run on its own. */

int numbers[] = {3, 1, 4, 1, 5, 9, 2, 6, 5, 3};

int total;

__attribute__((noinline)) int sum(const int *from, const int *end)
{
    int result = 0;
    do
        result += *from++;
    while (from != end);
    return result;
}

int main(void)
{
    total = sum(numbers, numbers + sizeof numbers / sizeof numbers[0]);
    return 0;
}
