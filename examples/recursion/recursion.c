/* A function that calls itself, which is refused whatever the facts say. */

int result;

__attribute__((noinline)) int factorial(int n)
{
    return n < 2 ? 1 : n * factorial(n - 1);
}

int main(void)
{
    result = factorial(5);
    return 0;
}
