/* Multiplies two matrices: loops in one another, one of them in a function that is called, multiplications of which some
   are slow, and a result in slow memory. */

#define SIZE 3

typedef int Matrix[SIZE][SIZE];

static const Matrix left = {{1, 2, 3}, {4, 5, 6}, {7, 8, 9}};

/* 70000 is above 65535, so that a multiplication by it is slow */
Matrix right = {{2, 0, 1}, {0, 3, 0}, {70000, 0, 5}};

__attribute__((section(".slow"))) Matrix result;

__attribute__((noinline)) int dot(const int *row, const int *column, unsigned size)
{
    int sum = 0;
    for (unsigned k = 0; k < size; k++)
        sum += row[k] * column[k * SIZE];
    return sum;
}

int main(void)
{
    for (unsigned i = 0; i < SIZE; i++)
        for (unsigned j = 0; j < SIZE; j++)
            result[i][j] = dot(left[i], &right[0][j], SIZE);
    return 0;
}
