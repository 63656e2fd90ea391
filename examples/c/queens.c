/* In how many ways eight queens stand on a board, none of which attacks another: by rows, with sets of columns as bits. The first
   way is shown. */
#include <stdio.h>

#define SIZE 8

static int row_of_queen[SIZE];
static int shown;

static void show(void)
{
    for (int row = 0; row < SIZE; row++) {
        for (int column = 0; column < SIZE; column++)
            putchar(row_of_queen[row] == column ? 'Q' : '.');
        putchar('\n');
    }
}

static int column_of(unsigned bit)
{
    int column = 0;
    while (bit >>= 1)
        column++;
    return column;
}

static int place(int row, unsigned columns, unsigned falling, unsigned rising)
{
    if (row == SIZE) {
        if (!shown++)
            show();
        return 1;
    }
    int ways = 0;
    unsigned free = ~(columns | falling | rising) & ((1u << SIZE) - 1);
    while (free) {
        unsigned bit = free & -free;
        free ^= bit;
        row_of_queen[row] = column_of(bit);
        ways += place(row + 1, columns | bit, (falling | bit) << 1, (rising | bit) >> 1);
    }
    return ways;
}

int main(void)
{
    printf("%d ways\n", place(0, 0, 0, 0));
    return 0;
}
