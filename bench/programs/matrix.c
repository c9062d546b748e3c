/* Multiplies matrices of 64 by 64 words, over and over. */
#include "calls.h"

enum { SIZE = 64 };

static int a[SIZE][SIZE], b[SIZE][SIZE], product[SIZE][SIZE];

static void multiply(void)
{
    for (int i = 0; i < SIZE; i++)
        for (int j = 0; j < SIZE; j++) {
            int sum = 0;
            for (int k = 0; k < SIZE; k++)
                sum += a[i][k] * b[k][j];
            product[i][j] = sum;
        }
}

int main(void)
{
    for (int i = 0; i < SIZE; i++)
        for (int j = 0; j < SIZE; j++) {
            a[i][j] = i - j;
            b[i][j] = i ^ j;
        }
    for (int round = 0; round < 20; round++) {
        multiply();
        for (int i = 0; i < SIZE; i++)
            for (int j = 0; j < SIZE; j++)
                a[i][j] = product[j][i] % 1000;
    }
    put_number(a[5][7]);
    flush();
    return 0;
}
