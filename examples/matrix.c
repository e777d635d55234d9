#include <stdio.h>
// The n-th power of a matrix of two rows: Fibonacci numbers, by products of matrices.
#define TURNS 40
long power[4];
long base[4];
long product[4];

long multiply(long *x, long *y) {
  long row, column;
  for (row = 0; row < 2; row = row + 1)
    for (column = 0; column < 2; column = column + 1)
      product[row * 2 + column] = x[row * 2] * y[column] + x[row * 2 + 1] * y[2 + column];
  return 0;
}

int main(void) {
  long i, k;
  base[0] = 1;
  base[1] = 1;
  base[2] = 1;
  power[0] = 1;
  power[3] = 1;
  for (i = 0; i < TURNS; i = i + 1) {
    multiply(power, base);
    for (k = 0; k < 4; k = k + 1) power[k] = product[k];
  }
  printf("%ld %ld\n%ld %ld\n", power[0], power[1], power[2], power[3]);
  return 0;
}
