#include <stdio.h>
#include "ckpt.h"
// The product of two square matrices, a row at a time; an image may be saved behind each row. From the directive on the factors are only
// read: the first image has them, and later ones leave them out. The sum of the row is dead at the checkpoint.
#define SIDE 16
long left[256];
long right[256];
long product[256];

int main(void) {
  long row = 0, column = 0, k = 0, sum = 0, check = 0;
  for (k = 0; k < SIDE * SIDE; k = k + 1) {
    left[k] = k * 7 % 11 - 5;
    right[k] = k * 5 % 13 - 6;
  }
  EXCLUDE_HERE;
  for (row = 0; row < SIDE; row = row + 1) {
    for (column = 0; column < SIDE; column = column + 1) {
      sum = 0;
      for (k = 0; k < SIDE; k = k + 1) sum = sum + left[row * SIDE + k] * right[k * SIDE + column];
      product[row * SIDE + column] = sum;
    }
    CHECKPOINT_HERE;
  }
  for (k = 0; k < SIDE * SIDE; k = k + 1) check = check * 31 + product[k];
  printf("trace %ld, check %ld\n", product[0] + product[17] + product[255], check);
  return 0;
}
