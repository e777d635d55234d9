#include <stdio.h>
#include "ckpt.h"
// Heat that flows through a plate whose left edge is held hot, in thousandths of a degree; an image may be saved behind each turn. From
// the directive on nothing writes `conductivity`: the first image has it, and later ones leave it out.
#define SIDE 12
#define TURNS 60
long before[144];
long after[144];
long conductivity[144];

long spread(long *from, long *to) {
  long row = 0, column = 0, at = 0, sum = 0;
  for (row = 0; row < SIDE; row = row + 1)
    for (column = 0; column < SIDE; column = column + 1) {
      at = row * SIDE + column;
      to[at] = from[at];
      if (row > 0 && row < SIDE - 1 && column > 0 && column < SIDE - 1) {
        sum = from[at - SIDE] + from[at + SIDE] + from[at - 1] + from[at + 1];
        to[at] = from[at] + (sum - 4 * from[at]) * conductivity[at] / 1000;
      }
    }
  return 0;
}

int main(void) {
  long turn = 0, at = 0, sum = 0;
  for (at = 0; at < SIDE * SIDE; at = at + 1) conductivity[at] = 100 + at % SIDE * 10;
  for (at = 0; at < SIDE; at = at + 1) before[at * SIDE] = 100000;
  EXCLUDE_HERE;
  for (turn = 0; turn < TURNS; turn = turn + 1) {
    spread(before, after);
    for (at = 0; at < SIDE * SIDE; at = at + 1) before[at] = after[at];
    CHECKPOINT_HERE;
  }
  for (at = 0; at < SIDE * SIDE; at = at + 1) sum = sum + before[at];
  printf("mean %ld, middle %ld\n", sum / (SIDE * SIDE), before[6 * SIDE + 6]);
  return 0;
}
