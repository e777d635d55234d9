#include <stdio.h>
// The towers of Hanoi, by recursion: writes each move and how many there were.
long moves;

long tower(long height, long from, long to, long over) {
  if (height == 0) return 0;
  tower(height - 1, from, over, to);
  putchar(from);
  putchar(to);
  putchar(' ');
  moves = moves + 1;
  return tower(height - 1, over, to, from);
}

int main(void) {
  tower(3, 'A', 'C', 'B');
  printf("\n%ld moves\n", moves);
  return 0;
}
