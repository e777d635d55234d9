#include <stdio.h>
#include "ckpt.h"
// Bodies that attract one another, in fixed point (a unit is 1,000); an image may be saved behind each turn. The masses are read-only from
// the directive on.
#define BODIES 5
#define TURNS 40
long mass[BODIES];
long x[BODIES];
long y[BODIES];
long speed_x[BODIES];
long speed_y[BODIES];
long pull_x[BODIES];
long pull_y[BODIES];

long root(long n) {
  long low = 0, high = 3037000499, middle = 0;
  while (low < high) {
    middle = (low + high + 1) / 2;
    if (middle * middle <= n) low = middle;
    else high = middle - 1;
  }
  return low;
}

long attract(long i, long j) {
  long across = x[j] - x[i], up = y[j] - y[i], square = 0, distance = 0, strength = 0;
  square = across * across + up * up + 10000;
  distance = root(square);
  strength = mass[j] * 1000000 / square;
  pull_x[i] = pull_x[i] + strength * across / distance;
  pull_y[i] = pull_y[i] + strength * up / distance;
  return 0;
}

int main(void) {
  long turn = 0, i = 0, j = 0;
  for (i = 0; i < BODIES; i = i + 1) {
    mass[i] = 500 + 300 * i;
    x[i] = i * 4000 % 7000;
    y[i] = i * i * 1500 % 9000;
    speed_x[i] = 20 - 10 * i;
    speed_y[i] = 15 * i - 30;
  }
  EXCLUDE_HERE;
  for (turn = 0; turn < TURNS; turn = turn + 1) {
    for (i = 0; i < BODIES; i = i + 1) {
      pull_x[i] = 0;
      pull_y[i] = 0;
      for (j = 0; j < BODIES; j = j + 1)
        if (i != j) attract(i, j);
    }
    for (i = 0; i < BODIES; i = i + 1) {
      speed_x[i] = speed_x[i] + pull_x[i] / 100;
      speed_y[i] = speed_y[i] + pull_y[i] / 100;
      x[i] = x[i] + speed_x[i];
      y[i] = y[i] + speed_y[i];
    }
    CHECKPOINT_HERE;
  }
  for (i = 0; i < BODIES; i = i + 1) printf("%ld %ld\n", x[i], y[i]);
  return 0;
}
