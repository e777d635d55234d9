#include <stdio.h>
#include "ckpt.h"
// The shortest ways between all places of a map, by Floyd and Warshall; an image may be saved behind each place that ways may lead over.
// Behind the directive nothing reads the roads again: they are dead, and no image has them.
#define PLACES 12
#define NONE 1000000
long road[144];
long way[144];

int main(void) {
  long from = 0, to = 0, over = 0, shorter = 0, sum = 0, longest = 0;
  for (from = 0; from < PLACES; from = from + 1)
    for (to = 0; to < PLACES; to = to + 1) {
      road[from * PLACES + to] = NONE;
      if ((from * 5 + 3) % PLACES == to || (from + 1) % PLACES == to)
        road[from * PLACES + to] = (from * 17 + to * 29) % 40 + 1;
      if (from == to) road[from * PLACES + to] = 0;
    }
  for (from = 0; from < PLACES * PLACES; from = from + 1) way[from] = road[from];
  EXCLUDE_HERE;
  for (over = 0; over < PLACES; over = over + 1) {
    for (from = 0; from < PLACES; from = from + 1)
      for (to = 0; to < PLACES; to = to + 1) {
        shorter = way[from * PLACES + over] + way[over * PLACES + to];
        if (shorter < way[from * PLACES + to]) way[from * PLACES + to] = shorter;
      }
    CHECKPOINT_HERE;
  }
  for (from = 0; from < PLACES * PLACES; from = from + 1) {
    sum = sum + way[from];
    if (way[from] > longest) longest = way[from];
  }
  printf("sum %ld, longest %ld\n", sum, longest);
  return 0;
}
