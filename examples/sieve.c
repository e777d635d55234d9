#include <stdio.h>
// The primes below 100, by the sieve of Eratosthenes; an image may be saved after each prime.
#define LIMIT 100
long composite[LIMIT];

int main(void) {
  long n, k;
  EXCLUDE_HERE;
  for (n = 2; n < LIMIT; n = n + 1) {
    if (composite[n]) continue;
    printf("%ld ", n);
    for (k = n * n; k < LIMIT; k = k + n) composite[k] = 1;
    CHECKPOINT_HERE;
  }
  printf("\n");
  return 0;
}
