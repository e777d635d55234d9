#include <stdio.h>
// Reads the input and writes its bytes in rising order: a shell sort that exchanges through pointers.
#define MOST 1000
long bytes[MOST];
long count;

long exchange(long *p, long *q) {
  long kept = *p;
  *p = *q;
  *q = kept;
  return 0;
}

long sort(long step) {
  long i, j;
  for (i = step; i < count; i = i + 1)
    for (j = i; j >= step && bytes[j - step] > bytes[j]; j = j - step)
      exchange(&bytes[j - step], &bytes[j]);
  return 0;
}

int main(void) {
  long c, step, i;
  c = getchar();
  while (c != EOF && count < MOST) {
    if (c != '\n') {
      bytes[count] = c;
      count = count + 1;
    }
    c = getchar();
  }
  for (step = count / 2; step > 0; step = step / 2) sort(step);
  for (i = 0; i < count; i = i + 1) putchar(bytes[i]);
  putchar('\n');
  return 0;
}
