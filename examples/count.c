#include <stdio.h>
// Counts the lines, words and bytes of the input.
int main(void) {
  long c, lines, words, bytes, inside;
  c = getchar();
  while (c != EOF) {
    bytes = bytes + 1;
    if (c == '\n') lines = lines + 1;
    if (c == ' ' || c == '\t' || c == '\n') inside = 0;
    else if (!inside) {
      inside = 1;
      words = words + 1;
    }
    c = getchar();
  }
  printf("%ld lines, %ld words, %ld bytes\n", lines, words, bytes);
  return 0;
}
