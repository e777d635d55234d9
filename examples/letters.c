#include <stdio.h>
#include "ckpt.h"
// Reads a text and counts its letters; behind each line an image may be saved, and a restart reads on behind what was read.
long count[26];

int main(void) {
  long c = 0, letter = 0;
  EXCLUDE_HERE;
  c = getchar();
  while (c != EOF) {
    if (c >= 'A' && c <= 'Z') c = c - 'A' + 'a';
    if (c >= 'a' && c <= 'z') count[c - 'a'] = count[c - 'a'] + 1;
    if (c == '\n') CHECKPOINT_HERE;
    c = getchar();
  }
  for (letter = 0; letter < 26; letter = letter + 1)
    if (count[letter] > 0) {
      putchar('a' + letter);
      printf(" %ld\n", count[letter]);
    }
  return 0;
}
