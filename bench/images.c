long a[131072];
int main(void) {
  long i;
  long t;
  for (t = 0; t < 60; t = t + 1) {
    for (i = 0; i < 131072; i = i + 512)
      a[i] = t;
    CHECKPOINT_HERE;
  }
  return 0;
}
