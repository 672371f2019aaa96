int x;

int main() {
  x = 2 + 3 * 4;
  printf("%ld\n", x);
  return 0;
}
