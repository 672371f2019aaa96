int total;

int main() {
  total = 1 + totl;
  return total;
}
