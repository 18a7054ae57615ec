/* Only reads the bytes on standard input, with the year report's buffer, and looks at none of them: what no program on that input can do without. */
#include <unistd.h>

int main(void) {
  static char buffer[65536];
  ssize_t got;
  while ((got = read(0, buffer, sizeof buffer)) > 0) continue;
  return got < 0;
}
