/* One sensor whose rows an actuator shows: the rows of FILE, checked, up to the date UNTIL at a period of 10 ticks, written as
   NAME,INSTANCE,DATE,VALUE. It is what `flows` is compared with: written by hand for this one program, with no library
   beside the C library's files, each digit read and written in place, and nothing kept but the values.
   Made by: gcc -O2 -o flows flows.c */
#include <inttypes.h>
#include <stdio.h>
#include <stdlib.h>
#include <string.h>

enum { PIECE = 1 << 16, ROW = 96, PERIOD = 10 };

static char from[PIECE], to[PIECE + ROW];
static size_t at, end, filled;
static FILE *in;

static int next(void) {
  if (at == end) {
    end = fread(from, 1, PIECE, in);
    at = 0;
    if (end == 0) return EOF;
  }
  return (unsigned char)from[at++];
}

static int refused(const char *why, uint64_t number) {
  fprintf(stderr, "%s %" PRIu64 "\n", why, number);
  return 9;
}

/* Digits up to `last`, or a line's end; what follows them is left in `after`. Nothing where there are none or too many. */
static int digits(int first, uint64_t most, uint64_t *number, int *after) {
  uint64_t sum = 0;
  int c = first, count = 0;
  for (; c >= '0' && c <= '9'; c = next(), count++) {
    uint64_t digit = c - '0';
    if (sum > (most - digit) / 10) return 0;
    sum = sum * 10 + digit;
  }
  *number = sum;
  *after = c;
  return count > 0;
}

static void put(uint64_t number) {
  char text[20];
  int len = 0;
  do text[len++] = '0' + number % 10; while (number /= 10);
  while (len) to[filled++] = text[--len];
}

int main(int argc, char **argv) {
  if (argc != 3) return 2;
  in = fopen(argv[1], "r");
  if (!in) return 7;
  uint64_t until = strtoull(argv[2], NULL, 10), need = (until + PERIOD - 1) / PERIOD, have = 0;
  int64_t *values = malloc((need + 1) * sizeof *values);
  for (int c; (c = next()) != EOF;) {
    uint64_t instance, size;
    if (c != 'i' || next() != ',') return refused("81 no sensor", have + 1);
    if (!digits(next(), UINT64_MAX, &instance, &c) || instance != have || c != ',') return refused("82 order", have + 1);
    int first = next(), negative = first == '-';
    if (!digits(negative ? next() : first, INT64_MAX, &size, &c)) return refused("83 value", have + 1);
    if (c == '\r') c = next();
    if (c != '\n' && c != EOF) return refused("83 value", have + 1);
    if (have < need) values[have] = negative ? -(int64_t)size : (int64_t)size;
    have++;
  }
  if (have < need) return refused("84 short", have);
  for (uint64_t n = 0; n < need; n++) {
    if (filled >= PIECE) {
      if (fwrite(to, 1, filled, stdout) != filled) return 4;
      filled = 0;
    }
    to[filled++] = 'o';
    to[filled++] = ',';
    put(n);
    to[filled++] = ',';
    put(n * PERIOD);
    to[filled++] = ',';
    if (values[n] < 0) to[filled++] = '-';
    put(values[n] < 0 ? -(uint64_t)values[n] : (uint64_t)values[n]);
    to[filled++] = '\n';
  }
  return fwrite(to, 1, filled, stdout) != filled || fflush(stdout) ? 4 : 0;
}
