/* One sensor whose rows an actuator shows: the rows of FILE, checked, up to the date UNTIL at a period of 10 ticks, written as
   NAME,INSTANCE,DATE,VALUE. It is what `flows` is compared with: as one writes it with the C library.
   Made by: gcc -O2 -o plain flows_plain.c */
#include <errno.h>
#include <inttypes.h>
#include <stdio.h>
#include <stdlib.h>
#include <string.h>

static int refused(const char *why, long record) {
  fprintf(stderr, "%s %ld\n", why, record);
  return 9;
}

int main(int argc, char **argv) {
  if (argc != 3) return 2;
  FILE *in = fopen(argv[1], "r");
  if (!in) return 7;
  uint64_t until = strtoull(argv[2], NULL, 10);
  size_t need = (until + 9) / 10, have = 0;
  int64_t *values = malloc((need + 1) * sizeof *values);
  char *line = NULL;
  size_t room = 0;
  ssize_t len;
  for (long record = 1; (len = getline(&line, &room, in)) >= 0; record++) {
    char *rest = line, *end;
    char *name = strsep(&rest, ","), *instance = strsep(&rest, ",");
    if (!instance || !rest || strchr(rest, ',')) return refused("80 row", record);
    if (strcmp(name, "i")) return refused("81 no sensor", record);
    if (strtoull(instance, &end, 10) != have || *end) return refused("82 order", record);
    errno = 0;
    int64_t value = strtoll(rest, &end, 10);
    if (errno || end == rest || (*end && *end != '\n')) return refused("83 value", record);
    if (have < need) values[have] = value;
    have++;
  }
  if (have < need) return refused("84 short", (long)have);
  for (size_t n = 0; n < need; n++)
    printf("o,%zu,%" PRIu64 ",%" PRId64 "\n", n, (uint64_t)n * 10, values[n]);
  return fflush(stdout) ? 4 : 0;
}
