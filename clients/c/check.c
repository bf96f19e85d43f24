/* Says of a description whether it is a game's, and of random texts that are cut or spoilt how many are:
   check FILE TEXTS SEED. */
#include <rbg.h>

#include <inttypes.h>
#include <stdio.h>
#include <stdlib.h>
#include <string.h>

static uint64_t seed;

static uint64_t chance(uint64_t below) {
  seed ^= seed << 13, seed ^= seed >> 7, seed ^= seed << 17;
  return seed % below;
}

int main(int argc, char **argv) {
  if (argc != 4) {
    fprintf(stderr, "usage: check FILE TEXTS SEED\n");
    return 2;
  }
  FILE *file = fopen(argv[1], "rb");
  if (!file) {
    perror(argv[1]);
    return 2;
  }
  static uint8_t text[1 << 20];
  size_t length = fread(text, 1, sizeof text, file);
  fclose(file);
  seed = strtoull(argv[3], NULL, 10) | 1;
  printf("%u\n", (unsigned)rbg_check(text, length));
  uint64_t counts[32] = {0};
  for (int64_t left = atoll(argv[2]); left > 0; left--) {
    /* a copy of just its size, so that a byte too many would be seen */
    size_t size = chance(2) ? length : chance(length + 1);
    uint8_t *spoilt = malloc(size + 1);
    if (!spoilt)
      return 2;
    memcpy(spoilt + 1, text, size);
    for (uint64_t many = chance(3); many > 0 && size > 0; many--)
      spoilt[1 + chance(size)] = (uint8_t)chance(256);
    rbg_result result = rbg_check(spoilt + 1, size);
    uint64_t number = 0, offset = RBG_NO_OFFSET;
    if (result >= 32 || rbg_fault(spoilt + 1, size, &number, &offset) != result)
      return 1;
    /* only a fault has a number, and it is at a byte of the text, at its end, or at none */
    if ((result != RBG_OK) != (number != 0) || (offset > size && offset != RBG_NO_OFFSET))
      return 1;
    counts[result]++;
    free(spoilt);
  }
  for (int i = 0; i < 32; i++)
    if (counts[i])
      printf("%d %" PRIu64 "\n", i, counts[i]);
  return 0;
}
