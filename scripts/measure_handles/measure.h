/* What the programs that measure have in common. */
#include <stdint.h>
#include <stdio.h>
#include <stdlib.h>
#include <time.h>

/* The text of a file, which the caller frees. */
static uint8_t *text_of(const char *path, size_t *length) {
  FILE *file = fopen(path, "rb");
  if (!file || fseek(file, 0, SEEK_END))
    exit(5);
  *length = (size_t)ftell(file);
  rewind(file);
  uint8_t *text = malloc(*length + 1);
  if (!text || fread(text, 1, *length, file) != *length)
    exit(5);
  fclose(file);
  return text;
}

static double microseconds(void) {
  struct timespec now;
  clock_gettime(CLOCK_MONOTONIC, &now);
  return (double)now.tv_sec * 1e6 + (double)now.tv_nsec * 1e-3;
}
