/* Validates documents against a schema, and prints the answer: example SCHEMA DOCUMENT.. */

#include "graphql_validation.h"

#include <stdio.h>
#include <stdlib.h>
#include <string.h>

/* A text, with its length. */
typedef struct {
  uint8_t *bytes;
  size_t length;
} text;

static void stop(const char *why, const char *what) {
  fprintf(stderr, "%s: %s\n", what, why);
  exit(GRAPHQL_BAD_ARGUMENTS);
}

/* Adds what a file has to a text. */
static void add_file(text *whole, const char *path) {
  FILE *file = fopen(path, "rb");
  if (!file)
    stop("cannot be read", path);
  for (;;) {
    uint8_t *grown = realloc(whole->bytes, whole->length + 4096);
    if (!grown)
      stop("out of memory", path);
    whole->bytes = grown;
    size_t got = fread(whole->bytes + whole->length, 1, 4096, file);
    whole->length += got;
    if (got == 0)
      break;
  }
  fclose(file);
}

int main(int count, char **words) {
  if (count < 3)
    stop("two files are needed", words[0]);
  if (graphql_abi_version() != GRAPHQL_ABI_VERSION)
    stop("another version of the library", words[0]);
  text schema = {NULL, 0}, documents = {NULL, 0};
  size_t *ends = calloc((size_t)count, sizeof *ends);
  if (!ends)
    stop("out of memory", words[0]);
  add_file(&schema, words[1]);
  for (int k = 2; k < count; k++) {
    add_file(&documents, words[k]);
    ends[k - 2] = documents.length;
  }

  uint8_t *answer = malloc(1);
  size_t room = 1;
  graphql_outcome outcome;
  for (;;) {
    if (!answer)
      stop("out of memory", words[0]);
    if (count == 3)
      outcome = graphql_validate(schema.bytes, schema.length, documents.bytes, documents.length, answer, room);
    else
      outcome = graphql_validate_all(schema.bytes, schema.length, documents.bytes, documents.length, ends,
                                     (size_t)count - 2, answer, room);
    if (outcome.length <= room)
      break;
    room = outcome.length;
    free(answer);
    answer = malloc(room);
  }
  fwrite(answer, 1, outcome.length, stdout);
  free(answer);
  free(ends);
  free(documents.bytes);
  free(schema.bytes);
  return (int)outcome.status;
}
