/* Reads a schema once, validates documents against it, and prints the answers: schema SCHEMA DOCUMENT..

   One document: its answer. Several: an array of answers. */

#include "graphql_validation.h"

#include <stdio.h>
#include <stdlib.h>

/* Bytes, with their length. */
typedef struct {
  uint8_t *bytes;
  size_t length;
} text;

static void stop(const char *why, const char *what) {
  fprintf(stderr, "%s: %s\n", what, why);
  exit(GRAPHQL_BAD_ARGUMENTS);
}

static uint8_t *room_for(size_t length) {
  uint8_t *room = malloc(length ? length : 1);
  if (!room)
    stop("out of memory", "schema");
  return room;
}

static text file_of(const char *path) {
  FILE *file = fopen(path, "rb");
  if (!file || fseek(file, 0, SEEK_END) != 0)
    stop("cannot be read", path);
  text whole = {NULL, (size_t)ftell(file)};
  rewind(file);
  whole.bytes = room_for(whole.length);
  if (fread(whole.bytes, 1, whole.length, file) != whole.length)
    stop("cannot be read", path);
  fclose(file);
  return whole;
}

/* Prints an answer, of which the beginning was written to `out`. The handle has the rest. */
static void print_answer(graphql_schema *schema, graphql_outcome outcome, const uint8_t *out, size_t room) {
  if (outcome.length <= room) {
    fwrite(out, 1, outcome.length, stdout);
    return;
  }
  fwrite(out, 1, room, stdout);
  uint8_t *rest = room_for(outcome.length - room);
  graphql_schema_answer(schema, room, rest, outcome.length - room);
  fwrite(rest, 1, outcome.length - room, stdout);
  free(rest);
}

int main(int count, char **words) {
  uint8_t out[256];
  if (count < 3)
    stop("two files are needed", words[0]);
  if (graphql_abi_version() != GRAPHQL_ABI_VERSION)
    stop("another version of the library", words[0]);

  graphql_schema schema = {0};
  graphql_options options = GRAPHQL_DEFAULT_OPTIONS;
  text of_schema = file_of(words[1]);
  graphql_file file = {(const uint8_t *)"", 0, of_schema.bytes, of_schema.length};
  graphql_outcome outcome = graphql_schema_read(&file, 1, &options, &schema, out, sizeof out);
  free(of_schema.bytes);
  if (outcome.status != GRAPHQL_ACCEPTED) {
    print_answer(&schema, outcome, out, sizeof out);
    graphql_schema_free(&schema);
    return (int)outcome.status;
  }

  uint32_t status = GRAPHQL_ACCEPTED;
  if (count > 3)
    putchar('[');
  for (int k = 2; k < count; k++) {
    text document = file_of(words[k]);
    outcome = graphql_schema_validate(&schema, document.bytes, document.length, &options, out, sizeof out);
    if (k > 2)
      putchar(',');
    print_answer(&schema, outcome, out, sizeof out);
    if (outcome.status > status)
      status = outcome.status;
    free(document.bytes);
  }
  if (count > 3)
    putchar(']');
  graphql_schema_free(&schema);
  return (int)status;
}
