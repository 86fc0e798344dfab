/* Prints the microseconds that each document takes against a schema that a handle keeps: measure SCHEMA DOCUMENT.. */
#include "graphql_validation.h"
#include "measure.h"

enum { ROUNDS = 20, CALLS = 200 };

static uint8_t out[1 << 20];

int main(int count, char **words) {
  if (count < 3)
    return 2;
  size_t length;
  uint8_t *text = text_of(words[1], &length);
  graphql_schema schema = {0};
  graphql_options options = GRAPHQL_DEFAULT_OPTIONS;
  graphql_file file = {(const uint8_t *)"", 0, text, length};
  if (graphql_schema_read(&file, 1, &options, &schema, out, sizeof out).status)
    return 1;
  for (int word = 2; word < count; word++) {
    uint8_t *document = text_of(words[word], &length);
    double least = 1e30;
    for (int round = 0; round < ROUNDS; round++) {
      double begun = microseconds();
      for (int call = 0; call < CALLS; call++)
        if (graphql_schema_validate(&schema, document, length, &options, out, sizeof out).status > 1)
          return 1;
      double each = (microseconds() - begun) / CALLS;
      least = each < least ? each : least;
    }
    printf("%.2f\n", least);
    free(document);
  }
  graphql_schema_free(&schema);
  free(text);
  return 0;
}
