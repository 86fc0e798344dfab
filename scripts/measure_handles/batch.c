/* Prints the microseconds that each document takes in a batch, which reads the schema once: batch SCHEMA DOCUMENT..
   That is the difference between a batch of copies of the document and an empty one. */
#include "graphql_validation.h"
#include "measure.h"
#include <string.h>

enum { ROUNDS = 20, COPIES = 2000 };

static uint8_t out[1 << 24];

int main(int count, char **words) {
  if (count < 3)
    return 2;
  size_t schema_length, length;
  uint8_t *schema = text_of(words[1], &schema_length);
  for (int word = 2; word < count; word++) {
    uint8_t *document = text_of(words[word], &length);
    uint8_t *copies = malloc(length * COPIES + 1);
    size_t *ends = malloc(COPIES * sizeof *ends);
    if (!copies || !ends)
      exit(3);
    for (size_t copy = 0; copy < COPIES; copy++) {
      memcpy(copies + copy * length, document, length);
      ends[copy] = (copy + 1) * length;
    }
    double least[2] = {1e30, 1e30};
    for (int round = 0; round < ROUNDS; round++)
      for (int full = 0; full < 2; full++) {
        size_t many = full ? COPIES : 0;
        double begun = microseconds();
        if (graphql_validate_all(schema, schema_length, copies, many * length, ends, many, out, sizeof out).status > 1)
          return 1;
        double each = microseconds() - begun;
        least[full] = each < least[full] ? each : least[full];
      }
    printf("%.2f\n", (least[1] - least[0]) / COPIES);
    free(ends);
    free(copies);
    free(document);
  }
  free(schema);
  return 0;
}
