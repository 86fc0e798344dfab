// Validates documents against a schema, and prints the answers: example SCHEMA DOCUMENT..
//
// One document: its answer. Several: an array of answers.

#include "graphql_validation.hpp"

#include <fstream>
#include <iostream>
#include <sstream>

static std::string text_of(const char *path) {
  std::ifstream file(path, std::ios::binary);
  if (!file)
    throw std::runtime_error(std::string("cannot be read: ") + path);
  std::ostringstream text;
  text << file.rdbuf();
  return text.str();
}

int main(int count, char **words) try {
  if (count < 3)
    throw std::runtime_error("two files are needed");
  graphql_validation::schema schema(text_of(words[1]));
  bool reported = false;
  std::string printed;
  for (int k = 2; k < count; k++) {
    graphql_validation::answer answer = schema.validate(text_of(words[k]));
    reported = reported || answer.reported;
    printed += (k > 2 ? "," : "") + answer.json;
  }
  std::cout << (count > 3 ? "[" + printed + "]" : printed);
  return reported ? GRAPHQL_REPORTED : GRAPHQL_ACCEPTED;
} catch (const graphql_validation::schema_reported &error) {
  std::cout << error.json;
  return GRAPHQL_REPORTED;
} catch (const std::exception &error) {
  std::cerr << error.what() << "\n";
  return GRAPHQL_BAD_ARGUMENTS;
}
