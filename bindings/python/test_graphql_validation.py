import threading
import unittest

from graphql_validation import (
    Location,
    Note,
    Options,
    Report,
    Schema,
    SchemaReported,
    validate,
    validate_all,
    validate_schema,
)

SCHEMA = "type Query { pet(id: ID!): Pet } type Pet { name: String }"
VALID = "{ pet(id: 1) { name } }"
REPEATED = "{\n\tpet(id: 1,\r\n\tid: 2) { name }\n}\n"


class Calls(unittest.TestCase):
    def test_what_holds_has_no_reports(self):
        self.assertEqual(validate(SCHEMA, VALID), [])
        self.assertEqual(validate_schema(SCHEMA), [])

    def test_a_report_has_its_places(self):
        repeated = Report(
            message="the argument `id` is provided multiple times",
            rule="UniqueArgument",
            locations=(Location(3, 2),),
            span=(16, 21),
            in_schema=False,
            related=(Note("first here", Location(2, 6), (7, 12)),),
        )
        self.assertEqual(validate(SCHEMA, REPEATED), [repeated])
        self.assertEqual(validate_all(SCHEMA, [VALID, REPEATED, VALID]), [[], [repeated], []])

    def test_a_report_has_help(self):
        [report] = validate(SCHEMA, "{ pet(id: 1) { nama } }")
        self.assertEqual(report.help, ("did you mean `name`?",))

    def test_no_documents_have_no_reports(self):
        self.assertEqual(validate_all(SCHEMA, []), [])

    def test_a_schema_that_does_not_hold_is_told_apart(self):
        [report] = validate("type Pet { name: String }", VALID)
        self.assertTrue(report.in_schema)
        self.assertEqual(report.locations, ())
        self.assertEqual(report.span, None)
        self.assertEqual(report.message, "missing query root operation type in schema definition")
        self.assertEqual(validate_schema("type Pet { name: String }"), [report])
        with self.assertRaises(SchemaReported) as raised:
            validate_all("type Pet { name: String }", [VALID])
        self.assertEqual(raised.exception.reports, [report])

    def test_columns_count_characters_and_spans_count_bytes(self):
        [report] = validate(SCHEMA, '{ pet(id: "\u732b") { colour } }')
        self.assertEqual(report.rule, "UndefinedField")
        self.assertEqual(report.locations, (Location(1, 18),))
        self.assertEqual(report.span, (19, 25))

    def test_answers_longer_than_the_first_room_are_whole(self):
        document = "{" + " ".join(f"a{number}" for number in range(500)) + "}"
        reports = validate(SCHEMA, document)
        self.assertEqual(len(reports), 500)
        self.assertEqual(reports[499].message, "type `Query` does not have a field `a499`")

    def test_empty_texts_are_no_documents(self):
        [report] = validate(SCHEMA, "")
        self.assertEqual((report.rule, report.in_schema), ("Syntax", False))

    def test_bytes_that_are_no_text_are_refused_before_the_call(self):
        with self.assertRaises(UnicodeEncodeError):
            validate(SCHEMA, "{ \ud800 }")

    def test_threads_may_call_at_once(self):
        wrong = []

        def call():
            for _ in range(50):
                if validate(SCHEMA, VALID) or len(validate(SCHEMA, REPEATED)) != 1:
                    wrong.append(True)

        threads = [threading.Thread(target=call) for _ in range(4)]
        for thread in threads:
            thread.start()
        for thread in threads:
            thread.join()
        self.assertEqual(wrong, [])


class Schemas(unittest.TestCase):
    def test_documents_are_validated_as_often_as_wanted(self):
        with Schema(SCHEMA) as schema:
            for _ in range(100):
                self.assertEqual(schema.validate(VALID), [])
                self.assertEqual(schema.validate(REPEATED), validate(SCHEMA, REPEATED))

    def test_answers_longer_than_the_room_are_whole(self):
        document = "{" + " ".join(f"a{number}" for number in range(500)) + "}"
        with Schema(SCHEMA) as schema:
            self.assertEqual(schema.validate(document), validate(SCHEMA, document))

    def test_a_schema_that_does_not_hold_is_raised(self):
        with self.assertRaises(SchemaReported) as raised:
            Schema("type Pet { name: String }")
        self.assertEqual(raised.exception.reports, validate_schema("type Pet { name: String }"))

    def test_reports_name_the_files_of_a_schema(self):
        files = {"query.graphql": "type Query { a: Int }", "pet.graphql": "type Pet { a: Int } type Pet { b: Int }"}
        with self.assertRaises(SchemaReported) as raised:
            Schema(files=files)
        [report] = raised.exception.reports
        self.assertEqual((report.rule, report.file), ("TypeDefinitionCollision", "pet.graphql"))
        files["pet.graphql"] = "extend type Query { b: Int }"
        with Schema(files=files) as schema:
            self.assertEqual(schema.validate("{ a b }"), [])

    def test_options_are_bounds(self):
        deep = "{ a { a { a { b } } } }"
        text = "type Query { a: Query b: Int }"
        with Schema(text) as schema, Schema(text, options=Options(depth=3)) as shallow:
            self.assertEqual(schema.validate(deep), [])
            [report] = shallow.validate(deep)
            self.assertEqual(report.rule, "Syntax")
            self.assertEqual(shallow.validate(deep, Options()), [])
            wrong = "{ c d e }"
            first = schema.validate(wrong)
            self.assertEqual(len(first), 3)
            self.assertEqual(schema.validate(wrong, Options(max_reports=2)), first[:2])

    def test_a_closed_schema_is_refused(self):
        schema = Schema(SCHEMA)
        schema.validate(VALID)
        schema.close()
        schema.close()
        with self.assertRaises(ValueError):
            schema.validate(VALID)

    def test_threads_share_a_schema(self):
        schema = Schema(SCHEMA)
        wanted = validate(SCHEMA, REPEATED)
        right = []

        def call():
            for _ in range(50):
                right.append(schema.validate(VALID) == [] and schema.validate(REPEATED) == wanted)

        threads = [threading.Thread(target=call) for _ in range(8)]
        for thread in threads:
            thread.start()
        for thread in threads:
            thread.join()
        self.assertEqual(right, [True] * 400)

    def test_a_schema_may_be_closed_while_threads_call_it(self):
        schema = Schema(SCHEMA)
        called = threading.Barrier(9)
        ended = []

        def call():
            called.wait()
            while True:
                try:
                    if schema.validate(VALID):
                        return
                except ValueError:
                    ended.append(True)
                    return

        threads = [threading.Thread(target=call) for _ in range(8)]
        for thread in threads:
            thread.start()
        called.wait()
        schema.close()
        for thread in threads:
            thread.join()
        self.assertEqual(ended, [True] * 8)


if __name__ == "__main__":
    unittest.main()
