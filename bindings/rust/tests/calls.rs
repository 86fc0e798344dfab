use graphql_validation::{validate, validate_all, validate_json, validate_schema};
use graphql_validation::{Error, Location, Note, Report};

const SCHEMA: &str = "type Query { pet(id: ID!): Pet } type Pet { name: String }";

const VALID: &str = "{ pet(id: 1) { name } }";

const REPEATED: &str = "{\n\tpet(id: 1,\r\n\tid: 2) { name }\n}\n";

fn repeated() -> Report {
    Report {
        message: "the argument `id` is provided multiple times".to_owned(),
        rule: "UniqueArgument".to_owned(),
        locations: vec![Location { line: 3, column: 2 }],
        span: Some(16..21),
        in_schema: false,
        file: None,
        related: vec![Note {
            message: "first here".to_owned(),
            location: Location { line: 2, column: 6 },
            span: 7..12,
            file: None,
        }],
        help: vec![],
    }
}

#[test]
fn what_holds_has_no_reports() {
    assert_eq!(validate(SCHEMA, VALID), Ok(vec![]));
    assert_eq!(validate_schema(SCHEMA), Ok(vec![]));
    assert_eq!(validate_json(SCHEMA, VALID), Ok(r#"{"errors":[]}"#.to_owned()));
}

#[test]
fn a_report_has_its_places() {
    assert_eq!(validate(SCHEMA, REPEATED), Ok(vec![repeated()]));
    let each = validate_all(SCHEMA, &[VALID, REPEATED, VALID]);
    assert_eq!(each, Ok(vec![vec![], vec![repeated()], vec![]]));
    assert_eq!(validate_all(SCHEMA, &[]), Ok(vec![]));
}

#[test]
fn a_report_has_help() {
    let reports = validate(SCHEMA, "{ pet(id: 1) { nama } }").unwrap();
    assert_eq!(reports.len(), 1);
    assert_eq!(reports[0].help, ["did you mean `name`?"]);
}

#[test]
fn a_schema_that_does_not_hold_is_told_apart() {
    let rootless = "type Pet { name: String }";
    let reports = validate(rootless, VALID).unwrap();
    assert_eq!(reports.len(), 1);
    assert!(reports[0].in_schema && reports[0].locations.is_empty() && reports[0].span.is_none());
    assert_eq!(validate_schema(rootless), Ok(reports.clone()));
    assert_eq!(validate_all(rootless, &[VALID]), Err(Error::SchemaReported(reports)));
}

#[test]
fn answers_longer_than_the_first_room_are_whole() {
    let fields: String = (0..500).map(|number| format!("a{number} ")).collect();
    let reports = validate(SCHEMA, &format!("{{ {fields} }}")).unwrap();
    assert_eq!(reports.len(), 500);
    assert_eq!(reports[499].message, "type `Query` does not have a field `a499`");
}

/// Of 500 sets in one another, the bound of merging is reported; of one more, the bound of the parser.
#[test]
fn a_thread_has_the_stack_for_texts_as_deep_as_they_may_be() {
    let schema = "type Query { a: Query b: Int }";
    for (depth, rule) in [(500, "RecursionLimit"), (501, "Syntax")] {
        let document = format!("{}{{ b }}{}", "{ a".repeat(depth - 1), "}".repeat(depth - 1));
        let reports = validate(schema, &document).unwrap();
        assert_eq!((reports.len(), reports[0].rule.as_str()), (1, rule));
    }
}

#[test]
fn threads_may_call_at_once() {
    std::thread::scope(|scope| {
        for _ in 0..4 {
            scope.spawn(|| {
                for _ in 0..50 {
                    assert_eq!(validate(SCHEMA, VALID), Ok(vec![]));
                    assert_eq!(validate(SCHEMA, REPEATED), Ok(vec![repeated()]));
                }
            });
        }
    });
}
