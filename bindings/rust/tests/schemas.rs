use graphql_validation::{validate, validate_json, validate_schema};
use graphql_validation::{Error, File, Options, Schema};

const TEXT: &str = "type Query { pet(id: ID!): Pet } type Pet { name: String }";

const VALID: &str = "{ pet(id: 1) { name } }";

const REPEATED: &str = "{\n\tpet(id: 1,\r\n\tid: 2) { name }\n}\n";

#[test]
fn documents_are_validated_as_often_as_wanted() {
    let schema = Schema::read(TEXT).unwrap();
    for _ in 0..100 {
        assert_eq!(schema.validate(VALID), Ok(vec![]));
        assert_eq!(schema.validate(REPEATED), validate(TEXT, REPEATED));
        assert_eq!(schema.validate_json(REPEATED), validate_json(TEXT, REPEATED));
    }
}

#[test]
fn answers_longer_than_the_room_are_whole() {
    let fields: String = (0..500).map(|number| format!("a{number} ")).collect();
    let document = format!("{{ {fields} }}");
    let schema = Schema::read(TEXT).unwrap();
    assert_eq!(schema.validate_json(&document), validate_json(TEXT, &document));
}

#[test]
fn a_schema_that_does_not_hold_is_an_error() {
    let rootless = "type Pet { name: String }";
    let reports = validate_schema(rootless).unwrap();
    assert_eq!(Schema::read(rootless).err(), Some(Error::SchemaReported(reports)));
}

#[test]
fn reports_name_the_files_of_a_schema() {
    let query = File { name: "query.graphql", text: "type Query { a: Int }" };
    let twice = File { name: "pet.graphql", text: "type Pet { a: Int } type Pet { b: Int }" };
    let options = Options::default();
    let Err(Error::SchemaReported(reports)) = Schema::read_files(&[query, twice], &options) else {
        panic!("the schema has a type twice");
    };
    assert_eq!(reports.len(), 1);
    assert_eq!(reports[0].file.as_deref(), Some("pet.graphql"));
    assert_eq!(reports[0].related.len(), 1);
    assert_eq!(reports[0].related[0].file.as_deref(), Some("pet.graphql"));
    assert_eq!(reports[0].related[0].span, 5..8);
    let more = File { name: "more.graphql", text: "extend type Query { b: Int }" };
    let schema = Schema::read_files(&[query, more], &options).unwrap();
    assert_eq!(schema.validate("{ a b }"), Ok(vec![]));
}

#[test]
fn options_are_bounds() {
    let deep = "{ a { a { a { b } } } }";
    let schema = Schema::read("type Query { a: Query b: Int }").unwrap();
    assert_eq!(schema.validate(deep), Ok(vec![]));
    let shallow = Options { depth: 3, ..Options::default() };
    assert_eq!(schema.validate_within(deep, &shallow).unwrap()[0].rule, "Syntax");
    let all = schema.validate("{ c d e }").unwrap();
    assert_eq!(all.len(), 3);
    let two = Options { max_reports: 2, ..Options::default() };
    assert_eq!(schema.validate_within("{ c d e }", &two), Ok(all[..2].to_vec()));
}

fn answers_in_turn(schema: &Schema) {
    let wanted = validate(TEXT, REPEATED);
    for _ in 0..50 {
        assert_eq!(schema.validate(VALID), Ok(vec![]));
        assert_eq!(schema.validate(REPEATED), wanted);
    }
}

#[test]
fn threads_share_a_schema() {
    let schema = Schema::read(TEXT).unwrap();
    std::thread::scope(|scope| {
        for _ in 0..8 {
            scope.spawn(|| answers_in_turn(&schema));
        }
    });
}

#[test]
fn clones_outlive_the_thread_that_read_the_schema() {
    let schema = std::thread::spawn(|| Schema::read(TEXT).unwrap()).join().unwrap();
    let threads: Vec<_> = (0..8)
        .map(|_| {
            let clone = schema.clone();
            std::thread::spawn(move || answers_in_turn(&clone))
        })
        .collect();
    drop(schema);
    for thread in threads {
        thread.join().unwrap();
    }
}
