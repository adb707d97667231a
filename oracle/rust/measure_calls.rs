// Times the whole call, by the C face, beside the Rust's `format_policies` on the same policies and outlines, at four lengths, in turns. The Rust's
// outline is supplied, so that its parser takes no time but that of copying it.

mod timing;

use dogwood_syntax::{Document, Item, ItemKind, Span};

extern "C" {
    fn dogwood_format(
        source: *const u8, source_len: usize, outline: *const u32, outline_words: usize, table: *mut u32, table_words: usize, output: *mut u8,
        output_len: usize, place: *mut u64, length: *mut u64,
    ) -> u32;
}

// A statement as its author left it: the parts that the Rust's parser cuts it into.
struct Statement {
    kind: ItemKind,
    annotations: Vec<String>,
    // what follows them: of a policy its head and its conditions
    clauses: Vec<String>,
}

fn definition(text: String) -> Statement {
    Statement { kind: ItemKind::Definition, annotations: vec![], clauses: vec![text] }
}

fn policy(annotations: Vec<String>, clauses: Vec<String>) -> Statement {
    Statement { kind: ItemKind::Policy, annotations, clauses }
}

// What stands in a vault's policy file: rules of one line, of clauses that fit on theirs and of clauses that do not, and definitions.
fn statement(index: usize) -> Statement {
    let level = index % 7;
    match index % 6 {
        0 => policy(
            vec![format!("@id(\"open-{index}\")")],
            vec![
                format!("\npermit(principal in Team::\"surface-{index}\", action == Action::\"open\", resource)\n  "),
                format!("when {{ resource.released == true && principal.level >= {level} }}\n  "),
                "unless { resource.owner != principal || context.hour < 7 };".to_string(),
            ],
        ),
        1 => policy(
            vec![],
            vec![
                format!(
                    "permit (principal in Team::\"release\",action in [Action::\"release\", Action::\"supersede\", Action::\"withdraw\"],\n    \
                     resource in Vault::\"{index}\")\n"
                ),
                format!(
                    "when {{ principal.level>={level} && resource.checks.containsAll([\"curvature\", \"gaps\", \"normals\"])\n   && (resource.owner \
                     == principal || resource.stewards.contains(principal)) && context.site in [\"A\", \"B\"] }};"
                ),
            ],
        ),
        2 => policy(vec![], vec![format!("forbid(principal, action == Action::\"export\", resource in Folder::\"draft-{index}\");")]),
        3 => definition(format!(
            "def may_sign_{index}(user, model) {{ user.active && user.level >= {level} && model.state == \"checked\"\n  \
             && !model.holds.containsAny([\"legal\", \"export\"]) }};"
        )),
        4 => policy(
            vec![format!("@id(\"night-{index}\")"), "@advice(\"zurück an die Werkstatt\")".to_string()],
            vec![
                "\nforbid(principal, action, resource)\n".to_string(),
                "when { context.hour < 6 || context.hour > 22 }\n".to_string(),
                format!(
                    "unless {{ principal in Role::\"night-shift\" && resource.tags.containsAny([\"urgent\", \"line-{index}\"]) \
                     && context.approvals.size() >= {level} }};"
                ),
            ],
        ),
        _ => policy(
            vec![],
            vec![
                format!("permit(principal == User::\"librarian-{index}\", action, resource)\n"),
                "when { like(resource.name, \"wing-*\") };".to_string(),
            ],
        ),
    }
}

// A statement's text, with one blank between two annotations, and its parts within it.
fn spelt(statement: &Statement) -> (String, Vec<Span>) {
    let (mut text, mut parts) = (String::new(), Vec::new());
    let mut push = |text: &mut String, part: &str| {
        let start = text.len();
        text.push_str(part);
        parts.push(Span::new(start, text.len()));
    };
    for annotation in &statement.annotations {
        if !text.is_empty() {
            text.push(' ');
        }
        push(&mut text, annotation);
    }
    for clause in &statement.clauses {
        push(&mut text, clause);
    }
    (text, parts)
}

// Statements with comments before, behind and between them, as long as the next one fits, and their outline.
fn policies(bytes: usize) -> (String, Document) {
    let (mut text, mut items) = (String::from("// who may do what in the vault\n\n"), Vec::new());
    for index in 0.. {
        let statement = statement(index);
        let (body, parts) = spelt(&statement);
        let before = match index % 4 {
            0 => format!("// handle {index}: agreed with the design office  \n// see the vault's handbook, §{}\n", index % 40),
            2 => format!("// {index}\n"),
            _ => String::new(),
        };
        let behind = if index % 5 == 1 { " // until the audit\n\n" } else { "\n\n\n" };
        if text.len() + before.len() + body.len() + behind.len() > bytes {
            break;
        }
        text.push_str(&before);
        let start = text.len();
        text.push_str(&body);
        let line_parts = parts.iter().map(|part| Span::new(start + part.start, start + part.end)).collect();
        items.push(Item { kind: statement.kind, span: Span::new(start, text.len()), line_parts });
        text.push_str(behind);
    }
    (text, Document { items })
}

fn words(document: &Document) -> Vec<u32> {
    let record = |item: &Item| {
        let kind = if item.kind == ItemKind::Definition { 0 } else { 1 };
        let parts = item.line_parts.iter().flat_map(|part| [part.start, part.end]);
        [kind, item.span.start, item.span.end, item.line_parts.len()].into_iter().chain(parts).map(|word| word as u32).collect::<Vec<_>>()
    };
    document.items.iter().flat_map(record).collect()
}

// The best times of ours and of the Rust's, in nanoseconds.
struct Row {
    bytes: usize,
    ours: f64,
    theirs: f64,
}

fn measured(bytes: usize, turns: usize, runs: usize, rust_runs: usize) -> Row {
    let (text, document) = policies(bytes);
    let (outline, statements) = (words(&document), document.items.len());
    dogwood_syntax::supply(document);
    let mut table = vec![0u32; 3 * text.len()];
    let mut output = vec![0u8; 4 * text.len()];
    let (mut ours, mut theirs) = (f64::INFINITY, f64::INFINITY);
    for _ in 0..turns {
        let (mut place, mut length) = (0u64, 0u64);
        let (time, number) = timing::best(runs, || unsafe {
            dogwood_format(
                text.as_ptr(), text.len(), outline.as_ptr(), outline.len(), table.as_mut_ptr(), table.len(), output.as_mut_ptr(), output.len(),
                &mut place, &mut length,
            )
        });
        let (time_there, laid) = timing::best(rust_runs, || dogwood_formatter::format_policies(&text));
        assert!(number == 0 && laid.as_bytes() == &output[..length as usize] && laid != text, "the layouts differ");
        ours = ours.min(time);
        theirs = theirs.min(time_there);
    }
    println!(
        "{} {} {} {:.4} {:.2} {:.4} {:.2} {:.1}",
        text.len(), statements, outline.len(), ours / 1e6, ours / text.len() as f64, theirs / 1e6, theirs / text.len() as f64, theirs / ours
    );
    Row { bytes: text.len(), ours, theirs }
}

fn told(what: &str, found: f64, kept: bool) -> bool {
    println!("{what}: {found:.1}, {}", if kept { "kept" } else { "MISSED" });
    kept
}

// Bytes, turns, and the runs of ours and of the Rust's in a turn.
const SIZES: [(usize, usize, usize, usize); 4] = [(1_000, 200, 20, 20), (10_000, 100, 10, 5), (100_000, 25, 4, 1), (1_000_000, 3, 8, 1)];

fn main() {
    println!("bytes statements outline_words ours_ms ours_ns_a_byte rust_ms rust_ns_a_byte ratio");
    let rows = SIZES.map(|(bytes, turns, runs, rust_runs)| measured(bytes, turns, runs, rust_runs));
    let ratio = |row: &Row| row.theirs / row.ours;
    let grown = rows[3].ours / rows[2].ours;
    let kept = [
        told("times as fast as the Rust at 10 KB, at least 3", ratio(&rows[1]), ratio(&rows[1]) >= 3.0),
        told("times as fast as the Rust at 1 MB, at least 100", ratio(&rows[3]), ratio(&rows[3]) >= 100.0),
        told(&format!("growth from {} to {} bytes, at most 11", rows[2].bytes, rows[3].bytes), grown, grown <= 11.0),
    ];
    std::process::exit(if kept.contains(&false) { 1 } else { 0 });
}
