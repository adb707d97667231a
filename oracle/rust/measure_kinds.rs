// Times tokenising alone beside the Rust's `tokenize` on texts of one kind of token each, in turns.

mod timing;

extern "C" {
    fn dogwood_tokenize(source: *const u8, source_len: usize, table: *mut u32, words: usize, total: *mut u64) -> u32;
}

const BYTES: usize = 262_144;
const ROUNDS: usize = 40;

// What each text repeats.
const KINDS: [(&str, &str); 7] = [
    ("words", "principal resource owner_of level7 in "),
    ("white_space", "a  \n    \t  \n\n        "),
    ("comments", "// who may open the handle of a surface\n"),
    ("strings", "\"the left wing, \\\"draft\\\"\" "),
    ("symbols", "()[]{},;::==&&.<=!"),
    ("not_ascii_words", "規則 größe 日本語 "),
    ("not_ascii_comments", "// zurück über die 東京 Straße\n"),
];

fn main() {
    println!("kind bytes tokens ours_ns_a_byte rust_ns_a_byte ratio");
    for (kind, piece) in KINDS {
        let text = piece.repeat(BYTES / piece.len());
        let mut table = vec![0u32; 3 * text.len()];
        let (mut ours, mut theirs, mut total) = (f64::INFINITY, f64::INFINITY, 0u64);
        for _ in 0..ROUNDS {
            let (time, number) = timing::best(3, || unsafe {
                dogwood_tokenize(text.as_ptr(), text.len(), table.as_mut_ptr(), table.len(), &mut total)
            });
            let (time_there, tokens) = timing::best(3, || dogwood_syntax::tokenize(&text).expect("no string without end"));
            let there = tokens.iter().flat_map(|token| [token.kind as u32, token.span.start as u32, token.span.end as u32]);
            assert!(number == 0 && total as usize == tokens.len() && there.eq(table[..3 * tokens.len()].iter().copied()), "the tokens differ");
            ours = ours.min(time);
            theirs = theirs.min(time_there);
        }
        let bytes = text.len() as f64;
        println!("{kind} {} {total} {:.2} {:.2} {:.2}", text.len(), ours / bytes, theirs / bytes, ours / theirs);
    }
}
