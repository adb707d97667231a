// Times tokenising alone beside the Rust's `tokenize` on policies, at three lengths, in turns.

mod timing;

extern "C" {
    fn dogwood_tokenize(source: *const u8, source_len: usize, table: *mut u32, words: usize, total: *mut u64) -> u32;
}

fn policies(bytes: usize) -> String {
    let mut text = String::new();
    let mut index = 0;
    while text.len() < bytes {
        text.push_str(&format!(
            "// who may open handle {index}\n@id(\"open-{index}\")\npermit(principal in Team::\"surface-{index}\", action == Action::\"open\", resource)\n  \
             when {{ resource.released == true && principal.level >= {} }}\n  unless {{ resource.owner != principal || context.hour < 7 }};\n\n",
            index % 7
        ));
        index += 1;
    }
    text.truncate(bytes - 1);
    while text.ends_with('"') || dogwood_syntax::tokenize(&text).is_err() {
        text.pop();
    }
    text
}

fn main() {
    println!("bytes ours_ns_a_byte rust_ns_a_byte");
    for (kib, rounds) in [(64, 60), (256, 30), (1024, 12)] {
        let text = policies(kib * 1024);
        let mut table = vec![0u32; 3 * text.len()];
        let (mut ours, mut theirs) = (f64::INFINITY, f64::INFINITY);
        for _ in 0..rounds {
            let mut total = 0u64;
            let (time, number) = timing::best(3, || unsafe {
                dogwood_tokenize(text.as_ptr(), text.len(), table.as_mut_ptr(), table.len(), &mut total)
            });
            let (time_there, tokens) = timing::best(3, || dogwood_syntax::tokenize(&text).expect("no string without end"));
            assert!(number == 0 && total as usize == tokens.len(), "the tokens differ");
            ours = ours.min(time);
            theirs = theirs.min(time_there);
        }
        println!("{} {:.2} {:.2}", text.len(), ours / text.len() as f64, theirs / text.len() as f64);
    }
}
