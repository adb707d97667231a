// Times lay_out of dogwood_groups beside the Rust's on a run of small groups, `f(a1) f(a2) ..`, at three lengths.

mod timing;

extern "C" {
    fn dogwood_lay_out(
        out: *mut u8, out_len: usize, text: *const u8, text_len: usize, table: *const u32, words: usize, width: usize, indent: usize,
    ) -> usize;
}

fn run_of(bytes: usize) -> String {
    let mut text = String::new();
    let mut index = 1;
    while text.len() < bytes {
        text.push_str(&format!("f(a{index}) "));
        index += 1;
    }
    text
}

fn main() {
    println!("bytes ours_ns_a_byte rust_ns_a_byte");
    for (bytes, runs, rust_runs) in [(10_000, 200, 20), (100_000, 40, 1), (1_000_000, 10, 0)] {
        let text = run_of(bytes);
        let tokens = dogwood_syntax::tokenize(&text).expect("no string without end");
        let table: Vec<u32> =
            tokens.iter().flat_map(|token| [token.kind as u32, token.span.start as u32, token.span.end as u32]).collect();
        let mut out = vec![0u8; 8 * text.len()];
        let (ours, length) = timing::best(runs, || unsafe {
            dogwood_lay_out(out.as_mut_ptr(), out.len(), text.as_ptr(), text.len(), table.as_ptr(), table.len(), 80, 2)
        });
        let theirs = if rust_runs == 0 {
            "-".to_string()
        } else {
            let (time, laid) = timing::best(rust_runs, || dogwood_formatter::lay_out_whole(&tokens));
            assert!(laid.as_bytes() == &out[..length], "the layouts differ");
            format!("{:.1}", time / text.len() as f64)
        };
        println!("{} {:.1} {}", text.len(), ours / text.len() as f64, theirs);
    }
}
