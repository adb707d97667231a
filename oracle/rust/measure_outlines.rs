// Times testing an outline alone on policies, at three lengths. The Rust has no such test to stand beside it.

mod timing;

extern "C" {
    fn dogwood_test_outline(
        source: *const u8, source_len: usize, outline: *const u32, outline_words: usize, table: *mut u32, words: usize, place: *mut u64,
    ) -> u32;
}

// Policies, each behind a comment, and the outline that cuts each into its head and its conditions.
fn policies(bytes: usize) -> (String, Vec<u32>) {
    let (mut text, mut outline) = (String::new(), Vec::new());
    let mut index = 0;
    while text.len() + 400 < bytes {
        text.push_str(&format!("// who may open handle {index}\n"));
        let start = text.len() as u32;
        text.push_str(&format!("permit(principal in Team::\"surface-{index}\", action == Action::\"open\", resource)\n"));
        let when = text.len() as u32;
        text.push_str(&format!("when {{ resource.released == true && principal.level >= {} }}\n", index % 7));
        let unless = text.len() as u32;
        text.push_str("unless { resource.owner != principal || context.hour < 7 };");
        let end = text.len() as u32;
        text.push_str("\n\n");
        outline.extend([1, start, end, 3, start, when, when, unless, unless, end]);
        index += 1;
    }
    (text, outline)
}

fn main() {
    println!("bytes words ns_a_byte");
    for (kib, rounds) in [(64, 100), (256, 40), (1024, 15)] {
        let (text, outline) = policies(kib * 1024);
        let mut table = vec![0u32; 3 * text.len()];
        let mut place = 0u64;
        let (time, number) = timing::best(rounds, || unsafe {
            dogwood_test_outline(text.as_ptr(), text.len(), outline.as_ptr(), outline.len(), table.as_mut_ptr(), table.len(), &mut place)
        });
        assert!(number == 0, "the outline fits");
        println!("{} {} {:.2}", text.len(), outline.len(), time / text.len() as f64);
    }
}
