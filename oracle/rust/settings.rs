
// In place of the two constants: values of the same names that can be set, used by the same expressions.

thread_local! {
    static SETTINGS: std::cell::Cell<(usize, &'static str)> = const { std::cell::Cell::new((80, "  ")) };
}

pub fn set(width: usize, indent: &'static str) {
    SETTINGS.with(|settings| settings.set((width, indent)));
}

struct LineWidth;
const LINE_WIDTH: LineWidth = LineWidth;

impl PartialEq<LineWidth> for usize {
    fn eq(&self, _: &LineWidth) -> bool {
        *self == SETTINGS.with(std::cell::Cell::get).0
    }
}

impl PartialOrd<LineWidth> for usize {
    fn partial_cmp(&self, _: &LineWidth) -> Option<std::cmp::Ordering> {
        self.partial_cmp(&SETTINGS.with(std::cell::Cell::get).0)
    }
}

struct Indent;
const INDENT: Indent = Indent;

impl std::ops::Deref for Indent {
    type Target = str;
    fn deref(&self) -> &'static str {
        SETTINGS.with(std::cell::Cell::get).1
    }
}

pub fn lay_out_whole(parts: &[Token<'_>]) -> String {
    lay_out(parts, 0)
}
