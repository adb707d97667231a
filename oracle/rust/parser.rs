
// In place of the parser: the outline is handed in from outside.

thread_local! {
    static SUPPLIED: std::cell::RefCell<Document> = const { std::cell::RefCell::new(Document { items: Vec::new() }) };
}

pub fn supply(document: Document) {
    SUPPLIED.with(|supplied| *supplied.borrow_mut() = document);
}

pub fn parse_document(_source: &str) -> Result<Document, ()> {
    Ok(SUPPLIED.with(|supplied| supplied.borrow().clone()))
}
