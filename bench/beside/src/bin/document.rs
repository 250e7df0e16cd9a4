//! Writes the list of the documents' own cases: to the file named, or to
//! standard output.
//!
//! cargo run --release -p beside --bin document -- beside/lists/document.txt

fn main() {
    beside::recorded::written(&beside::document::text());
}
