#!/bin/sh
# Changes a copy of syn 1.0.107: each live parse buffer records its cursor, and
# identifiers follow edition 2021's list of keywords.
# usage: patch-syn.sh FOLDER
set -eu
here=$(cd "$(dirname "$0")" && pwd)
cd "$1/src"

# edit FILE LINE NEW: the one line that is LINE, whatever its indent, becomes NEW.
edit() {
    count=$(sed 's/^ *//' "$1" | grep -cxF -e "$2" || true)
    if [ "$count" != 1 ]; then
        echo "patch-syn: $count lines '$2' in $1" >&2
        exit 1
    fi
    LINE=$2 NEW=$3 awk '{ bare = $0; sub(/^ */, "", bare) }
        bare == ENVIRON["LINE"] { print ENVIRON["NEW"]; next } { print }' "$1" > "$1.new"
    mv "$1.new" "$1"
}

cp "$here/syn-live.rs" live.rs
printf '\n#[doc(hidden)]\npub mod live;\n' >> lib.rs

edit ident.rs '"abstract" | "as" | "become" | "box" | "break" | "const" | "continue" |' \
    '"abstract" | "as" | "become" | "box" | "break" | "const" | "continue" |
        "async" | "await" | "dyn" | "try" |'

edit parse.rs 'unexpected: Cell<Option<Rc<Cell<Unexpected>>>>,' \
    'unexpected: Cell<Option<Rc<Cell<Unexpected>>>>,
    pub(crate) live: crate::live::Live,'
edit parse.rs 'unexpected: Cell::new(Some(unexpected)),' \
    'unexpected: Cell::new(Some(unexpected)),
        live: crate::live::Live::new(scope, cursor),'
edit parse.rs 'unexpected: Cell::new(Some(Rc::new(Cell::new(Unexpected::None)))),' \
    'unexpected: Cell::new(Some(Rc::new(Cell::new(Unexpected::None)))),
            live: crate::live::Live::new(self.scope, self.cursor()),'
edit parse.rs 'self.cell.set(rest);' \
    'self.cell.set(rest);
        self.live.set(rest);'
edit parse.rs 'pub fn parse<T: Parse>(&self) -> Result<T> {' \
    '#[track_caller]
    pub fn parse<T: Parse>(&self) -> Result<T> {'
edit parse.rs 'T::parse(self)' \
    'let (place, before) = (std::panic::Location::caller(), self.cursor());
        let node = T::parse(self)?;
        crate::live::taken::<T>(place, before);
        Ok(node)'

edit group.rs "pub fn parse_braces<'a>(input: &ParseBuffer<'a>) -> Result<Braces<'a>> {" \
    "#[track_caller]
pub fn parse_braces<'a>(input: &ParseBuffer<'a>) -> Result<Braces<'a>> {
    let (place, opener) = (std::panic::Location::caller(), input.span());"
edit group.rs 'parse_delimited(input, Delimiter::Brace).map(|(span, content)| Braces {' \
    'let (span, content) = parse_delimited(input, Delimiter::Brace)?;
    content.live.enter(place, opener);
    Ok((span, content)).map(|(span, content)| Braces {'
