//! A workspace that owns the buffers of reading, and the sheets that it gives.
use crate::tree::Tree;
use crate::{PAGE_BYTES, Refused, SCRATCH_WORDS, SHEET_BYTES, TEXT_BYTES, Totals, Verdict};

/// The buffers that reading, printing and feeding are lent, long enough for every text, to be used again for each script.
///
/// ```
/// let mut workspace = strip::Workspace::new();
/// for (text, records) in [(&b"at 1"[..], 1), (b"sequence {at 1; at 2}", 3)] {
///     assert_eq!(workspace.compile(text, strip::CSS_COLORS)?.records(), records);
/// }
/// # Ok::<(), strip::Refused>(())
/// ```
#[derive(Clone, Debug)]
pub struct Workspace {
    scratch: [u16; SCRATCH_WORDS],
    sheet: Vec<u8>,
    /// Empty before the first page.
    page: Vec<u8>,
}

impl Default for Workspace {
    fn default() -> Workspace {
        Workspace { scratch: [0; SCRATCH_WORDS], sheet: vec![0; SHEET_BYTES], page: Vec::new() }
    }
}

impl Workspace {
    /// A workspace, some 48 KB; the first page adds 144 KB.
    ///
    /// ```
    /// let sheet = strip::Workspace::new().compile(b"at 0.5;", strip::RUST_COLORS)?;
    /// assert_eq!(sheet.bytes(), [0, 1, 14, 0, 0, 0x3F, 0, 0, 0, 0]);
    /// # Ok::<(), strip::Refused>(())
    /// ```
    pub fn new() -> Workspace {
        Workspace::default()
    }

    /// Reads a text, as [`read`](crate::read()) does.
    ///
    /// ```
    /// let sheet = strip::Workspace::new().read(b"at 0.5; at 0.1")?;
    /// assert_eq!((sheet.bytes().len(), sheet.records(), sheet.rounded()), (18, 2, 1));
    /// # Ok::<(), strip::Refused>(())
    /// ```
    pub fn read<'t>(&mut self, text: &'t [u8]) -> Result<Sheet<'t>, Refused> {
        let read = crate::read(text, &mut self.scratch, &mut self.sheet)?;
        Ok(Sheet { text, bytes: self.sheet[..read.length].to_vec(), records: read.records, rounded: read.rounded })
    }

    /// Reads a text and checks its sheet under a list of colours. Refused as [`read`](crate::read()) refuses, at a place in the text; or
    /// else as [`check`](crate::check) does, at a record's ordinal ([`Refused::record`]).
    ///
    /// ```
    /// use strip::{RUST_COLORS, Refusal, Workspace, line_and_column};
    ///
    /// let (text, mut workspace) = (b"at 1;\n  preset fadein", Workspace::new());
    /// let refused = workspace.compile(text, RUST_COLORS).unwrap_err();
    /// assert_eq!((refused.refusal, refused.place), (Refusal::UnknownPreset, 2));
    /// // where the node of that record stands
    /// let start = workspace.read(text)?.start(2).expect("a node's record");
    /// assert_eq!(line_and_column(text, start), (2, 3));
    /// # Ok::<(), strip::Refused>(())
    /// ```
    pub fn compile<'t>(&mut self, text: &'t [u8], list: u32) -> Result<Sheet<'t>, Refused> {
        let sheet = self.read(text)?;
        sheet.check(list)?;
        Ok(sheet)
    }

    /// All that the program prints for a text, as [`print`](crate::print()) writes it: the lines of its records and `accept N`, or
    /// `refuse R at P`.
    ///
    /// ```
    /// let mut workspace = strip::Workspace::new();
    /// let page = workspace.print(b"at 0.5;", strip::RUST_COLORS)?;
    /// assert_eq!(page, "00020001FD\n00080E00003F00000000AB\naccept 1\n");
    /// assert_eq!(workspace.print(b"tween", strip::RUST_COLORS)?, "refuse 6 at 5\n");
    /// # Ok::<(), strip::Refused>(())
    /// ```
    pub fn print(&mut self, text: &[u8], list: u32) -> Result<&str, Refused> {
        self.page.resize(PAGE_BYTES, 0);
        let length = crate::print(text, &mut self.scratch, &mut self.sheet, &mut self.page, list)?;
        Ok(ascii(&self.page[..length]))
    }

    /// Counts a text in totals, as [`feed`](crate::feed) does: its verdict, or a refusal of the totals.
    ///
    /// ```
    /// let (mut workspace, mut totals) = (strip::Workspace::new(), strip::Totals::new());
    /// assert_eq!(workspace.feed(&mut totals, b"at 1", strip::RUST_COLORS)?, Ok(()));
    /// let refused = workspace.feed(&mut totals, b"tween", strip::RUST_COLORS)?.unwrap_err();
    /// assert_eq!((refused.refusal, totals.scripts()), (strip::Refusal::Missing, 2));
    /// # Ok::<(), strip::Refused>(())
    /// ```
    pub fn feed(&mut self, totals: &mut Totals, text: &[u8], list: u32) -> Result<Verdict, Refused> {
        crate::feed(totals, text, &mut self.scratch, &mut self.sheet, list)
    }
}

/// The sheet of a text that reading accepts, with that text.
#[derive(Clone, Debug, PartialEq, Eq)]
pub struct Sheet<'t> {
    text: &'t [u8],
    bytes: Vec<u8>,
    records: usize,
    rounded: usize,
}

impl<'t> Sheet<'t> {
    /// The text that was read.
    ///
    /// ```
    /// assert_eq!(strip::Workspace::new().read(b"at 1")?.text(), b"at 1");
    /// # Ok::<(), strip::Refused>(())
    /// ```
    pub fn text(&self) -> &'t [u8] {
        self.text
    }

    /// The sheet's bytes.
    ///
    /// ```
    /// assert_eq!(strip::Workspace::new().read(b"")?.bytes(), [0, 0]);
    /// # Ok::<(), strip::Refused>(())
    /// ```
    pub fn bytes(&self) -> &[u8] {
        &self.bytes
    }

    /// The sheet's bytes, to keep.
    ///
    /// ```
    /// let kept: Vec<u8> = strip::Workspace::new().read(b"")?.into_bytes();
    /// assert_eq!(kept, [0, 0]);
    /// # Ok::<(), strip::Refused>(())
    /// ```
    pub fn into_bytes(self) -> Vec<u8> {
        self.bytes
    }

    /// How many records of nodes it has; the head is not counted.
    ///
    /// ```
    /// assert_eq!(strip::Workspace::new().read(b"sequence {at 1; at 2}")?.records(), 3);
    /// # Ok::<(), strip::Refused>(())
    /// ```
    pub fn records(&self) -> usize {
        self.records
    }

    /// How many of the written numbers are stored as another f32 than what is written; [`Read::rounded`](crate::Read::rounded).
    ///
    /// ```
    /// assert_eq!(strip::Workspace::new().read(b"at 0.5; at 0.1")?.rounded(), 1);
    /// # Ok::<(), strip::Refused>(())
    /// ```
    pub fn rounded(&self) -> usize {
        self.rounded
    }

    /// Checks it under a list of colours, as [`check`](crate::check) does.
    ///
    /// ```
    /// let text = br#"color c: "tomato" => "red" duration: 1"#;
    /// let sheet = strip::Workspace::new().read(text)?;
    /// assert_eq!(sheet.check(strip::CSS_COLORS), Ok(()));
    /// assert_eq!(sheet.check(strip::RUST_COLORS).unwrap_err().refusal, strip::Refusal::InvalidColor);
    /// # Ok::<(), strip::Refused>(())
    /// ```
    pub fn check(&self, list: u32) -> Verdict {
        crate::check(self.text, &self.bytes, list)
    }

    /// The line of the record with an ordinal, the head being 0, as [`line`](crate::line()) writes it.
    ///
    /// ```
    /// let sheet = strip::Workspace::new().read(b"at 0.5;")?;
    /// assert_eq!(sheet.line(1)?, "00080E00003F00000000AB\n");
    /// assert_eq!(sheet.line(2).unwrap_err().refusal, strip::Refusal::NoSuchRecord);
    /// # Ok::<(), strip::Refused>(())
    /// ```
    pub fn line(&self, ordinal: u32) -> Result<String, Refused> {
        // no record is longer than the sheet
        let mut output = vec![0; 2 * self.bytes.len() + 7];
        let length = crate::line(self.text, &self.bytes, ordinal, &mut output)?;
        Ok(ascii(&output[..length]).to_string())
    }

    /// The start in the text of the keyword of a record's node; none for the head and for an ordinal that no record has.
    ///
    /// ```
    /// let sheet = strip::Workspace::new().read(b"at 1;\n  preset fadein")?;
    /// assert_eq!((sheet.start(0), sheet.start(1), sheet.start(2), sheet.start(3)), (None, Some(0), Some(8), None));
    /// # Ok::<(), strip::Refused>(())
    /// ```
    pub fn start(&self, ordinal: u32) -> Option<usize> {
        crate::start(self.line(ordinal).ok()?.as_bytes())
    }

    /// A fresh script that reads to the same tree, as [`write`](crate::write()) writes it.
    ///
    /// ```
    /// let sheet = strip::Workspace::new().read(b"at--0.50;label \"a\";")?;
    /// assert_eq!(sheet.write(strip::RUST_COLORS)?, "at + 0.5 ; label \"a\" ;");
    /// # Ok::<(), strip::Refused>(())
    /// ```
    pub fn write(&self, list: u32) -> Result<String, Refused> {
        let mut script = vec![0; TEXT_BYTES];
        let length = crate::write(self.text, &self.bytes, &mut script, list)?;
        Ok(ascii(&script[..length]).to_string())
    }

    /// Its planed form, as [`plane`](crate::plane) writes it; [`unplane`](crate::unplane) turns it back.
    ///
    /// ```
    /// let planed = strip::Workspace::new().read(b"keyframes p {0: 1}")?.plane()?;
    /// assert_eq!(planed[planed.len() - 8..], [0, 0x3F, 0, 0x80, 0, 0, 0, 0]);
    /// # Ok::<(), strip::Refused>(())
    /// ```
    pub fn plane(&self) -> Result<Vec<u8>, Refused> {
        let mut planed = vec![0; self.bytes.len()];
        crate::plane(self.text, &self.bytes, &mut planed)?;
        Ok(planed)
    }

    /// Its tree.
    ///
    /// ```
    /// use strip::tree::{AtSpec, MotionNode};
    ///
    /// let tree = strip::Workspace::new().read(b"at +0.5")?.tree()?;
    /// assert_eq!(tree.nodes(), [MotionNode::At(AtSpec { value: 0.5, relative: true })]);
    /// # Ok::<(), strip::Refused>(())
    /// ```
    pub fn tree(&self) -> Result<Tree, Refused> {
        Tree::decode(self.text, &self.bytes)
    }
}

/// What the library writes, lines and scripts, is ASCII.
fn ascii(bytes: &[u8]) -> &str {
    std::str::from_utf8(bytes).expect("ASCII")
}
