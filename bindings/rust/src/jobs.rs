//! Many trees at once.

use crate::calls::{self, Answer, Job};
use crate::options::Options;
use crate::refusal::{settled, Asked, Reason, Refusal};
use std::ops::Range;
use std::slice;

/// Writes the texts of many trees to `out`, one behind the other, and tells of each where it stands or why it was refused.
///
/// `trees` holds all trees, `jobs` says which of its bytes are a tree each, and `text` is the one text for all. Ranges may
/// overlap, and one tree may stand in several. Each job is what [`render`](crate::render) does for its tree on the room that
/// is left. A refused one adds nothing, and the next go on. The encoding of the text is checked once for all of them.
///
/// ```
/// use kinyandoma::{id, render_jobs, Reason, Trees};
///
/// let mut trees = Trees::new();
/// for name in ["meters", "readings", "tariffs"] {
///     trees.add(id(name))?;
/// }
/// let mut out = [0; 14];
/// let texts = render_jobs(trees.trees(), trees.ranges(), trees.text(), &mut out);
/// assert_eq!(texts.get(0), Some(Ok("meters")));
/// assert_eq!(texts.get(1), Some(Ok("readings")));
/// let refusal = texts.get(2).unwrap().unwrap_err();
/// assert_eq!((refusal.reason, refusal.place), (Reason::NoRoom, 7));
/// assert_eq!(texts.written(), b"metersreadings");
/// # Ok::<(), Box<dyn std::error::Error>>(())
/// ```
///
/// A range that is not inside `trees` is refused with 1, before all else:
///
/// ```
/// use kinyandoma::{id, render_jobs, Reason};
///
/// let (tree, text) = id("readings").finish()?;
/// let jobs = [0..32, 0..48, 32..usize::MAX, 0..32];
/// let mut out = [0; 100];
/// let texts = render_jobs(&tree, &jobs, &text, &mut out);
/// let told: Vec<_> = texts.iter().map(|text| text.map_err(|refusal| refusal.reason)).collect();
/// let outside = Err(Reason::OutsideBuffer);
/// assert_eq!(told, [Ok("readings"), outside, outside, Ok("readings")]);
/// # Ok::<(), Box<dyn std::error::Error>>(())
/// ```
pub fn render_jobs<'out>(
    trees: &[u8],
    jobs: &[Range<usize>],
    text: &[u8],
    out: &'out mut [u8],
) -> Rendered<'out> {
    render_jobs_with(Options::new(), trees, jobs, text, out)
}

/// As [`render_jobs`], with options, which hold for all of them.
///
/// ```
/// use kinyandoma::{render_jobs_with, Kind, Node, Options, Run, Trees};
///
/// let check = |source: &str| Node::new(Kind::Check).child(Run::new()).text(source);
/// let mut trees = Trees::new();
/// trees.add(check("kwh >= 0 /* no credit"))?;
/// trees.add(check("kwh >= 0"))?;
/// let mut out = [0; 64];
/// let strict = Options::new().strict(true);
/// let texts = render_jobs_with(strict, trees.trees(), trees.ranges(), trees.text(), &mut out);
/// assert_eq!(texts.get(0).unwrap().unwrap_err().number, 9);
/// assert_eq!(texts.get(1), Some(Ok("CHECK (kwh >= 0)")));
/// # Ok::<(), Box<dyn std::error::Error>>(())
/// ```
pub fn render_jobs_with<'out>(
    options: Options,
    trees: &[u8],
    jobs: &[Range<usize>],
    text: &[u8],
    out: &'out mut [u8],
) -> Rendered<'out> {
    let mut jobs: Vec<Job> = jobs.iter().map(job).collect();
    let written = calls::render_jobs(options.bits(), &mut jobs, trees, text, out);
    Rendered {
        jobs,
        trees: trees.len() as u64,
        written: &out[..written],
    }
}

/// The text of each tree as a string of its own.
///
/// The texts are measured first, by a call without room, so that there is room for all of them.
///
/// ```
/// use kinyandoma::{id, render_jobs_to_strings, Trees};
///
/// let mut trees = Trees::new();
/// trees.add(id("meters"))?;
/// trees.add(id("readings"))?;
/// let texts = render_jobs_to_strings(trees.trees(), trees.ranges(), trees.text());
/// assert_eq!(texts, [Ok("meters".to_string()), Ok("readings".to_string())]);
/// # Ok::<(), Box<dyn std::error::Error>>(())
/// ```
pub fn render_jobs_to_strings(
    trees: &[u8],
    jobs: &[Range<usize>],
    text: &[u8],
) -> Vec<Result<String, Refusal>> {
    render_jobs_to_strings_with(Options::new(), trees, jobs, text)
}

/// As [`render_jobs_to_strings`], with options.
pub fn render_jobs_to_strings_with(
    options: Options,
    trees: &[u8],
    jobs: &[Range<usize>],
    text: &[u8],
) -> Vec<Result<String, Refusal>> {
    let measured = render_jobs_with(options, trees, jobs, text, &mut []);
    let mut out = vec![0; measured.missing()];
    let texts = render_jobs_with(options, trees, jobs, text, &mut out);
    texts.iter().map(|text| text.map(str::to_string)).collect()
}

/// What [`render_jobs`] has written, and what it says of each job.
///
/// It is made in one allocation, for the jobs as the library takes them. The texts stay in the output that was lent.
#[derive(Clone, Debug)]
pub struct Rendered<'out> {
    jobs: Vec<Job>,
    /// Bytes of the buffer of trees.
    trees: u64,
    written: &'out [u8],
}

impl<'out> Rendered<'out> {
    /// The text of a job, or its refusal. None if there is no such job.
    ///
    /// # Panics
    /// Never: whole characters of UTF-8 are all that a tree's text is made of.
    pub fn get(&self, index: usize) -> Option<Result<&'out str, Refusal>> {
        self.jobs.get(index).map(|job| self.text(job))
    }

    /// The text or the refusal of each job, in their order.
    ///
    /// ```
    /// use kinyandoma::{id, render_jobs, Trees};
    ///
    /// let mut trees = Trees::new();
    /// trees.add(id("a"))?;
    /// trees.add(id("b"))?;
    /// let mut out = [0; 2];
    /// let texts = render_jobs(trees.trees(), trees.ranges(), trees.text(), &mut out);
    /// let texts: Result<Vec<&str>, _> = texts.iter().collect();
    /// assert_eq!(texts, Ok(vec!["a", "b"]));
    /// # Ok::<(), Box<dyn std::error::Error>>(())
    /// ```
    pub fn iter(&self) -> Texts<'_, 'out> {
        Texts {
            rendered: self,
            jobs: self.jobs.iter(),
        }
    }

    /// Where in the output a job's text begins; of a refused one, where the next text begins.
    pub fn start(&self, index: usize) -> Option<usize> {
        self.jobs.get(index).map(|job| job.out_start as usize)
    }

    /// All that was written, from the first byte of the output on.
    pub fn written(&self) -> &'out [u8] {
        self.written
    }

    /// How many jobs there are.
    pub fn len(&self) -> usize {
        self.jobs.len()
    }

    /// Whether there are none.
    pub fn is_empty(&self) -> bool {
        self.jobs.is_empty()
    }

    fn text(&self, job: &Job) -> Result<&'out str, Refusal> {
        let length = settled(self.asked(job), answer(job))?;
        let start = job.out_start as usize;
        let bytes = &self.written[start..start + length];
        Ok(std::str::from_utf8(bytes).expect("whole characters of UTF-8"))
    }

    /// A job outside the buffer is told from a tree of a wrong length.
    fn asked(&self, job: &Job) -> Asked {
        let inside = job.tree_start <= self.trees && job.tree_len <= self.trees - job.tree_start;
        match inside {
            true => Asked::Tree,
            false => Asked::Outside,
        }
    }

    /// How many bytes the jobs need that there was no room for.
    fn missing(&self) -> usize {
        let refusals = self.iter().filter_map(Result::err);
        let missing = refusals.filter(|refusal| refusal.reason == Reason::NoRoom);
        missing.map(|refusal| refusal.place).sum()
    }
}

/// The text or the refusal of each job.
#[derive(Clone, Debug)]
pub struct Texts<'a, 'out> {
    rendered: &'a Rendered<'out>,
    jobs: slice::Iter<'a, Job>,
}

impl<'out> Iterator for Texts<'_, 'out> {
    type Item = Result<&'out str, Refusal>;

    fn next(&mut self) -> Option<Self::Item> {
        self.jobs.next().map(|job| self.rendered.text(job))
    }

    fn size_hint(&self) -> (usize, Option<usize>) {
        self.jobs.size_hint()
    }
}

impl ExactSizeIterator for Texts<'_, '_> {}

impl<'a, 'out> IntoIterator for &'a Rendered<'out> {
    type Item = Result<&'out str, Refusal>;
    type IntoIter = Texts<'a, 'out>;

    fn into_iter(self) -> Texts<'a, 'out> {
        self.iter()
    }
}

/// A job for these bytes. A range that ends before it starts has none, and no tree is empty.
fn job(range: &Range<usize>) -> Job {
    Job {
        tree_start: range.start as u64,
        tree_len: range.len() as u64,
        ..Job::default()
    }
}

/// What the single call would have answered.
fn answer(job: &Job) -> Answer {
    Answer {
        number: job.refusal as u32,
        place: job.place as u32,
    }
}
