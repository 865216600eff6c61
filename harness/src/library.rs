//! The proved library behind its C interface: calls are packed with what they are lent and what they owe, served by
//! another process (serve.c; under an emulator where the machine is no x86-64), and compared byte by byte.

use crate::expect::Slices;
use crate::mesh::{Area, Mesh};
use crate::reference::Edges;
use std::io::{BufRead, BufReader, Read, Write};
use std::process::{Child, ChildStdin, ChildStdout, Command, Stdio};

/// One call: its arguments as they are lent, and as they must be afterwards, in one layout.
pub struct Call {
    name: &'static str,
    arguments: u32,
    entry: Vec<u8>,
    owed: Vec<u8>,
    /// Where a NaN is owed, with any pattern.
    nans: Vec<usize>,
}

/// What stands behind each argument, up to a multiple of 8 bytes and 8 more: a call that writes past a slice is seen there.
const BEYOND: u8 = 0xe9;

/// The end of an argument with what stands behind it, from the end of its elements.
fn behind(end: usize) -> usize {
    ((end + 7) & !7) + 8
}

impl Call {
    pub fn new(name: &'static str) -> Call {
        Call { name, arguments: 0, entry: vec![0; 8], owed: vec![0; 8], nans: Vec::new() }
    }

    fn argument(mut self, size: u32, entry: impl Iterator<Item = u64>, owed: impl Iterator<Item = u64>) -> Call {
        fn put(to: &mut Vec<u8>, size: u32, values: impl Iterator<Item = u64>) {
            let head = to.len();
            to.extend([0; 8]);
            for v in values {
                to.extend(&v.to_le_bytes()[..size as usize]);
            }
            let count = (to.len() - head - 8) as u32 / size;
            to[head..head + 4].copy_from_slice(&size.to_le_bytes());
            to[head + 4..head + 8].copy_from_slice(&count.to_le_bytes());
            to.resize(behind(to.len()), BEYOND);
        }
        put(&mut self.entry, size, entry);
        put(&mut self.owed, size, owed);
        assert_eq!(self.entry.len(), self.owed.len(), "{}", self.name);
        self.arguments += 1;
        self
    }

    pub fn indexes(self, list: &[u32]) -> Call {
        self.lent_indexes(list, list)
    }
    pub fn floats(self, list: &[f64]) -> Call {
        self.lent_floats(list, list)
    }
    /// Whole numbers with a sign.
    pub fn wholes(self, list: &[i32]) -> Call {
        self.indexes(&list.iter().map(|&v| v as u32).collect::<Vec<_>>())
    }
    pub fn number(self, n: u32) -> Call {
        self.indexes(&[n])
    }
    pub fn float(self, x: f64) -> Call {
        self.floats(&[x])
    }
    pub fn bits(self, b: u64) -> Call {
        self.argument(8, [b].into_iter(), [b].into_iter())
    }
    pub fn lent_indexes(self, entry: &[u32], owed: &[u32]) -> Call {
        self.argument(4, entry.iter().map(|&x| x as u64), owed.iter().map(|&x| x as u64))
    }
    pub fn lent_floats(self, entry: &[f64], owed: &[f64]) -> Call {
        self.argument(8, entry.iter().map(|x| x.to_bits()), owed.iter().map(|x| x.to_bits()))
    }
    /// The same; where a NaN is owed any will do.
    pub fn lent_some_floats(mut self, entry: &[f64], owed: &[f64]) -> Call {
        let first = self.owed.len() + 8;
        self.nans.extend((0..owed.len()).filter(|&k| owed[k].is_nan()).map(|k| first + 8 * k));
        self.lent_floats(entry, owed)
    }
    pub fn patterns(self, list: &[u64]) -> Call {
        self.argument(8, list.iter().copied(), list.iter().copied())
    }
    pub fn lent_patterns(self, entry: &[u64], owed: &[u64]) -> Call {
        self.argument(8, entry.iter().copied(), owed.iter().copied())
    }
    pub fn bytes(self, list: &[u8]) -> Call {
        self.lent_bytes(list, list)
    }
    pub fn lent_bytes(self, entry: &[u8], owed: &[u8]) -> Call {
        self.argument(1, entry.iter().map(|&x| x as u64), owed.iter().map(|&x| x as u64))
    }
    pub fn area(self, a: &Area) -> Call {
        self.float(a.x).float(a.y).float(a.width).float(a.height)
    }
    pub fn edges(self, e: &Edges) -> Call {
        self.float(e.left).float(e.top).float(e.right).float(e.bottom)
    }
    /// A whole mesh, in the order of every call's arguments.
    pub fn mesh(self, m: &Mesh) -> Call {
        self.floats(&m.sites).indexes(&m.triangles).indexes(&m.halfedges).indexes(&m.hull)
    }
    /// The five slices that a build is lent.
    pub fn lent_slices(self, entry: &Slices, owed: &Slices) -> Call {
        self.lent_indexes(&entry.work, &owed.work)
            .lent_floats(&entry.floats, &owed.floats)
            .lent_indexes(&entry.indexes, &owed.indexes)
            .lent_indexes(&entry.offsets, &owed.offsets)
            .lent_indexes(&entry.counts, &owed.counts)
    }
    /// A lent number: whatever it held, it must hold this.
    pub fn gives(self, owed: u32) -> Call {
        self.lent_indexes(&[0xd8d8d8d8], &[owed])
    }
    pub fn gives_float(self, owed: f64) -> Call {
        self.lent_floats(&[-4321.0], &[owed])
    }
    /// The same; where a NaN is owed, which has no pattern in the promise, any will do.
    pub fn gives_some_float(self, owed: f64) -> Call {
        self.lent_some_floats(&[-4321.0], &[owed])
    }
    pub fn gives_bits(self, owed: u64) -> Call {
        self.argument(8, [0xd8d8d8d8].into_iter(), [owed].into_iter())
    }

    fn pack(&mut self, number: u32) {
        for side in [&mut self.entry, &mut self.owed] {
            side[..4].copy_from_slice(&number.to_le_bytes());
            side[4..8].copy_from_slice(&self.arguments.to_le_bytes());
        }
    }
}

/// An argument as a person reads it.
fn words(size: u32, bytes: &[u8]) -> String {
    let list: Vec<String> = bytes
        .chunks_exact(size as usize)
        .map(|c| {
            if size == 1 {
                format!("{:02x}", c[0])
            } else if size == 4 {
                crate::text::list(&[u32::from_le_bytes(c.try_into().unwrap())])
            } else {
                let b = u64::from_le_bytes(c.try_into().unwrap());
                format!("{b:#018x}={:?}", f64::from_bits(b))
            }
        })
        .collect();
    let all = list.join(" ");
    if all.len() > 3000 {
        format!("{} ..", &all[..3000])
    } else {
        all
    }
}

/// The arguments in which two bodies differ.
fn tell(name: &str, owed: &[u8], given: &[u8]) -> String {
    let mut told = format!("{name}:");
    let mut at = 8;
    let mut i = 0;
    while at < owed.len() {
        let size = u32::from_le_bytes(owed[at..at + 4].try_into().unwrap());
        let count = u32::from_le_bytes(owed[at + 4..at + 8].try_into().unwrap());
        let end = at + 8 + size as usize * count as usize;
        let what = if i == 0 { "result".to_string() } else { format!("argument {i}") };
        if owed[at..end] != given[at..end] {
            told += &format!("\n  {what}\n    owed  {}\n    given {}", words(size, &owed[at + 8..end]), words(size, &given[at + 8..end]));
        }
        if owed[end..behind(end)] != given[end..behind(end)] {
            told += &format!("\n  {what}: written past its end");
        }
        at = behind(end);
        i += 1;
    }
    told
}

struct Process {
    child: Child,
    to: ChildStdin,
    from: BufReader<ChildStdout>,
}

/// The library, or none; calls are gathered and sent together.
pub struct Library {
    process: Option<Process>,
    names: Vec<String>,
    frame: Vec<u8>,
    /// The case, the name, where its body starts, what it owes, and where any NaN will do.
    waiting: Vec<(u64, &'static str, usize, Vec<u8>, Vec<usize>)>,
    pub compared: u64,
}

impl Library {
    pub fn none() -> Library {
        Library { process: None, names: Vec::new(), frame: Vec::new(), waiting: Vec::new(), compared: 0 }
    }

    /// Starts the command that `VORONOI_SERVER` holds, as a shell reads it; without it there is no library to compare with.
    /// A server that has no call is an error.
    pub fn start() -> Result<Library, String> {
        let Ok(command) = std::env::var("VORONOI_SERVER") else { return Ok(Library::none()) };
        let mut child = Command::new("sh")
            .args(["-c", &format!("exec {command}")])
            .stdin(Stdio::piped())
            .stdout(Stdio::piped())
            .spawn()
            .map_err(|e| format!("{command}: {e}"))?;
        let to = child.stdin.take().unwrap();
        let mut from = BufReader::with_capacity(1 << 16, child.stdout.take().unwrap());
        let mut line = String::new();
        from.read_line(&mut line).map_err(|e| format!("{command}: {e}"))?;
        if !line.ends_with('\n') {
            return Err(format!("{command}: the server did not start"));
        }
        let mut library = Library::none();
        library.names = line.split_whitespace().map(str::to_string).collect();
        if library.names.is_empty() {
            return Err(format!("{command}: the archive has none of the functions that are to be compared"));
        }
        library.process = Some(Process { child, to, from });
        Ok(library)
    }

    pub fn names(&self) -> &[String] {
        &self.names
    }

    pub fn has(&self, name: &str) -> bool {
        self.names.iter().any(|n| n == name)
    }

    /// Sends a call of the numbered case, now or later; an error tells the first difference so far.
    pub fn put(&mut self, case: u64, mut call: Call) -> Result<(), Difference> {
        let Some(number) = self.names.iter().position(|n| n == call.name) else { return Ok(()) };
        call.pack(number as u32);
        self.waiting.push((case, call.name, self.frame.len(), call.owed, call.nans));
        self.frame.extend(call.entry);
        if self.frame.len() > 1 << 18 {
            self.flush()
        } else {
            Ok(())
        }
    }

    /// Makes one call now and gives its result of 8 bytes.
    pub fn ask(&mut self, mut call: Call) -> Result<u64, String> {
        let number = self.names.iter().position(|n| n == call.name).ok_or(format!("no {}", call.name))?;
        call.pack(number as u32);
        let back = self.exchange(&call.entry)?;
        Ok(u64::from_le_bytes(back[16..24].try_into().unwrap()))
    }

    /// Sends a frame and gives it as it came back.
    pub fn exchange(&mut self, frame: &[u8]) -> Result<Vec<u8>, String> {
        let p = self.process.as_mut().ok_or("no server")?;
        let mut back = vec![0; frame.len()];
        let mut length = [0; 8];
        let io = (|| {
            p.to.write_all(&(frame.len() as u64).to_le_bytes())?;
            p.to.write_all(frame)?;
            p.to.flush()?;
            p.from.read_exact(&mut length)?;
            p.from.read_exact(&mut back)
        })();
        match io {
            Ok(()) => Ok(back),
            Err(e) => Err(format!("the library's server ended: {e} ({:?})", p.child.wait())),
        }
    }

    pub fn flush(&mut self) -> Result<(), Difference> {
        if self.waiting.is_empty() {
            return Ok(());
        }
        let frame = std::mem::take(&mut self.frame);
        let waiting = std::mem::take(&mut self.waiting);
        let given = match self.exchange(&frame) {
            Ok(given) => given,
            Err(words) => {
                let names: Vec<String> = waiting.iter().map(|w| format!("{} of case {}", w.1, w.0)).take(50).collect();
                return Err(Difference { case: waiting[0].0, words: format!("{words}; asked: {}", names.join(", ")) });
            }
        };
        for (case, name, at, mut owed, nans) in waiting {
            self.compared += 1;
            let given = &given[at..at + owed.len()];
            for nan in nans {
                if f64::from_le_bytes(given[nan..nan + 8].try_into().unwrap()).is_nan() {
                    owed[nan..nan + 8].copy_from_slice(&given[nan..nan + 8]);
                }
            }
            if given != owed {
                return Err(Difference { case, words: tell(name, &owed, given) });
            }
        }
        Ok(())
    }
}

impl Drop for Library {
    fn drop(&mut self) {
        if let Some(p) = self.process.take() {
            let Process { mut child, to, from } = p;
            drop((to, from));
            let _ = child.wait();
        }
    }
}

#[derive(Debug)]
pub struct Difference {
    pub case: u64,
    pub words: String,
}
