use crate::sink::{Kind, Line, Missed, Path, Sink};
use std::collections::HashMap;
use std::io::{self, Write};
use tracing_core::Level;

/// Prints paths as text, a line each thing that happened: microseconds since the path began, what, its fields, and the lane.
#[derive(Debug)]
pub struct Text<W> {
    out: W,
    outside: bool,
}

impl<W: Write + Send> Text<W> {
    /// Prints kept paths, a line for each that was missed, and each event of level ERROR outside of paths, with its microseconds of the layer's clock.
    pub fn new(out: W) -> Text<W> {
        Text { out, outside: false }
    }

    /// Prints all that happened outside of paths.
    #[must_use]
    pub fn with_outside(mut self) -> Text<W> {
        self.outside = true;
        self
    }

    /// What it wrote to.
    pub fn into_inner(self) -> W {
        self.out
    }

    fn line(&mut self, line: &Line, begun: u64, depth: usize) -> io::Result<()> {
        let since = line.stamp.saturating_sub(begun);
        write!(self.out, "{:>8}.{:03} {:indent$}", since / 1000, since % 1000, "", indent = 2 * depth)?;
        match (line.kind, line.metadata) {
            (Kind::Event, Some(metadata)) => write!(self.out, "{} {}:", metadata.level(), line.target())?,
            (Kind::Open, Some(metadata)) => write!(self.out, "{} {{", metadata.name())?,
            (Kind::Close, _) => write!(self.out, "}}")?,
            (Kind::Set, _) => write!(self.out, "set")?,
            (Kind::Enter, _) => write!(self.out, "enter")?,
            (Kind::Exit, _) => write!(self.out, "exit")?,
            (Kind::Event | Kind::Open, None) => write!(self.out, "?")?,
        }
        for (name, value) in &line.values {
            match *name {
                name if name.starts_with("log.") && line.is_of_log() => {}
                "message" => write!(self.out, " {value}")?,
                _ => write!(self.out, " {name}={value}")?,
            }
        }
        match line.left_out() {
            0 => {}
            left_out => write!(self.out, " and {left_out} fields more")?,
        }
        writeln!(self.out, " @{}", line.lane)
    }
}

impl<W: Write + Send> Sink for Text<W> {
    fn path(&mut self, path: &Path) -> io::Result<()> {
        let took = path.nanoseconds;
        let open = if path.open { ", open still" } else { "" };
        writeln!(self.out, "{} {} took {}.{:03} us: {}{open}", path.name(), path.id, took / 1000, took % 1000, path.why)?;
        let mut depths = HashMap::from([(0, 0)]);
        for line in &path.lines {
            let depth = match line.kind {
                Kind::Open => {
                    let depth = depths.get(&line.parent).copied().unwrap_or(0);
                    depths.insert(line.span, depth + 1);
                    depth
                }
                Kind::Close => depths.get(&line.span).map_or(0, |depth| depth - 1),
                _ => depths.get(&line.span).copied().unwrap_or(0),
            };
            self.line(line, path.begun, depth)?;
        }
        if path.cut + path.lost > 0 {
            writeln!(self.out, "             {} records had no room in the path, {} none in the stream", path.cut, path.lost)?;
        }
        Ok(())
    }

    fn outside(&mut self, line: &Line) -> io::Result<()> {
        let failure = line.kind == Kind::Event && line.metadata.is_some_and(|metadata| *metadata.level() == Level::ERROR);
        if self.outside || failure {
            self.line(line, 0, 0)?;
        }
        Ok(())
    }

    fn missed(&mut self, missed: &Missed) -> io::Result<()> {
        let (name, took) = (missed.metadata.map_or("?", |metadata| metadata.name()), missed.nanoseconds);
        writeln!(self.out, "{name} missed, no path was free, took {}.{:03} us: {}", took / 1000, took % 1000, missed.why)
    }

    fn full(&mut self, open: u32) -> io::Result<()> {
        writeln!(self.out, "{open} paths are open, as many as may be: others aren't recorded until one of them ends (told once)")
    }

    fn flush(&mut self) -> io::Result<()> {
        self.out.flush()
    }
}
