//! Object files: against a plain loop over their entries, how the cost grows, and the file that costs most.

use crate::common::orders::{shuffle, Order, ORDERS};
use crate::common::turns::{by_turns, Work};
use crate::files::Placed;
use crate::report::{name, Report};
use crate::FORMATS;
use std::fs;
use std::hint::black_box;
use std::io;
use std::path::Path;
use std::process::{Command, Stdio};
use std::time::{Duration, Instant};
use xcoff::{build_object, move_object, object, Format, ObjectPlan};

const ENTRIES: [u64; 4] = [1_000, 10_000, 70_000, 700_000];

/// What data moves by: so little that the sum of all entries on one branch stays in its range.
const SHIFT: u32 = 4;

/// What stands on the fields, and where these lie.
#[derive(Clone, Copy)]
enum Fields {
    /// Of 32 bits, at multiples of 8.
    Plain,
    /// The same, a byte after these.
    Unaligned,
    /// Branches, at multiples of 8.
    Branches,
    /// Branches, all on one word.
    OneWord,
}

impl Fields {
    fn word(self) -> &'static str {
        match self {
            Fields::Plain => "fields of 32 bits",
            Fields::Unaligned => "fields of 32 bits, unaligned",
            Fields::Branches => "branches",
            Fields::OneWord => "branches on one word",
        }
    }

    fn address(self, i: u64) -> u64 {
        match self {
            Fields::Plain | Fields::Branches => 8 * i,
            Fields::Unaligned => 8 * i + 1,
            Fields::OneWord => 0,
        }
    }

    /// Size and type.
    fn kind(self) -> [u8; 2] {
        match self {
            Fields::Plain | Fields::Unaligned => [0x1F, 0x00],
            Fields::Branches | Fields::OneWord => [0x19, 0x0A],
        }
    }
}

/// An object file, two plans, and room for its image.
struct Placing {
    file: Vec<u8>,
    from: ObjectPlan,
    to: ObjectPlan,
    image: Vec<u8>,
}

impl Placing {
    /// So many entries of a text section whose symbol is in the next one, of data, which moves.
    fn new(format: Format, count: u64, fields: Fields, order: Order) -> Placing {
        let mut addresses: Vec<u64> = (0..count).map(|i| fields.address(i)).collect();
        match order {
            Order::Ascending => {}
            Order::Descending => addresses.reverse(),
            Order::Random => shuffle(&mut addresses),
        }
        let made = Placed {
            format,
            size: 8 * count + 8,
            kind: fields.kind(),
            addresses,
        };
        let file = made.bytes();
        let from = ObjectPlan::recorded(&file).unwrap();
        let mut to = from.clone();
        to.addresses[1] += u64::from(SHIFT);
        let image = vec![1; object(&file).unwrap().length as usize];
        Placing {
            file,
            from,
            to,
            image,
        }
    }

    fn judge(&mut self) {
        black_box(object(black_box(&self.file)).unwrap());
    }

    fn built(&mut self) {
        build_object(&self.file, &self.to, &mut self.image).unwrap();
        black_box(&mut self.image);
    }

    /// There and back, so that every turn finds the same bytes.
    fn moved(&mut self) {
        move_object(&self.file, &self.from, &self.to, &mut self.image).unwrap();
        move_object(&self.file, &self.to, &self.from, &mut self.image).unwrap();
        black_box(&mut self.image);
    }

    /// The raw bytes copied and the entries applied, without a look at anything else.
    fn plainly_built(&mut self) {
        let text = xcoff::section(&self.file, 1).unwrap();
        let data = xcoff::section(&self.file, 2).unwrap();
        let (first, second) = self.image.split_at_mut(text.size as usize);
        let raw = |s: &xcoff::Section| s.scnptr as usize..(s.scnptr + s.size) as usize;
        first.copy_from_slice(&self.file[raw(&text)]);
        second.copy_from_slice(&self.file[raw(&data)]);
        self.plainly(SHIFT);
        black_box(&mut self.image);
    }

    fn plainly_moved(&mut self) {
        self.plainly(SHIFT);
        self.plainly(SHIFT.wrapping_neg());
        black_box(&mut self.image);
    }

    /// Every entry's field changed by the move of its symbol, which is read for each.
    fn plainly(&mut self, by: u32) {
        let text = xcoff::section(&self.file, 1).unwrap();
        match xcoff::open(&self.file).unwrap().format {
            Format::Xcoff32 => apply::<10>(&self.file, &text, &mut self.image, by),
            Format::Xcoff64 => apply::<14>(&self.file, &text, &mut self.image, by),
        }
    }

    /// Whether the plain loop leaves the library's bytes.
    fn holds(&mut self) -> bool {
        self.built();
        let ours = self.image.clone();
        self.plainly_built();
        ours == self.image
    }
}

/// Entries of N bytes of the section's table; the count is the overflow header's where there is one.
fn apply<const N: usize>(file: &[u8], text: &xcoff::Section, image: &mut [u8], by: u32) {
    let (start, wide) = (text.relptr as usize, N == 14);
    let count = match text.nreloc {
        65_535 if !wide => xcoff::section(file, 3).unwrap().paddr,
        own => own,
    };
    let symbols = number(&file[8..if wide { 16 } else { 12 }]) as usize;
    for entry in file[start..start + N * count as usize].chunks_exact(N) {
        let entry: &[u8; N] = entry.try_into().unwrap();
        let address = number(&entry[..if wide { 8 } else { 4 }]) as usize;
        let symbol = number(&entry[N - 6..N - 2]) as usize;
        let at = symbols + 18 * symbol + 12;
        let section = u16::from_be_bytes([file[at], file[at + 1]]);
        let by = if section == 2 { by } else { 0 };
        let field: &mut [u8; 4] = image[address..].first_chunk_mut().unwrap();
        let word = u32::from_be_bytes(*field);
        let new = match entry[N - 1] {
            0x0A => word & 0xFC00_0003 | word.wrapping_add(by) & 0x03FF_FFFC,
            _ => word.wrapping_add(by),
        };
        *field = new.to_be_bytes();
    }
}

fn number(bytes: &[u8]) -> u64 {
    bytes.iter().fold(0, |n, &byte| n << 8 | u64::from(byte))
}

pub fn rows(report: &mut Report, xcoff: &Path, scratch: &Path) -> io::Result<()> {
    report.against("a plain loop over the entries, which judges nothing");
    for format in FORMATS {
        for fields in [Fields::Plain, Fields::Branches] {
            let mut state = Placing::new(format, 70_000, fields, Order::Ascending);
            assert!(state.holds());
            let what = |done| format!("{} 70,000 {} {done}", name(format), fields.word());
            report.versus(&what("built"), &mut state, &Placing::built, &Placing::plainly_built);
            state.image.clone_from(&raw_image(&state));
            report.versus(&what("moved, there and back"), &mut state, &Placing::moved, &Placing::plainly_moved);
        }
    }
    growth(report);
    dearest(report, xcoff, scratch)
}

fn raw_image(state: &Placing) -> Vec<u8> {
    let mut image = vec![0; state.image.len()];
    build_object(&state.file, &state.from, &mut image).unwrap();
    image
}

fn growth(report: &mut Report) {
    let sizes = ENTRIES.map(|n| format!("{},000", n / 1000));
    for (what, work) in [
        ("growth: object files judged, time for one entry", &Placing::judge as Work<Placing>),
        ("growth: object files built, time for one entry", &Placing::built),
    ] {
        report.growth(what, &sizes);
        for fields in [Fields::Plain, Fields::Unaligned, Fields::Branches, Fields::OneWord] {
            for order in ORDERS {
                let one_order = matches!(fields, Fields::OneWord);
                if one_order && !matches!(order, Order::Ascending) {
                    continue;
                }
                let mut states = ENTRIES.map(|n| Placing::new(Format::Xcoff64, n, fields, order));
                let times = each(report, &mut states, work);
                let what = match one_order {
                    true => fields.word().to_string(),
                    false => format!("{}, {}", fields.word(), order.word()),
                };
                report.grown(&what, &times, &ENTRIES.map(|n| n as f64));
            }
        }
    }
}

/// The same work on several states, by turns.
fn each<S, const N: usize>(report: &Report, states: &mut [S; N], work: Work<S>) -> [f64; N] {
    let works: [_; N] = std::array::from_fn(|n| move |all: &mut [S; N]| work(&mut all[n]));
    by_turns(report.time, states, works.each_ref().map(|one| one as Work<[S; N]>))
}

/// 32 text sections of a file of 16 MiB that share all of its bytes and one table: 38 million entries. Each is measured once.
fn dearest(report: &mut Report, xcoff: &Path, scratch: &Path) -> io::Result<()> {
    println!("\nthe object file that costs most: 32 text sections share 16 MiB and one table; once, seconds and memory");
    for order in [Order::Ascending, Order::Random] {
        let file = shared(order);
        let found = object(&file).unwrap();
        let plan = ObjectPlan {
            addresses: (0..found.sections).map(|n| n << 32).collect(),
        };
        let judged = seconds(|| object(&file).map(|_| ()).unwrap());
        let mut image = vec![0; found.length as usize];
        let built = seconds(|| build_object(&file, &plan, &mut image).unwrap());
        println!(
            "  {}: {} entries, an image of {} bytes: judged {judged:.2} s, built {built:.2} s",
            order.word(),
            found.entries,
            found.length
        );
        drop(image);
        let path = scratch.join("shared.o");
        fs::create_dir_all(scratch)?;
        fs::write(&path, &file)?;
        let out = scratch.join("shared.image");
        let places = plan.addresses.iter().zip(1..);
        let places = places.map(|(address, n)| format!("--at={n}={address:x}"));
        let mut command = Command::new(xcoff);
        command.arg("place").arg(&path).args(places).arg("-o").arg(&out);
        let (time, memory) = measured(&mut command)?;
        println!("  {}: xcoff place {time:.2} s, {memory} MiB at most", order.word());
        fs::remove_file(path)?;
        fs::remove_file(out)?;
    }
    let _ = report;
    Ok(())
}

fn seconds(work: impl FnOnce()) -> f64 {
    let start = Instant::now();
    work();
    start.elapsed().as_secs_f64()
}

/// Seconds, and the most memory that was in use, as the system tells it while the process runs.
fn measured(command: &mut Command) -> io::Result<(f64, u64)> {
    command.stdin(Stdio::null()).stdout(Stdio::null()).stderr(Stdio::null());
    let start = Instant::now();
    let mut child = command.spawn()?;
    let status = format!("/proc/{}/status", child.id());
    let mut most = 0;
    let ended = loop {
        if let Some(status) = child.try_wait()? {
            break status;
        }
        let text = fs::read_to_string(&status).unwrap_or_default();
        let line = text.lines().find_map(|line| line.strip_prefix("VmHWM:"));
        let number = line.and_then(|line| line.trim().strip_suffix(" kB"));
        most = most.max(number.and_then(|n| n.parse::<u64>().ok()).unwrap_or(0));
        std::thread::sleep(Duration::from_millis(5));
    };
    match ended.success() {
        true => Ok((start.elapsed().as_secs_f64(), most.div_ceil(1024))),
        false => Err(io::Error::other("xcoff place failed")),
    }
}

/// Raw data and table lie over each other: nothing in the rules keeps them apart.
fn shared(order: Order) -> Vec<u8> {
    const LENGTH: usize = 1 << 24;
    let headers = 24 + 72 * 32;
    let symbols = LENGTH - 18;
    let count = (symbols - headers) / 14;
    let size = (LENGTH - headers) as u64;
    let mut file = vec![0x01, 0xF7, 0, 32, 0, 0, 0, 0];
    file.extend((symbols as u64).to_be_bytes());
    file.extend([0; 4]);
    file.extend(1u32.to_be_bytes());
    for _ in 0..32 {
        file.extend(b".text\0\0\0");
        file.extend([0; 16]);
        file.extend(size.to_be_bytes());
        file.extend((headers as u64).to_be_bytes());
        file.extend((headers as u64).to_be_bytes());
        file.extend([0; 8]);
        file.extend((count as u32).to_be_bytes());
        file.extend([0, 0, 0, 0, 0, 0, 0, 0x20, 0, 0, 0, 0]);
    }
    let mut addresses: Vec<u64> = (0..count as u64).map(|i| 8 * i + 1).collect();
    if let Order::Random = order {
        shuffle(&mut addresses);
    }
    for address in addresses {
        file.extend(address.to_be_bytes());
        file.extend([0, 0, 0, 0, 0x1F, 0]);
    }
    file.resize(symbols, 0);
    // One symbol, in section 1, with the empty name.
    file.extend([0; 12]);
    file.extend([0, 1, 0, 0, 2, 0]);
    file
}
