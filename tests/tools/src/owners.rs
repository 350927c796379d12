//! gridtext's text and gridpicture's picture, from the judge's map of owners.

use judge::generate::{commands, damaged_plan, input, Fixed, His, Random, Users, HIS, OF_SIX_BLOCKS, USERS};
use judge::plan::{check, Plan, Refusal, UNKNOWN_OR_SHORT, WIDTHS};
use std::collections::BTreeMap;
use std::io::Write;
use std::path::{Path, PathBuf};
use std::process::{Command, Stdio};

/// The plan behind its two length bytes; an input that is cut off is refused 1.
fn plan_of(input: &[u8]) -> Result<(Plan, Vec<u16>), Refusal> {
    let [high, low, rest @ ..] = input else { return Err(UNKNOWN_OR_SHORT) };
    let bytes = rest.get(..256 * usize::from(*high) + usize::from(*low)).ok_or(UNKNOWN_OR_SHORT)?;
    Ok((check(bytes)?, judge::owner_numbers(bytes)?))
}

fn title(plan: &Plan) -> String {
    let (cell, frame) = (&plan.cell, &plan.frame);
    let prefix = if cell.extended { "extended" } else { "normal" };
    let ports = if cell.ports == 1 { "port" } else { "ports" };
    format!(
        "Cell {}, {} blocks, {prefix} prefix, {} {ports}, frame {}, subframe {}, CFI {}",
        cell.identity, cell.blocks, cell.ports, frame.frame, frame.subframe, frame.cfi
    )
}

/// The name and the mark of the owner with a number.
fn name_and_mark(plan: &Plan, number: u16) -> (String, String) {
    let n = usize::from(number);
    let named = |name: &str, mark: &str| (name.to_string(), mark.to_string());
    match n {
        0..=3 => (format!("CRS port {n}"), format!("R{n}")),
        16 => named("PSS", "PS"),
        17 => named("SSS", "SS"),
        32 => named("PBCH", "BC"),
        33 => named("PCFICH", "CF"),
        64..=88 => {
            let digit = b"0123456789ABCDEFGHIJKLMNO"[n - 64] as char;
            (format!("PHICH unit {}", n - 64), format!("H{digit}"))
        }
        256..=355 => {
            let user = &plan.users[n - 256];
            let modulation = ["QPSK", "16QAM", "64QAM", "256QAM"][user.bits / 2 - 1];
            (format!("user {}, RNTI {}, {modulation}", n - 256, user.rnti), format!("{:02}", n - 256))
        }
        512 => named("held", "--"),
        513 => named("idle", " ."),
        _ => panic!("no owner has the number {n}"),
    }
}

/// The owners that have a place, by number.
fn occurring(numbers: &[u16]) -> Vec<u16> {
    let mut owners = numbers.to_vec();
    owners.sort();
    owners.dedup();
    owners
}

/// What gridtext prints.
pub fn text(input: &[u8]) -> Result<String, Refusal> {
    let (plan, numbers) = plan_of(input)?;
    let (width, slot) = (plan.cell.subcarriers(), plan.cell.slot_symbols());
    let mut lines = vec![title(&plan), String::new()];
    for first in (0..width).step_by(36) {
        let end = width.min(first + 36);
        let blocks: String = (first..end).step_by(12).map(|k| format!("{k:<24}")).collect();
        lines.push(format!("  k {}", blocks.trim_end()));
        for s in 0..plan.cell.symbols() {
            if s == slot {
                lines.push("   +".to_string());
            }
            let row = &numbers[s * width..][first..end];
            let marks: String = row.iter().map(|n| name_and_mark(&plan, *n).1).collect();
            lines.push(format!("{s:2} |{marks}"));
        }
        lines.push(String::new());
    }
    for number in occurring(&numbers) {
        let (name, mark) = name_and_mark(&plan, number);
        lines.push(format!("{mark} {name}"));
    }
    assert!(lines.iter().all(|line| line.len() <= 80), "a line is longer than 80 columns");
    Ok(lines.join("\n") + "\n")
}

/// A rectangle or a text of a picture.
#[derive(Clone, Debug)]
struct Shape {
    x: usize,
    y: usize,
    width: usize,
    height: usize,
    /// The fill of a rectangle, the words of a text.
    what: String,
}

fn attribute(tag: &str, name: &str) -> Option<String> {
    let (_, rest) = tag.split_once(&format!(" {name}=\""))?;
    Some(rest.split_once('"')?.0.to_string())
}

fn number(tag: &str, name: &str) -> Option<usize> {
    attribute(tag, name)?.parse().ok()
}

/// What a picture has: its size, the rectangles of each band and of the legend, and all texts.
#[derive(Default)]
struct Picture {
    size: (usize, usize),
    bands: Vec<Vec<Shape>>,
    swatches: Vec<Shape>,
    texts: Vec<Shape>,
}

/// Reads a picture tag by tag; a tag that is not closed in its turn is a fault.
fn picture(svg: &str) -> Result<Picture, String> {
    let mut picture = Picture::default();
    let (mut open, mut class): (Vec<String>, String) = Default::default();
    for part in svg.split('<').skip(1) {
        let (tag, after) = part.split_once('>').ok_or("an open tag")?;
        if let Some(closed) = tag.strip_prefix('/') {
            if open.pop().as_deref() != Some(closed) {
                return Err(format!("{closed} is closed out of turn"));
            }
            continue;
        }
        let name = tag.split([' ', '/']).next().unwrap_or_default();
        let [x, y] = ["x", "y"].map(|name| number(tag, name));
        match name {
            "svg" => {
                let [width, height] = ["width", "height"].map(|name| number(tag, name));
                picture.size = width.zip(height).ok_or("no size")?;
            }
            "g" if attribute(tag, "class").is_some() => {
                class = attribute(tag, "class").unwrap_or_default();
                if class == "band" {
                    picture.bands.push(Vec::new());
                }
            }
            // The axis title on the left has no position of its own, the background no number.
            "text" if tag.contains("transform") => {}
            "rect" if tag.contains('%') => {}
            "rect" => {
                let what = attribute(tag, "fill").ok_or("a rectangle without a fill")?;
                let [width, height] = ["width", "height"].map(|name| number(tag, name));
                let all = x.zip(y).zip(width.zip(height));
                let ((x, y), (width, height)) = all.ok_or("a rectangle without a place")?;
                let list =
                    if class == "legend" { Some(&mut picture.swatches) } else { picture.bands.last_mut() };
                list.ok_or("a rectangle outside")?.push(Shape { x, y, width, height, what });
            }
            "text" => {
                let (x, y) = x.zip(y).ok_or("a text without a place")?;
                picture.texts.push(Shape { x, y, width: 0, height: 0, what: after.to_string() });
            }
            _ => {}
        }
        if !tag.ends_with('/') {
            open.push(name.to_string());
        }
    }
    if open.is_empty() {
        Ok(picture)
    } else {
        Err(format!("{open:?} not closed"))
    }
}

/// The colours of a band's places, row by row, and where its rows and columns stand. Rows are one below another and the slots
/// apart, each row's rectangles side by side.
fn band_colours(
    plan: &Plan,
    band: &[Shape],
    places: usize,
    texts: &[Shape],
    first: usize,
) -> Result<Vec<Vec<String>>, String> {
    let mut rows: BTreeMap<usize, Vec<&Shape>> = BTreeMap::new();
    for rect in band {
        rows.entry(rect.y).or_default().push(rect);
    }
    let (left, pitch) = (band[0].x, if plan.cell.blocks < 25 { 6 } else { 4 });
    let ys: Vec<usize> = rows.keys().copied().collect();
    let says = |what: usize, near: &dyn Fn(&Shape) -> bool| {
        texts.iter().any(|text| text.what == what.to_string() && near(text))
    };
    if ys.len() != plan.cell.symbols() {
        return Err(format!("{} rows", ys.len()));
    }
    let mut colours = Vec::new();
    for (s, row) in rows.values().enumerate() {
        let (top, height) = (ys[s], row[0].height);
        let gap = if s + 1 == plan.cell.slot_symbols() { 4..=8 } else { 0..=0 };
        if s + 1 < ys.len() && !gap.contains(&(ys[s + 1] - top - height)) {
            return Err(format!("symbol {s} and the next are not one below the other"));
        }
        if !says(s, &|text| text.x < left && (top + 6..top + height).contains(&text.y)) {
            return Err(format!("symbol {s} has no label"));
        }
        let (mut at, mut line) = (left, Vec::new());
        for rect in row {
            if rect.x != at || rect.height != height || rect.width % pitch != 0 || rect.width == 0 {
                return Err(format!("{rect:?} does not follow the one before"));
            }
            at += rect.width;
            line.extend(vec![rect.what.clone(); rect.width / pitch]);
        }
        if line.len() != places {
            return Err(format!("symbol {s} has {} places", line.len()));
        }
        colours.push(line);
    }
    let bottom = ys[ys.len() - 1] + band[0].height;
    for k in (0..places).step_by(12) {
        let below = |text: &Shape| text.x == left + pitch * k && (bottom..bottom + 20).contains(&text.y);
        let above = |text: &Shape| text.x == left + pitch * (k + 6) && (ys[0] - 20..ys[0]).contains(&text.y);
        if !says(first + k, &below) || !says((first + k) / 12, &above) {
            return Err(format!("the block of subcarrier {} has no labels", first + k));
        }
    }
    Ok(colours)
}

/// Compares a picture with the judge's owners: places have one colour exactly where they have one owner, and the legend names the
/// colours.
fn check_picture(svg: &str, plan: &Plan, numbers: &[u16]) -> Result<(), String> {
    let picture = picture(svg)?;
    let width = plan.cell.subcarriers();
    if picture.bands.len() != width.div_ceil(300) {
        return Err(format!("{} bands", picture.bands.len()));
    }
    let mut by_owner: BTreeMap<u16, String> = BTreeMap::new();
    for (b, band) in picture.bands.iter().enumerate() {
        let places = (width - 300 * b).min(300);
        let colours = band_colours(plan, band, places, &picture.texts, 300 * b)?;
        for (s, line) in colours.iter().enumerate() {
            for (k, colour) in line.iter().enumerate() {
                let owner = numbers[s * width + 300 * b + k];
                if by_owner.entry(owner).or_insert(colour.clone()) != colour {
                    return Err(format!("owner {owner} has two colours"));
                }
            }
        }
    }
    let mut colours: Vec<&String> = by_owner.values().collect();
    colours.sort();
    colours.dedup();
    if colours.len() != by_owner.len() {
        return Err("two owners have one colour".to_string());
    }
    let named: Vec<(String, String)> =
        by_owner.iter().map(|(n, colour)| (colour.clone(), name_and_mark(plan, *n).0)).collect();
    let beside = |swatch: &Shape| {
        let near = |text: &&Shape| {
            (swatch.x + swatch.width..swatch.x + 30).contains(&text.x)
                && (swatch.y..swatch.y + swatch.height).contains(&text.y)
        };
        picture.texts.iter().find(near).map(|text| text.what.clone()).unwrap_or_default()
    };
    let legend: Vec<(String, String)> =
        picture.swatches.iter().map(|swatch| (swatch.what.clone(), beside(swatch))).collect();
    if legend != named {
        return Err("the legend has not the owners' colours and names".to_string());
    }
    let shapes = picture.bands.iter().flatten().chain(&picture.swatches).chain(&picture.texts);
    let outside =
        |shape: &&Shape| shape.x + shape.width > picture.size.0 || shape.y + shape.height > picture.size.1;
    if let Some(shape) = { shapes }.find(outside) {
        return Err(format!("{shape:?} is outside"));
    }
    match picture.texts.first() {
        Some(text) if text.what == title(plan) => Ok(()),
        _ => Err("another title".to_string()),
    }
}

/// A program's standard output and standard error.
fn run(program: &Path, input: &[u8]) -> Result<(String, String), String> {
    let told = |error: std::io::Error| format!("{}: {error}", program.display());
    let piped = || Stdio::piped();
    let mut child =
        Command::new(program).stdin(piped()).stdout(piped()).stderr(piped()).spawn().map_err(told)?;
    let mut stdin = child.stdin.take().expect("a piped input");
    let input = input.to_vec();
    // A program may stop reading early; that alone is no fault.
    let writer = std::thread::spawn(move || drop(stdin.write_all(&input)));
    let output = child.wait_with_output().map_err(told)?;
    let _ = writer.join();
    if output.status.code().is_none() {
        return Err(format!("{} crashed", program.display()));
    }
    let words = |bytes| String::from_utf8(bytes).map_err(|error| error.to_string());
    Ok((words(output.stdout)?, words(output.stderr)?))
}

/// Inputs of all widths, prefixes and port counts, with either PHICH duration, in subframes with and without signals in the centre,
/// of six blocks with every CFI; then plans that have every owner there is, so that all colours stand beside each other; then
/// refused and cut-off inputs.
fn inputs() -> Vec<Vec<u8>> {
    let mut random = Random::new(1);
    let mut list = vec![judge::generate::example_input(), judge::generate::example_variant_input()];
    let wider = (0..90).map(|i| {
        let fixed = Fixed {
            blocks: WIDTHS[1 + i % 5],
            prefix: i / 5 % 2,
            ports: [1, 2, 4][i / 10 % 3],
            subframe: [0, 5, 1][i / 30],
            duration: if (i / 5 + i / 30) % 2 == 0 { Some(1) } else { (i % 7 == 0).then_some(0) },
            ..Fixed::random(&mut random)
        };
        fixed.fitted()
    });
    let mut cells: Vec<Fixed> = wider.collect();
    cells.extend((0..OF_SIX_BLOCKS).map(|i| Fixed::of_six_blocks(&mut random, i)));
    for fixed in cells {
        let (his, users) = (HIS[random.below(HIS.len())], USERS[random.below(USERS.len())]);
        let plan = commands(&mut random, &fixed, his, users).concat();
        let after = random.below(3) * 20;
        list.push(input(&plan, &random.bytes(after)));
    }
    for (prefix, ports, duration) in [(0, 4, Some(1)), (1, 4, None), (0, 1, None), (1, 2, Some(1))] {
        let (identity, frame) = (503, 1023);
        let fixed =
            Fixed { identity, blocks: 100, prefix, ports, g: 12, duration, frame, subframe: 0, cfi: 3 };
        list.push(input(&commands(&mut random, &fixed, His::All, Users::OneBlockEach).concat(), &[]));
    }
    for i in 0..40 {
        let mut refused = input(&damaged_plan(&mut random), &[]);
        refused.truncate(if i % 4 == 0 { random.below(refused.len() + 1) } else { refused.len() });
        list.push(refused);
    }
    list.extend([vec![], vec![0], vec![0, 0], vec![255, 255, 0x10]]);
    list
}

/// Whether a program refuses an input as the judge does: nothing on standard output, the number and its meaning on standard error.
fn check_refusal(refusal: Refusal, out: &str, err: &str) -> Result<(), String> {
    let meaning = err.strip_prefix(&format!("refused {refusal}: ")).and_then(|rest| rest.strip_suffix('\n'));
    match meaning {
        Some(meaning) if out.is_empty() && !meaning.is_empty() && !meaning.contains('\n') => Ok(()),
        _ => Err(format!("refusal {refusal} expected, found {err:?} and {} bytes", out.len())),
    }
}

/// Compares one tool on all inputs and prints one line.
fn compare_tool(bin: &Path, name: &str, judge: impl Fn(&[u8], &str) -> Result<(), String>) -> usize {
    let (mut plans, mut refusals, mut differences) = (0, 0, 0);
    for (i, input) in inputs().iter().enumerate() {
        let told = run(&bin.join(name), input).and_then(|(out, err)| match plan_of(input) {
            Err(refusal) => {
                refusals += 1;
                check_refusal(refusal, &out, &err)
            }
            Ok(_) if !err.is_empty() => Err(format!("{err:?} on standard error")),
            Ok(_) => {
                plans += 1;
                judge(input, &out)
            }
        });
        if let Err(told) = told {
            differences += 1;
            println!("{name}, input {i}: {told}");
        }
    }
    println!("{name}: {plans} plans, {refusals} refused inputs, {differences} differences");
    differences
}

/// The files of the repository that show a tool's output: the expected text, and the pictures of the pages.
fn compare_files(bin: &Path) -> usize {
    let root = PathBuf::from(env!("CARGO_MANIFEST_DIR")).join("../..");
    let read = |name: &str| std::fs::read(root.join(name)).unwrap_or_default();
    let mut old: Vec<&str> = Vec::new();
    if text(&read("crates/gridtext/stdin")).unwrap_or_default().as_bytes() != read("crates/gridtext/stdout") {
        old.push("crates/gridtext/stdout");
    }
    for (from, shown) in [
        ("tests/gridcount/example.in", "docs/pictures/example.svg"),
        ("docs/pictures/broadcast-four-ports.in", "docs/pictures/broadcast-four-ports.svg"),
        ("docs/pictures/six-blocks.in", "docs/pictures/six-blocks.svg"),
        ("docs/pictures/extended-phich.in", "docs/pictures/extended-phich.svg"),
    ] {
        let found = run(&bin.join("gridpicture"), &read(from)).map(|(out, _)| out.into_bytes());
        if found != Ok(read(shown)) {
            old.push(shown);
        }
    }
    for name in &old {
        println!("{name} is not what it should be");
    }
    old.len()
}

/// Prints one line for each tool and gives the number of differences.
pub fn compare(bin: &Path) -> usize {
    let texts = compare_tool(bin, "gridtext", |input, out| match text(input) {
        Ok(expected) if expected == out => Ok(()),
        _ => Err("another text".to_string()),
    });
    let pictures = compare_tool(bin, "gridpicture", |input, out| {
        let (plan, numbers) = plan_of(input).map_err(|refusal| format!("refused {refusal}"))?;
        check_picture(out, &plan, &numbers)
    });
    texts + pictures + compare_files(bin)
}
