//! The report page in a browser: headless Chromium, where it is installed.

use std::fs;
use std::io::Write as _;
use std::path::{Path, PathBuf};
use std::process::Command;

use serde_json::Value;

/// The widths of a phone and of a screen.
const WIDTHS: [u32; 2] = [360, 1_280];

/// Looks for what is wider than its place, and notes it where the page can be read.
const MEASURE: &str = "<script>
addEventListener('load', () => {
  const wrong = [];
  const seen = (e) => e.checkVisibility ? e.checkVisibility() : true;
  for (const e of document.body.querySelectorAll('*')) {
    if (!seen(e) || e.closest('defs') || e.tagName === 'SCRIPT') continue;
    const box = e.getBoundingClientRect();
    const name = e.tagName + '.' + e.getAttribute('class') + ' ' + e.textContent.slice(0, 40);
    if (box.right > innerWidth + 1 || box.left < -1) wrong.push('outside the page: ' + name);
    const html = e instanceof HTMLElement && e.clientWidth > 0;
    if (html && e.scrollWidth > e.clientWidth + 1) wrong.push('wider than its box: ' + name);
    const svg = e.ownerSVGElement && e.ownerSVGElement.getBoundingClientRect();
    if (svg && (box.right > svg.right + 1 || box.left < svg.left - 1 || box.bottom > svg.bottom + 1 || box.top < svg.top - 1))
      wrong.push('outside its drawing: ' + name);
    const band = e.previousElementSibling;
    if (e.classList.contains('on') && band && box.width > band.getBoundingClientRect().width + 1)
      wrong.push('wider than its band: ' + name);
  }
  if (document.documentElement.scrollWidth > innerWidth) wrong.push('the page scrolls sideways');
  const note = parent.document.getElementById('measured');
  parent.document.getElementById('shown').innerHTML = document.body.innerHTML;
  note.textContent = innerWidth + ' wide; ' + wrong.length + ' wrong; ' + wrong.slice(0, 5).join(' | ') + ';';
});
</script>";

/// A fresh folder of this test.
fn folder(name: &str) -> PathBuf {
    let path = PathBuf::from(env!("CARGO_TARGET_TMPDIR")).join(name);
    let _ = fs::remove_dir_all(&path);
    fs::create_dir_all(&path).expect("a folder for the test");
    path
}

/// The browser, or a line that says that there is none.
fn browser() -> Option<&'static str> {
    let names = ["chromium", "chromium-browser", "google-chrome"];
    let works = |name: &&str| Command::new(name).arg("--version").output().is_ok();
    let found = names.into_iter().find(works);
    if found.is_none() {
        let line = "SKIPPED: the report page in a browser: no chromium\n";
        // Not captured, as a macro's output would be.
        let _ = std::io::stderr().write_all(line.as_bytes());
    }
    found
}

/// The page as a browser has it at a width, with what it measured. A window has a least width, a
/// frame has not.
fn loaded(browser: &str, folder: &Path, page: &str, width: u32) -> String {
    let file = folder.join(format!("framed{width}.html"));
    let page = page.replace("</body>", &format!("{MEASURE}</body>"));
    let page = page.replace('&', "&amp;").replace('"', "&quot;");
    let frame = format!("<iframe style=\"border: 0; width: {width}px; height: 900px\" srcdoc=\"");
    let places = "<pre id=\"measured\"></pre><div id=\"shown\"></div>";
    let framed =
        format!("<!doctype html><meta charset=\"utf-8\"><body>{places}{frame}{page}\"></iframe>");
    fs::write(&file, framed).expect("the page in its frame");
    let output = Command::new(browser)
        .args([
            "--headless",
            "--no-sandbox",
            "--disable-gpu",
            "--hide-scrollbars",
        ])
        .args([
            "--dump-dom",
            "--virtual-time-budget=3000",
            "--window-size=1400,1000",
        ])
        .arg(format!(
            "--user-data-dir={}",
            folder.join("profile").display()
        ))
        .arg(format!("file://{}", file.display()))
        .output()
        .expect("the browser runs");
    let dom = String::from_utf8_lossy(&output.stdout).into_owned();
    let end = dom.find("<iframe").unwrap_or(dom.len());
    dom[..end].to_owned()
}

/// The measure's line.
fn measured(dom: &str) -> &str {
    let from = dom
        .find("<pre id=\"measured\">")
        .expect("the page was loaded");
    let text = &dom[from + 19..];
    &text[..text.find("</pre>").expect("the line's end")]
}

/// Runs a campaign, and returns its lines and its page.
fn campaign(folder: &Path, options: &str) -> (Vec<Value>, String) {
    let done = Command::new(env!("CARGO_BIN_EXE_bucketbeach"))
        .args(["judge", "--json", "runs.json", "--report", "page.html"])
        .args(options.split_whitespace())
        .current_dir(folder)
        .output()
        .expect("the command runs");
    let said = String::from_utf8_lossy(&done.stderr).into_owned();
    let text = fs::read_to_string(folder.join("runs.json")).expect(&said);
    let line = |line| serde_json::from_str(line).expect("a line is JSON");
    let page = fs::read_to_string(folder.join("page.html")).expect(&said);
    (text.lines().map(line).collect(), page)
}

/// A number with its thousands apart.
fn grouped(number: u64) -> String {
    let digits: Vec<char> = number.to_string().chars().rev().collect();
    let groups: Vec<String> = digits
        .chunks(3)
        .map(|group| group.iter().collect())
        .collect();
    groups.join(",").chars().rev().collect()
}

/// The page shows the numbers of the lines.
fn shows_the_numbers(dom: &str, runs: &[Value]) {
    let sum = |of: &dyn Fn(&Value) -> &Value| runs.iter().filter_map(|run| of(run).as_u64()).sum();
    let failing = runs.iter().filter(|run| run["reported"].as_u64() > Some(0));
    let numbers: [(&str, u64); 7] = [
        ("runs", runs.len() as u64),
        ("failing runs", failing.clone().count() as u64),
        ("violations", sum(&|run| &run["reported"])),
        ("events", sum(&|run| &run["events"])),
        ("syncs", sum(&|run| &run["syncs"])),
        ("messages", sum(&|run| &run["metrics"]["messages"])),
        (
            "acknowledged",
            sum(&|run| &run["metrics"]["client_replies"]),
        ),
    ];
    for (name, number) in numbers {
        let shown = format!("<dd data-number=\"{name}\">{}</dd>", grouped(number));
        assert!(dom.contains(&shown), "{shown}");
    }
    for run in failing {
        let first = &run["violations"][0];
        let text = first["text"].as_str().expect("a text");
        let ms = first["time"].as_u64().expect("a time") / 1_000_000;
        let time = format!("{}.{:03} s", ms / 1_000, ms % 1_000);
        let seed = format!(
            "<td data-name=\"seed\">{}</td><td data-name=\"time\">{time}</td>",
            run["seed"]
        );
        assert!(dom.contains(&seed) && dom.contains(text), "{seed} {text}");
    }
}

/// Nothing is fetched, and nothing can run.
fn stands_alone(page: &str) {
    for part in [
        "<script",
        "http:",
        "https:",
        "src=",
        "@import",
        "<link",
        "javascript:",
    ] {
        assert!(!page.contains(part), "{part}");
    }
}

/// A campaign's page at both widths.
fn looks_right(name: &str, options: &str) {
    let folder = folder(name);
    let (runs, page) = campaign(&folder, options);
    stands_alone(&page);
    shows_the_numbers(&page, &runs);
    let Some(browser) = browser() else {
        return;
    };
    for width in WIDTHS {
        let dom = loaded(browser, &folder, &page, width);
        assert_eq!(measured(&dom), format!("{width} wide; 0 wrong; ;"));
        shows_the_numbers(&dom, &runs);
    }
}

#[test]
fn a_failing_campaign() {
    looks_right("failing", "--node vote-not-saved --seeds 1..24");
}

#[test]
fn a_long_run_with_many_failing_seeds() {
    looks_right("long", "--node applies-early --seeds 1..40 --time 6s");
}

#[test]
fn a_passing_campaign() {
    looks_right("passing", "--seeds 1..5");
}

#[test]
fn eight_servers() {
    looks_right(
        "eight",
        "--node truncates-too-far --servers 8 --clients 8 --seeds 1..12",
    );
}

#[test]
fn a_fault_of_the_node() {
    looks_right("fault", "--message 3 --seeds 1..3");
}

#[test]
fn the_measure_notices() {
    let folder = folder("notices");
    let Some(browser) = browser() else {
        return;
    };
    let page = "<!doctype html><html><body><div style=\"width: 500px\">wide</div></body></html>";
    let dom = loaded(browser, &folder, page, 360);
    assert!(
        measured(&dom).contains("outside the page: DIV"),
        "{}",
        measured(&dom)
    );
}
