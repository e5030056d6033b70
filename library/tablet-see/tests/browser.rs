//! The page in a real browser, headless Chromium, driven by keys and by the mouse. Run by tools/test-page.

use std::fs::{self, File, OpenOptions};
use std::io::{BufRead, BufReader, Write};
use std::path::{Path, PathBuf};
use std::process::{Child, Command, Stdio};
use tablet_see::run::run;

/// A browser with one page, spoken to through two pipes: messages in JSON, a zero byte after each.
struct Browser {
    child: Child,
    to: File,
    from: BufReader<File>,
    session: String,
    messages: u32,
}

impl Drop for Browser {
    fn drop(&mut self) {
        let _ = self.child.kill();
        let _ = self.child.wait();
    }
}

/// The text after `"name":"` up to the next quote.
fn field<'a>(message: &'a str, name: &str) -> Option<&'a str> {
    let (_, rest) = message.split_once(&format!("\"{name}\":\""))?;
    rest.split('"').next()
}

impl Browser {
    fn open(at: &Path, page: &Path) -> Browser {
        let pipes = ["to", "from"].map(|name| at.join(name));
        for pipe in &pipes {
            let _ = fs::remove_file(pipe);
            let made = Command::new("mkfifo").arg(pipe).status();
            assert!(made.expect("mkfifo starts").success());
        }
        let options = "--headless --no-sandbox --disable-gpu --remote-debugging-pipe";
        let child = Command::new("sh")
            .arg("-c")
            .arg(format!(
                "exec chromium {options} --user-data-dir=profile 3<to 4>from"
            ))
            .current_dir(at)
            .stdout(Stdio::null())
            .stderr(Stdio::null())
            .spawn()
            .expect("sh starts");
        let to = OpenOptions::new().write(true).open(&pipes[0]);
        let from = File::open(&pipes[1]).expect("a pipe from the browser");
        let mut browser = Browser {
            child,
            to: to.expect("a pipe to the browser"),
            from: BufReader::new(from),
            session: String::new(),
            messages: 0,
        };
        let url = format!("file://{}", page.display());
        let target = browser.send("Target.createTarget", &format!("{{\"url\":\"{url}\"}}"));
        let target = field(&target, "targetId").expect("a page").to_string();
        let params = format!("{{\"targetId\":\"{target}\",\"flatten\":true}}");
        let session = browser.send("Target.attachToTarget", &params);
        browser.session = field(&session, "sessionId").expect("a session").to_string();
        browser.send("Runtime.enable", "{}");
        browser
    }

    /// Sends one command and gives its answer. An error in the page's script fails the test.
    fn send(&mut self, method: &str, params: &str) -> String {
        self.messages += 1;
        let session = match self.session.as_str() {
            "" => String::new(),
            id => format!("\"sessionId\":\"{id}\","),
        };
        let id = self.messages;
        let message =
            format!("{{{session}\"id\":{id},\"method\":\"{method}\",\"params\":{params}}}\0");
        self.to
            .write_all(message.as_bytes())
            .expect("the browser listens");
        loop {
            let mut bytes = Vec::new();
            let read = self
                .from
                .read_until(0, &mut bytes)
                .expect("the browser answers");
            assert!(read > 0, "the browser ended");
            let answer = String::from_utf8_lossy(&bytes).into_owned();
            assert!(!answer.contains("Runtime.exceptionThrown"), "{answer}");
            if answer.starts_with(&format!("{{\"id\":{id},")) {
                assert!(!answer.contains("\"error\":"), "{method}: {answer}");
                return answer;
            }
        }
    }

    /// What an expression of the page is, as text.
    fn ask(&mut self, expression: &str) -> String {
        let expression = format!("String({expression})")
            .replace('\\', "\\\\")
            .replace('"', "\\\"");
        let params = format!("{{\"expression\":\"{expression}\",\"returnByValue\":true}}");
        let answer = self.send("Runtime.evaluate", &params);
        let value = field(&answer, "value");
        value
            .unwrap_or_else(|| panic!("{expression}: {answer}"))
            .to_string()
    }

    fn key(&mut self, key: &str, code: u32) {
        for kind in ["rawKeyDown", "keyUp"] {
            let params = format!(
                "{{\"type\":\"{kind}\",\"key\":\"{key}\",\"code\":\"{key}\",\"windowsVirtualKeyCode\":{code}}}"
            );
            self.send("Input.dispatchKeyEvent", &params);
        }
    }

    fn click(&mut self, selector: &str) {
        let at = format!("(() => {{ const e = document.querySelector('{selector}'); e.scrollIntoView({{block: 'center'}}); const r = e.getBoundingClientRect(); return Math.round(r.x + r.width / 2) + ' ' + Math.round(r.y + r.height / 2); }})()");
        let at = self.ask(&at);
        let (x, y) = at.split_once(' ').expect("two numbers");
        for kind in ["mousePressed", "mouseReleased"] {
            let params = format!(
                "{{\"type\":\"{kind}\",\"x\":{x},\"y\":{y},\"button\":\"left\",\"clickCount\":1}}"
            );
            self.send("Input.dispatchMouseEvent", &params);
        }
    }

    fn count(&mut self) -> String {
        self.ask("document.getElementById('count').textContent")
    }

    /// The class of the field of process 2 for the operation that process 1 lends.
    fn field(&mut self) -> String {
        self.ask("document.querySelector('.field[data-process=\"2\"][data-privilege=\"operation 5 of 2\"]').className")
    }

    fn size(&mut self, width: u32, height: u32) {
        let params = format!(
            "{{\"width\":{width},\"height\":{height},\"deviceScaleFactor\":1,\"mobile\":false}}"
        );
        self.send("Emulation.setDeviceMetricsOverride", &params);
        let over = self.ask("document.documentElement.scrollWidth - window.innerWidth");
        assert!(
            over.parse::<i32>().is_ok_and(|over| over <= 0),
            "{width} wide: {over} too wide"
        );
    }

    fn picture(&mut self, to: &Path) {
        let shot = self.send("Page.captureScreenshot", "{\"captureBeyondViewport\":true}");
        let data = field(&shot, "data").expect("a picture");
        fs::write(to, base64(data)).expect("the picture is kept");
    }
}

fn base64(text: &str) -> Vec<u8> {
    let letters = b"ABCDEFGHIJKLMNOPQRSTUVWXYZabcdefghijklmnopqrstuvwxyz0123456789+/";
    let values = text
        .bytes()
        .filter_map(|b| letters.iter().position(|l| *l == b));
    let (mut bytes, mut bits, mut length) = (Vec::new(), 0usize, 0);
    for value in values {
        bits = bits << 6 | value;
        length += 6;
        if length >= 8 {
            length -= 8;
            bytes.push((bits >> length) as u8);
            bits &= (1 << length) - 1;
        }
    }
    bytes
}

/// The least contrast of a text with what is behind it (WCAG), over the whole page but the drawing.
const CONTRAST: &str = "(() => { const light = (c) => { const [r, g, b] = c.match(/[0-9.]+/g).slice(0, 3).map(Number).map((v) => v / 255).map((v) => v <= 0.03928 ? v / 12.92 : ((v + 0.055) / 1.055) ** 2.4); return 0.2126 * r + 0.7152 * g + 0.0722 * b; }; const behind = (e) => { for (; e; e = e.parentElement) { const c = getComputedStyle(e).backgroundColor; if (c !== 'rgba(0, 0, 0, 0)') return c; } return 'rgb(255, 255, 255)'; }; let least = 21; for (const e of document.querySelectorAll('body *')) { if (e.closest('svg, script') || ![...e.childNodes].some((n) => n.nodeType === 3 && n.data.trim())) continue; const [a, b] = [light(getComputedStyle(e).color), light(behind(e))]; least = Math.min(least, (Math.max(a, b) + 0.05) / (Math.min(a, b) + 0.05)); } return least; })()";

fn folder() -> PathBuf {
    let at = Path::new(env!("CARGO_MANIFEST_DIR")).join("../../target/page");
    fs::create_dir_all(&at).expect("a folder");
    at.canonicalize().expect("a folder")
}

#[test]
#[ignore = "wants chromium: tools/test-page"]
fn the_page_steps_by_keys_and_mouse() {
    let at = folder();
    let page = at.join("page.html");
    let session = include_bytes!("../../../examples/session.in");
    let mut html = Vec::new();
    run(&["page".to_string()], &mut &session[..], &mut html).expect("a page");
    fs::write(&page, html).expect("the page is kept");
    let mut b = Browser::open(&at, &page);
    b.size(1280, 1400);
    while b.ask("document.readyState") != "complete" {}
    assert_eq!(b.count(), "0 of 7");
    assert_eq!(b.ask("document.querySelectorAll('#lines li').length"), "8");
    b.key("ArrowRight", 39);
    assert_eq!(b.count(), "1 of 7");
    assert!(b
        .ask("document.getElementById('told').textContent")
        .contains("Row 4 in the c-list of process 1"));
    b.key("ArrowLeft", 37);
    assert_eq!(b.count(), "0 of 7");
    b.key("ArrowLeft", 37);
    assert_eq!(b.count(), "0 of 7");
    b.click("#forward");
    b.click("#forward");
    b.click("#back");
    assert_eq!(b.count(), "1 of 7");
    b.click("#lines li:nth-child(6) button");
    assert_eq!(b.count(), "5 of 7");
    assert_eq!(b.field(), "field held");
    assert_eq!(
        b.ask("document.querySelectorAll('#drawing .card').length"),
        "10"
    );
    b.picture(&at.join("before-the-revoke.png"));
    b.key("ArrowRight", 39);
    assert_eq!(b.field(), "field off");
    assert_eq!(
        b.ask("document.querySelectorAll('#drawing .card').length"),
        "6"
    );
    assert!(b
        .ask("document.getElementById('state').textContent")
        .contains("c-list of 2"));
    b.picture(&at.join("after-the-revoke.png"));
    b.key("ArrowLeft", 37);
    assert_eq!(b.field(), "field held");
    b.key("End", 35);
    assert_eq!(b.count(), "7 of 7");
    assert!(b
        .ask("document.getElementById('told').textContent")
        .contains("rule ask-7a"));
    let least: f64 = b.ask(CONTRAST).parse().expect("a number");
    assert!(least >= 4.5, "contrast {least}");
    b.key("Home", 36);
    b.size(820, 1180);
    b.click("#lines li:nth-child(6) button");
    assert_eq!(b.count(), "5 of 7");
    b.picture(&at.join("on-a-tablet.png"));
    let least: f64 = b.ask(CONTRAST).parse().expect("a number");
    assert!(least >= 4.5, "contrast {least}");
}
