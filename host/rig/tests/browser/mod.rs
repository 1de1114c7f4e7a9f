//! Chromium without a window, driven over the pipe of its DevTools protocol: a message is a line of JSON that ends in a
//! zero byte. Replies are read as text, since scripts return theirs without letters that JSON escapes.

use std::io::{BufRead, BufReader, Write};
use std::path::Path;
use std::process::{Child, ChildStdin, ChildStdout, Command, Stdio};
use std::sync::{LazyLock, Mutex, MutexGuard, PoisonError};
use std::thread::sleep;
use std::time::Duration;

/// Chromium reads messages from descriptor 3 and writes to 4. `timeout` ends one that hangs. The sandbox is of no use to a
/// page of our own, and root has none.
const LAUNCH: &str = "exec 3<&0 4>&1 </dev/null >/dev/null 2>&1; exec timeout 300 chromium --headless --no-sandbox \
     --disable-background-networking --disable-gpu --disable-dev-shm-usage --no-first-run --window-size=1400,900 \
     --user-data-dir=\"$0\" --remote-debugging-pipe about:blank";

/// What the tests ask of a page.
const PROBES: &str = include_str!("probes.js");

/// The browser of all tests, for one of them at a time. It ends when the pipe does, with this program.
static BROWSER: LazyLock<Mutex<Browser>> = LazyLock::new(|| Mutex::new(Browser::new()));

/// The browser, for as long as a test holds it.
pub fn browser() -> MutexGuard<'static, Browser> {
    BROWSER.lock().unwrap_or_else(PoisonError::into_inner)
}

pub struct Browser {
    child: Child,
    to: ChildStdin,
    from: BufReader<ChildStdout>,
    session: String,
    calls: u32,
}

impl Browser {
    /// A browser with an empty page and a profile of its own.
    fn new() -> Browser {
        let profile = Path::new(env!("CARGO_TARGET_TMPDIR")).join("chromium");
        let _ = std::fs::remove_dir_all(&profile);
        let mut command = Command::new("sh");
        command.arg("-c").arg(LAUNCH).arg(&profile).stdin(Stdio::piped()).stdout(Stdio::piped());
        let mut child = command.spawn().unwrap();
        let (to, from) = (child.stdin.take().unwrap(), BufReader::new(child.stdout.take().unwrap()));
        let mut browser = Browser { child, to, from, session: String::new(), calls: 0 };
        let target = browser.call("Target.createTarget", r#"{"url":"about:blank"}"#);
        let attach = format!(r#"{{"targetId":"{}","flatten":true}}"#, field(&target, "targetId"));
        let attached = browser.call("Target.attachToTarget", &attach);
        browser.session = format!(r#","sessionId":"{}""#, field(&attached, "sessionId"));
        browser.call("Page.enable", "{}");
        browser.call("Performance.enable", r#"{"timeDomain":"threadTicks"}"#);
        browser.call("Page.addScriptToEvaluateOnNewDocument", &format!(r#"{{"source":{}}}"#, quoted(PROBES)));
        browser
    }

    /// Opens a file and waits until it is drawn.
    pub fn open(&mut self, file: &Path) {
        self.call("Page.navigate", &format!(r#"{{"url":{}}}"#, quoted(&format!("file://{}", file.display()))));
        while self.value("String(window.drawn)") != "true" {
            sleep(Duration::from_millis(5));
        }
    }

    /// What a script gives on a file as it is printed, on paper of so many pixels from left to right.
    pub fn value_on_paper(&mut self, file: &Path, width: u32, script: &str) -> String {
        self.call("Emulation.setEmulatedMedia", r#"{"media":"print"}"#);
        let size = format!(r#"{{"width":{width},"height":700,"deviceScaleFactor":1,"mobile":false}}"#);
        self.call("Emulation.setDeviceMetricsOverride", &size);
        self.open(file);
        let value = self.value(script);
        self.call("Emulation.clearDeviceMetricsOverride", "{}");
        self.call("Emulation.setEmulatedMedia", r#"{"media":""}"#);
        value
    }

    /// How long the processor has worked at the tasks of the page that was opened last: at its script, layout and painting.
    pub fn worked(&mut self) -> Duration {
        let metrics = self.call("Performance.getMetrics", "{}");
        let (_, behind) =
            metrics.split_once(r#""name":"TaskDuration","value":"#).unwrap_or_else(|| panic!("{metrics}"));
        let seconds = behind.split_once('}').and_then(|(seconds, _)| seconds.parse().ok());
        Duration::from_secs_f64(seconds.unwrap_or_else(|| panic!("{metrics}")))
    }

    /// The text that a script gives.
    pub fn value(&mut self, script: &str) -> String {
        let source = format!("encodeURIComponent({script})");
        let reply = self.call("Runtime.evaluate", &format!(r#"{{"expression":{}}}"#, quoted(&source)));
        assert!(!reply.contains("exceptionDetails"), "{script}\n{reply}");
        decoded(field(&reply, "value"))
    }

    /// Presses and releases a key of this name and number.
    pub fn press(&mut self, key: &str, number: u32) {
        for kind in ["rawKeyDown", "keyUp"] {
            let params =
                format!(r#"{{"type":"{kind}","key":"{key}","code":"{key}","windowsVirtualKeyCode":{number}}}"#);
            self.call("Input.dispatchKeyEvent", &params);
        }
    }

    /// Moves the mouse; with a button, clicks there too.
    pub fn mouse(&mut self, x: f64, y: f64, click: bool) {
        let kinds: &[&str] = if click { &["mouseMoved", "mousePressed", "mouseReleased"] } else { &["mouseMoved"] };
        for kind in kinds {
            let button = if *kind == "mouseMoved" { "" } else { r#","button":"left","clickCount":1"# };
            self.call("Input.dispatchMouseEvent", &format!(r#"{{"type":"{kind}","x":{x},"y":{y}{button}}}"#));
        }
    }

    /// The reply to a call, as JSON.
    fn call(&mut self, method: &str, params: &str) -> String {
        self.calls += 1;
        let message = format!(r#"{{"id":{},"method":"{method}","params":{params}{}}}"#, self.calls, self.session);
        // Where there is no chromium to write to, there is nothing to read either.
        let _ = self.to.write_all(format!("{message}\0").as_bytes());
        let start = format!(r#"{{"id":{},"#, self.calls);
        loop {
            let mut message = Vec::new();
            self.from.read_until(0, &mut message).unwrap();
            let message = String::from_utf8(message).unwrap();
            if message.is_empty() {
                panic!("chromium, of Debian's package of that name, ended at {method}: {:?}", self.child.wait());
            }
            if message.starts_with(&start) {
                assert!(!message.contains(r#""error":{"#), "{method}: {message}");
                return message;
            }
        }
    }
}

/// The text of a field of this name; it has no escapes.
fn field<'a>(json: &'a str, name: &str) -> &'a str {
    let start = format!(r#""{name}":""#);
    let (_, behind) = json.split_once(&start).unwrap_or_else(|| panic!("no {name} in {json}"));
    behind.split_once('"').unwrap().0
}

/// A text as JSON has it.
fn quoted(text: &str) -> String {
    kalebasin_rig::json::Json::Text(text.into()).to_string()
}

/// What `encodeURIComponent` was given.
fn decoded(text: &str) -> String {
    let mut bytes = Vec::new();
    let mut rest = text.as_bytes();
    while let Some((first, behind)) = rest.split_first() {
        if *first == b'%' {
            bytes.push(u8::from_str_radix(std::str::from_utf8(&behind[..2]).unwrap(), 16).unwrap());
            rest = &behind[2..];
        } else {
            bytes.push(*first);
            rest = behind;
        }
    }
    String::from_utf8(bytes).unwrap()
}
