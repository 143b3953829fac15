"""Late answers, for a list, a file, a record or a field that has changed meanwhile, and errors whose cause is gone."""

import failures
from announcing import begun
from counts import Counts, sha256
from page import Page

SET = """
window.put = (id, value) => {
  document.getElementById(id).value = value;
  document.getElementById(id).dispatchEvent(new Event("input"));
};
"""
# Records each text that an element shows from here on.
WATCH = """
window.seen = [];
const element = document.getElementById(arguments[0]);
new MutationObserver(() => seen.push(element.textContent)).observe(element, {childList: true});
"""
# Replaces a text by another as soon as it has been sent to the worker, before the answer.
REPLACED = """
const [first, second] = arguments;
const post = Worker.prototype.postMessage;
let posts = 0;
Worker.prototype.postMessage = function (...sent) {
  post.apply(this, sent);
  posts += 1;
  if (posts === 1) queueMicrotask(() => put("list-text", second));
};
put("list-text", first);
"""
# Reads the first file slowly, as from a remote drive, and each later one at once.
SLOW_FILE = """
const read = Blob.prototype.arrayBuffer;
let files = 0;
Blob.prototype.arrayBuffer = function () {
  files += 1;
  const bytes = read.call(this);
  return files > 1 ? bytes : new Promise((done) => setTimeout(() => done(bytes), 800));
};
"""
# Replaces the list that a change has left by a text, before the worker has answered.
REPLACED_TIDIED = """
const [text] = arguments;
const post = Worker.prototype.postMessage;
let before = "";
Worker.prototype.postMessage = function (...sent) {
  post.apply(this, sent);
  if (before === "tidy") queueMicrotask(() => put("list-text", text));
  before = sent[0].task;
};
"""
# Puts a text into a field as soon as the worker was asked for the SHA-256 of an announcement.
REPLACED_FIELD = """
const [field, value] = arguments;
const post = Worker.prototype.postMessage;
Worker.prototype.postMessage = function (...sent) {
  post.apply(this, sent);
  window.isAsked ||= sent[0].task === "digest";
  if (sent[0].task === "digest") queueMicrotask(() => put(field, value));
};
"""
LARGE = "\n".join(str(number) for number in range(10_000)) + "\n"
TIDIED = """
const said = document.getElementById("tidied");
return said.checkVisibility() ? said.textContent : "";
"""
# In milliseconds: longer than the pause after typing and than reading the slow file.
LATEST = 1500


def idle(page: Page) -> None:
    """Waits until the worker has been idle for longer than any of these answers is late."""
    page.browser.run("window.busy = performance.now();")
    page.browser.wait("""if (!document.getElementById("progress").hidden) window.busy = performance.now();
        return performance.now() - window.busy > arguments[0];""", LATEST)


def last_digest(page: Page, wanted: str) -> str:
    """The final digest. On a busy machine the expected one may take a while."""
    for _ in range(20):
        idle(page)
        if page.shown()["digest"] == wanted:
            break
    return str(page.shown()["digest"])


def facts_of_older_lists(counts: Counts, page: Page) -> None:
    """Nothing is shown of a list that is replaced, whatever replaces it."""
    for text in ("Ada\n", "", "a\n\nb\n"):
        page.load()
        page.browser.run(SET)
        page.browser.run(WATCH, "list-digest")
        page.browser.run(REPLACED, LARGE, text)
        wanted = [sha256(text.encode())] if text == "Ada\n" else []
        counts.same(f"the digest with {text!r}", last_digest(page, "".join(wanted)), "".join(wanted))
        counts.same(f"digests until {text!r}", page.browser.run("return seen;"), wanted)


def files_read_late(counts: Counts, page: Page) -> None:
    """A file whose content arrives after another was opened, or after it was closed, is not the list. While a file is
    read, there is no list."""
    page.load()
    page.browser.run(SLOW_FILE)
    page.fill("seed", "all")
    page.paste("typed\n")
    page.facts()
    page.browser.run(WATCH, "list-digest")
    page.open_file(b"slow\n")
    counts.same("a draw while a file is read", page.draw()["drawn"], ["slow"])
    idle(page)
    counts.same("digests until it is read", page.browser.run("return seen;"), [sha256(b"slow\n")])
    page.load()
    page.browser.run(SLOW_FILE)
    page.open_file(b"slow\n")
    page.open_file(b"fast\n")
    counts.same("two files", last_digest(page, sha256(b"fast\n")), sha256(b"fast\n"))
    page.load()
    page.browser.run(SLOW_FILE)
    page.open_file(b"slow\n")
    for name, text in (("a file that was closed", "pasted\n"), ("a text after it", "later\n")):
        page.paste(text)
        wanted = sha256(text.encode())
        counts.same(name, last_digest(page, wanted), wanted)


def checks_of_older_records(counts: Counts, page: Page) -> None:
    """A check's outcome is shown only if the record, the list and the fields are unchanged."""
    page.load()
    page.browser.run(SET)
    page.browser.run('put("list-text", arguments[0]); put("seed", "seed"); put("count", "2");', LARGE)
    record = page.draw()["record"]
    counts.same("a check", page.check(record)["outcome"], "agrees")
    for field, value in (("check-text", "no record"), ("list-text", LARGE + "x\n"), ("seed", "other"), ("count", "3")):
        page.browser.run("""put("check-text", arguments[0]);
            document.getElementById("check").click();
            put(arguments[1], arguments[2]);""", record, field, value)
        page.browser.wait('return !document.getElementById("check").disabled;', seconds=60)
        counts.same(f"a late outcome, {field}", page.shown()["outcome"], "")


def refusals_of_older_fields(counts: Counts, page: Page) -> None:
    """An error about fields that have changed meanwhile is not shown, and does not move the focus."""
    page.load()
    page.browser.run(SET)
    page.browser.run(failures.REFUSED)
    page.browser.run(failures.SET, "check", "no memory", {})
    for button, text, count, field in (("draw", "a\n\n", "all", "seed"), ("draw", "a\n", "x", "seed"),
                                       ("check", "a\n\n", "all", "seed"), ("check", "a\n", "all", "seed"),
                                       ("check", "a\n", "all", "check-text"),
                                       ("check", "a\n", "all", "check-announcement")):
        page.tab(button)
        page.browser.run("""const [button, text, count, field] = arguments;
            put("list-text", text);
            put("count", count);
            document.getElementById(button).click();
            document.getElementById("open-file").focus();
            put(field, "later");""", button, text, count, field)
        idle(page)
        page.tab("draw")
        wanted = {"list": "Line 2 is empty. Each line of the list must have an entrant."} if text == "a\n\n" else {}
        name = f"a {button} of {text!r} and {count}, before another {field}"
        counts.same(name, failures.errors(page), wanted)
        counts.same(f"{name}: the keyboard", page.browser.run("return document.activeElement.id;"), "open-file")


def announcements_of_older_fields(counts: Counts, page: Page) -> None:
    """An announcement whose SHA-256 arrives after a field has changed is not shown, and is not saved."""
    for field, value in (("occasion", "Another one"), ("winners", "2"), ("list-text", "Ada\nBob\nCid\n")):
        begun(page)
        page.browser.run(SET)
        page.browser.run(REPLACED_FIELD, field, value)
        page.browser.run('document.getElementById("save-announcement").click();')
        idle(page)
        found = page.browser.run("return [window.isAsked, document.getElementById('announcement').checkVisibility()];")
        counts.same(f"an announcement before another {field}", found, [True, False])


def lists_changed_while_tidied(counts: Counts, page: Page) -> None:
    """A list that changes while equal lines are removed from it keeps the change."""
    page.load()
    page.browser.run(SET)
    for name, change in (("typed", 'put("list-text", "later\\n");'), ("emptied", 'put("list-text", "");')):
        page.paste(LARGE + LARGE)
        page.facts()
        page.browser.run(f'document.getElementById("tidy-unique").click(); {change}')
        idle(page)
        text = page.browser.run('return document.getElementById("list-text").value;')
        counts.same(f"{name} while it is tidied", text, "later\n" if name == "typed" else "")
        counts.same(f"what is said, {name}", page.browser.run(TIDIED), "")
    page.open_file(12 * LARGE.encode())
    page.facts()
    page.browser.run('document.getElementById("tidy-unique").click();')
    page.open_file(b"another\n")
    counts.same("a file opened while one is tidied", last_digest(page, sha256(b"another\n")), sha256(b"another\n"))
    page.paste("x\n")
    counts.same("a text after it", last_digest(page, sha256(b"x\n")), sha256(b"x\n"))


def lists_changed_after_tidied(counts: Counts, page: Page) -> None:
    """If a list changes after equal lines were removed, the page does not say that they were."""
    for text in ("later\n", "", "a\n\n"):
        page.load()
        page.browser.run(SET)
        page.paste("a\na\n")
        page.facts()
        page.browser.run(REPLACED_TIDIED, text)
        page.browser.run('document.getElementById("tidy-unique").click();')
        idle(page)
        found = page.browser.run('return document.getElementById("list-text").value;')
        counts.same(f"{text!r} after a change", (found, page.browser.run(TIDIED)), (text, ""))


def errors_that_are_over(counts: Counts, page: Page) -> None:
    """An error disappears at the next draw, even if a change of another field has removed its cause."""
    page.load()
    page.paste("a\nb\n")
    page.fill("seed", "3")
    counts.case("too few", "" if page.draw()["count"] else "is not said")
    page.paste("a\nb\nc\n")
    shown = page.draw()
    said = [shown[field] for field in ("page", "list", "seed", "count")]
    counts.same("no error beside a result", (said, len(shown["drawn"])), (["", "", "", ""], 3))
    invalid = "return Array.from(document.querySelectorAll('[aria-invalid]'), (field) => field.id);"
    counts.same("no field is invalid", page.browser.run(invalid), [])
    for field, bad in (("list-text", "a\n\n"), ("list-text", ""), ("seed", ""), ("count", "x"), ("count", "")):
        good = page.browser.run("return document.getElementById(arguments[0]).value;", field)
        page.browser.run(SET)
        page.browser.run("put(arguments[0], arguments[1]);", field, bad)
        page.draw()
        counts.same(f"{field}: invalid", page.browser.run(invalid), [field])
        page.browser.run("put(arguments[0], arguments[1]);", field, good)
        idle(page)
        counts.same(f"{field}: valid again", page.browser.run(invalid), [])
        counts.same(f"{field}: a result", len(page.draw()["drawn"]), 3)
    page.paste("a\n\n")
    page.facts()
    page.paste("a\nb\nc\n")
    counts.same("a draw at once after a list that was refused", len(page.draw()["drawn"]), 3)


def run(counts: Counts, page: Page) -> None:
    facts_of_older_lists(counts, page)
    files_read_late(counts, page)
    checks_of_older_records(counts, page)
    refusals_of_older_fields(counts, page)
    announcements_of_older_fields(counts, page)
    lists_changed_while_tidied(counts, page)
    lists_changed_after_tidied(counts, page)
    errors_that_are_over(counts, page)
