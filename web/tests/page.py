"""The web page as its user sees it: fields, buttons, texts, questions.

What a user does and then sees is one script each: a command of a driver takes longer than what it asks for.
"""

import random
from contextlib import contextmanager
from pathlib import Path
from typing import Any, Dict, Iterable, Iterator, List, Optional, TypeVar

from drivers import Browser

Case = TypeVar("Case")

PARTS = """
const part = (id) => document.getElementById(id);
// Resolves once something holds, which changes with an attribute of an element or of what is in it. Tests may replace
// the page's timers.
const until = (holds, element) => new Promise((done) => {
  const watcher = new MutationObserver(() => look());
  const look = () => {
    if (!holds()) return;
    watcher.disconnect();
    done();
  };
  watcher.observe(element, { attributes: true, subtree: true });
  look();
});
// Presses a button of a tab, and waits until it can be pressed again.
const press = (name) => {
  const button = part(name);
  part(`tab-${name}`).click();
  button.click();
  return until(() => !button.disabled, button);
};
// Sets a text as an input method does that composes characters and sends no event at the end.
const set = (id, text) => {
  part(id).value = text;
  part(id).dispatchEvent(new InputEvent("input", { isComposing: true }));
};
// Answers each question about the list by keeping the list as it is, which is the last answer.
const keep = () => {
  for (const question of document.querySelectorAll(".question[role=group]")) {
    Array.from(question.querySelectorAll("button")).pop().click();
  }
};
"""

TEXTS = PARTS + r"""
const shown = (id) => {
  const element = part(id);
  if (!element || !element.checkVisibility()) return "";
  return id === "record" ? element.textContent : element.value ?? element.innerText;
};
// The sentence of a warning or a finding, without the lines that it shows and without its button.
const items = (id) => shown(id) === "" ? [] : Array.from(part(id).children, (item) => item.firstChild.data);
// An entrant drawn, as a record has it.
const escaped = (letter) => Array.from(new TextEncoder().encode(letter),
  (byte) => `\\x${byte.toString(16).padStart(2, "0")}`).join("");
const entrant = (item) => item.className === "bytes" ? item.innerText :
  Array.from(item.childNodes, (node) => node.nodeType === Node.TEXT_NODE ? node.data.replace(/\\/g, "\\\\") :
    escaped(String.fromCodePoint(Number.parseInt(node.textContent.slice(2), 16)))).join("");
const drawn = () => shown("drawn") === "" ? [] : Array.from(part("drawn").children, entrant);
const texts = () => ({
  page: shown("page-error"), list: shown("list-error"), seed: shown("seed-error"),
  count: shown("count-error"), question: shown("question-error"),
  entrants: shown("entrants"), digest: shown("list-digest"),
  warnings: items("list-warnings"), title: shown("result-title"), drawn: drawn(),
  more: shown("more"), escapes: shown("escapes"), record: shown("record"), read: shown("seed-read"),
  outcome: shown("outcome") && part("outcome").dataset.outcome,
  stale: shown("stale"), outcomeTitle: shown("outcome-title"), findings: items("findings"),
  warned: items("check-warnings"), hint: shown("publish-hint"),
});
"""

PASTE = PARTS + """
if (!part("opened").hidden) part("close-file").click();
set("list-text", arguments[0]);
"""

FACTS = TEXTS + """
const [keeps] = arguments;
const isKnown = () => ["list-facts", "list-error", "page-error"].some((id) => !part(id).hidden);
return until(isKnown, document.body).then(() => {
  if (keeps) keep();
  return texts();
});
"""

DRAW = TEXTS + """
const [keeps] = arguments;
return press("draw").then(() => {
  if (!keeps || part("question-error").hidden) return;
  keep();
  return press("draw");
}).then(texts);
"""

CHECK = TEXTS + """
const [record] = arguments;
part("tab-check").click();
if (record !== null) set("check-text", record);
return press("check").then(texts);
"""


class Page:
    """A page in a browser, which is the one of this number, from 0, among so many browsers."""

    def __init__(self, browser: Browser, address: str, folder: Path, number: int = 0, browsers: int = 1) -> None:
        self.browser = browser
        self.address = address
        self.folder = folder
        self.number = number
        self.browsers = browsers
        self.files = 0

    def share(self, cases: Iterable[Case]) -> List[Case]:
        """Its share of many cases of one kind, always the same one: the other browsers run the others."""
        all_cases = list(cases)
        order = random.Random(1).sample(range(len(all_cases)), len(all_cases))
        return [all_cases[place] for place in sorted(order[self.number::self.browsers])]

    def load(self) -> None:
        self.browser.open(self.address)
        self.browser.wait("""return !document.getElementById("draw").disabled ||
            !document.getElementById("page-error").hidden;""")

    @contextmanager
    def unpainted(self) -> Iterator[None]:
        """For tests that do not look at the window, and do not press keys. They then take half the time."""
        self.browser.paint(False)
        try:
            yield
        finally:
            self.browser.paint(True)

    def shown(self) -> Dict[str, Any]:
        """All texts of the page. Hidden parts are empty texts."""
        return self.browser.run(TEXTS + "return texts();")

    def paste(self, text: str) -> None:
        """Pastes a list, in place of a file that is open."""
        self.browser.run(PASTE, text)

    def open_file(self, data: bytes) -> None:
        self.files += 1
        path = self.folder / f"list{self.files}"
        path.write_bytes(data)
        self.browser.type("#list-file", str(path))

    def put(self, **fields: str) -> None:
        """Sets the texts of fields. An underscore in a name stands for a hyphen."""
        texts = [[name.replace("_", "-"), text] for name, text in fields.items()]
        self.browser.run(PARTS + "for (const [id, text] of arguments[0]) set(id, text);", texts)

    def fill(self, seed: Optional[str] = None, count: Optional[str] = None) -> None:
        given = {"seed": seed, "count": count}
        self.put(**{name: text for name, text in given.items() if text is not None})

    def keep(self) -> None:
        """Keeps the list as it is, whatever the page asks about it."""
        self.browser.run(PARTS + "keep();")

    def facts(self, keep: bool = True) -> Dict[str, Any]:
        """What the page says after it has checked the list. Its questions are answered, unless `keep` is false."""
        return self.browser.run(FACTS, keep)

    def tab(self, name: str) -> None:
        """Shows the tab for a draw or for a check."""
        self.browser.run("document.getElementById(arguments[0]).click();", f"tab-{name}")

    def draw(self, keep: bool = True) -> Dict[str, Any]:
        """Draws. If the page asks about the list, it answers and draws again, unless `keep` is false."""
        return self.browser.run(DRAW, keep)

    def check(self, record: str) -> Dict[str, Any]:
        return self.browser.run(CHECK, record)

    def check_again(self) -> Dict[str, Any]:
        """Checks what is in the field, without changing it."""
        return self.browser.run(CHECK, None)
