"""What goes wrong around the page: a module that fails, too little memory, a worker that is lost, files that cannot be
read, and dropped items that are not files."""

from itertools import cycle
from pathlib import Path
from typing import Any, Callable, Dict, Iterator, List, Optional, Tuple
from urllib.parse import urlparse
from urllib.request import url2pathname

from counts import Counts, sha256
from page import Page

LIST = "Ada\nBarbara\nChidi\n"
# Answers a task in place of the worker, if `refused` or `answered` has an answer for it.
REFUSED = """
window.refused = {};
window.answered = {};
window.lost = null;
const post = Worker.prototype.postMessage;
Worker.prototype.postMessage = function (message) {
  const { number, task } = message;
  const [refusal, answer] = [window.refused[task], window.answered[task]];
  window.lost ??= () => this.onerror({ message: "it stopped" });
  if (refusal || answer) queueMicrotask(() => this.onmessage({ data: { number, refusal, answer } }));
  else post.call(this, message);
};
"""
SET = "window.refused = { [arguments[0]]: { reason: arguments[1], values: arguments[2] } };"
ANSWER = "window.refused = {}; window.answered = { [arguments[0]]: arguments[1] };"
FIELDS = ("page", "list", "seed", "count")
FAILED = "The page failed, and nothing is drawn: it stopped. Reload the page, and try again."
# Errors that no input leads to, or that other tests lead to as well: the place where each is shown, and its text.
REFUSALS: "Dict[str, Tuple[Dict[str, Any], str, str]]" = {
    "no memory": ({}, "page", "The browser does not have enough memory for a list of this size."),
    "the module failed": ({"reason": "it stopped"}, "page", FAILED),
    "words were rejected": (
        {}, "page",
        "128 words in a row were rejected. Nothing is drawn: another seed is needed. This has never been observed."),
    "line is empty": ({"line": "7"}, "list", "Line 7 is empty. Each line of the list must have an entrant."),
    "too few entrants": ({"entrants": 5, "count": "9"}, "count", "Cannot draw 9: the list has only 5 entrants."),
    "seed is empty": ({}, "seed", "The seed is empty. Type at least one character."),
}
# Runs before the worker's code. The first answer to each task but the start cannot be copied to the page.
UNCOPIED = """
{
  const tasks = new Map();
  const failed = new Set(["start"]);
  const post = self.postMessage.bind(self);
  self.addEventListener("message", ({ data }) => tasks.set(data.number, data.task));
  self.postMessage = (message) => {
    const task = tasks.get(message.number);
    if (message.answer && !failed.has(task)) {
      failed.add(task);
      throw new DOMException("no room", "DataCloneError");
    }
    post(message);
  };
}
"""
DROP_TEXT = """
const data = new DataTransfer();
data.setData("text/plain", "dropped");
return ["dragover", "drop"].map((kind) => {
  const event = new DragEvent(kind, { dataTransfer: data, bubbles: true, cancelable: true });
  document.getElementById(arguments[0]).dispatchEvent(event);
  return event.defaultPrevented;
});
"""


def errors(page: Page) -> Dict[str, str]:
    shown = page.shown()
    return {field: shown[field] for field in FIELDS if shown[field]}


def filled(page: Page) -> None:
    page.paste(LIST)
    page.fill("seed", "all")


def draws_again(counts: Counts, page: Page, name: str) -> None:
    """Once the cause is gone, so is the error."""
    page.browser.run("window.refused = {};")
    page.paste(LIST + "Dmitri\n")
    page.facts()
    shown = page.draw()
    counts.same(f"{name}: later", (len(shown["drawn"]), errors(page)), (4, {}))


def draws(counts: Counts, page: Page) -> None:
    for reason, (values, field, words) in page.share(REFUSALS.items()):
        page.load()
        page.browser.run(REFUSED)
        filled(page)
        counts.same(f"{reason}: before", len(page.draw()["drawn"]), 3)
        page.browser.run(SET, "draw", reason, values)
        shown = page.draw()
        counts.same(f"a draw, {reason}", (errors(page), shown["record"], shown["title"]), ({field: words}, "", ""))
        page.browser.run("window.refused = {};")
        # The error of a list stays until the list changes.
        left = {field: words} if field == "list" else {}
        counts.same(f"a draw, {reason}: again", (len(page.draw()["drawn"]), errors(page)), (3, left))
        draws_again(counts, page, f"a draw, {reason}")


def checks(counts: Counts, page: Page) -> None:
    for reason, (values, field, words) in page.share(REFUSALS.items()):
        page.load()
        page.browser.run(REFUSED)
        filled(page)
        record = page.draw()["record"]
        counts.same(f"{reason}: before", page.check(record)["outcome"], "agrees")
        page.browser.run(SET, "check", reason, values)
        counts.same(f"a check, {reason}", page.check_again()["outcome"], "")
        page.tab("draw")
        counts.same(f"a check, {reason}: what is said", errors(page), {field: words})
        page.browser.run("window.refused = {};")
        counts.same(f"a check, {reason}: again", page.check(record)["outcome"], "agrees")


def failing(task: str) -> "Dict[str, Tuple[List[Any], str]]":
    """Each error of the page as the answer to a task, and its text."""
    return {reason: ([SET, task, reason, values], words)
            for reason, (values, field, words) in REFUSALS.items() if field == "page"}


def outcome_of(name: str) -> Dict[str, Any]:
    """An answer to a check. Some have findings."""
    findings = {"agrees": [], "no list": [], "no record": ["one"]}.get(name, ["one", "two"])
    reading = {"lines": [1, 9], "announcement": "none", "seed": ["a seed"], "list": "a sum", "entrants": 9,
               "drawn": len(findings), "winners": None,
               "named": [{"isText": True, "parts": [finding]} for finding in findings]}
    return {"outcome": name, "title": f"what {name} says", "findings": [{"text": finding} for finding in findings],
            "reading": None if name == "no record" else reading}


def said_of(outcome: Dict[str, Any]) -> Tuple[Any, ...]:
    """What the page shows of an answer to a check."""
    reading = outcome["reading"]
    read = [f"{reading['drawn']} of 9", [named["parts"][0] for named in reading["named"]]] if reading else ["", []]
    return ("", outcome["outcome"], outcome["title"], [finding["text"] for finding in outcome["findings"]], *read)


def drawing(names: List[str], drawn: int, winners: Optional[int] = None) -> Dict[str, Any]:
    """An answer to a draw that names these entrants, which was announced if it has a number of winners."""
    named = [{"isText": True, "parts": [name]} for name in names]
    return {"list": "a sum", "entrants": 9, "drawn": drawn, "winners": winners, "named": named,
            "hasEscapes": len(names) > 1, "record": f"the {drawn} drawn", "result": [10]}


def each_pair(names: List[str]) -> Iterator[str]:
    """The names in an order in which each follows each other one, and itself."""
    for place, name in enumerate(names):
        yield from (name, name)
        for other in names[place + 1:]:
            yield from (other, name)


def one_after_another(counts: Counts, page: Page, task: str, kinds: "Dict[str, Tuple[List[Any], Tuple[Any, ...]]]",
                      ask: "Callable[[], Tuple[Any, ...]]") -> None:
    """Each answer is shown alone, whatever answer came before with the same fields. Each browser goes a part of the
    way."""
    page.load()
    page.browser.run(REFUSED)
    filled(page)
    page.facts()
    page.check("no record")
    before = "nothing"
    way = list(each_pair(list(kinds)))
    first, end = (len(way) * number // page.browsers for number in (page.number, page.number + 1))
    for name in way[max(0, first - 1):end]:
        setting, wanted = kinds[name]
        page.browser.run(*setting)
        counts.same(f"a {task}, {name} after {before}", ask(), wanted)
        before = name


def outcome_shown(page: Page) -> Tuple[Any, ...]:
    """What repeating the same check shows."""
    found = page.check_again()
    read = page.browser.run("""
        const shown = (id) => document.getElementById(id).checkVisibility();
        return [shown("reading-count") ? document.getElementById("reading-count").innerText : "",
          shown("reading-drawn") ?
            Array.from(document.querySelectorAll("#reading-drawn li"), (item) => item.innerText) : []];""")
    return found["page"], found["outcome"], found["outcomeTitle"], found["findings"], *read


def checks_after_checks(counts: Counts, page: Page) -> None:
    answers = [outcome_of(name) for name in ("agrees", "other module", "differs", "no record", "no list")]
    kinds = {answer["outcome"]: ([ANSWER, "check", answer], said_of(answer)) for answer in answers}
    kinds.update({reason: (setting, (words, "", "", [], "", []))
                  for reason, (setting, words) in failing("check").items()})
    one_after_another(counts, page, "check", kinds, lambda: outcome_shown(page))


def draws_after_draws(counts: Counts, page: Page) -> None:
    def ask() -> Tuple[Any, ...]:
        found = page.draw()
        others = page.browser.run("""return ["reserves-title", "reserves-drawn", "unannounced"].filter((id) =>
            document.getElementById(id).checkVisibility());""")
        return (found["page"], found["title"], found["drawn"], found["record"], found["more"] != "",
                found["escapes"] != "", found["hint"] != "", others)

    plain = ["unannounced"]
    kinds = {
        "nobody": ([ANSWER, "draw", drawing([], 0)],
                   ("", "Nobody was drawn.", [], "the 0 drawn", False, False, False, plain)),
        "one": ([ANSWER, "draw", drawing(["Ada"], 1)],
                ("", "1 of 9 drawn, in this order:", ["Ada"], "the 1 drawn", False, False, False, plain)),
        "many": ([ANSWER, "draw", drawing(["Bob", "Cid"], 5)],
                 ("", "5 of 9 drawn, in this order:", ["Bob", "Cid"], "the 5 drawn", True, True, False, plain)),
        "a winner": ([ANSWER, "draw", drawing(["Dora"], 1, 1)],
                     ("", "The winner:", ["Dora"], "the 1 drawn", False, False, False, [])),
        "a reserve": ([ANSWER, "draw", drawing(["Eve", "Fay"], 2, 1)],
                      ("", "The winner:", ["Eve"], "the 2 drawn", False, True, False,
                       ["reserves-title", "reserves-drawn"])),
    }
    kinds.update({reason: (setting, (words, "", [], "", False, False, True, []))
                  for reason, (setting, words) in failing("draw").items()})
    one_after_another(counts, page, "draw", kinds, ask)


def lists_after_lists(counts: Counts, page: Page) -> None:
    texts = cycle((LIST, LIST + LIST))

    def ask() -> Tuple[Any, ...]:
        page.paste(next(texts))
        found = page.facts()
        return found["page"], found["list"], found["entrants"], found["digest"], found["warnings"]

    none: Dict[str, Any] = {"preview": [], "questions": []}
    plain: Dict[str, Any] = {"entrants": 1, "digest": "d1", "warnings": [], **none}
    warned: Dict[str, Any] = {"entrants": 5, "digest": "d5", "warnings": [{"text": "one"}, {"text": "two"}], **none}
    values, _, words = REFUSALS["line is empty"]
    kinds = {
        "plain": ([ANSWER, "list", plain], ("", "", "1 entrant", "d1", [])),
        "warned": ([ANSWER, "list", warned], ("", "", "5 entrants", "d5", ["one", "two"])),
        "line is empty": ([SET, "list", "line is empty", values], ("", words, "", "", [])),
    }
    kinds.update({reason: (setting, (words, "", "", "", [])) for reason, (setting, words) in failing("list").items()})
    one_after_another(counts, page, "list", kinds, ask)


def lost_after_checks(counts: Counts, page: Page) -> None:
    """After the worker is lost, nothing of an earlier check is shown, whatever its outcome was."""
    for name in ("agrees", "other module", "differs", "no record", "no list"):
        page.load()
        page.browser.run(REFUSED)
        filled(page)
        page.browser.run(ANSWER, "check", outcome_of(name))
        counts.same(f"{name}: before", page.check("a text")["outcome"], name)
        page.browser.run("window.lost();")
        counts.same(f"{name}, and no worker", outcome_shown(page), (FAILED, "", "", [], "", []))


def lists(counts: Counts, page: Page) -> None:
    for reason in ("no memory", "the module failed", "line is empty"):
        values, field, words = REFUSALS[reason]
        page.load()
        page.browser.run(REFUSED)
        page.browser.run(SET, "list", reason, values)
        filled(page)
        found = page.facts()
        counts.same(f"a list, {reason}", (errors(page), found["digest"], found["entrants"]), ({field: words}, "", ""))
        shown = page.draw()
        counts.same(f"a list, {reason}: a draw", (shown["record"], shown["title"]), ("", ""))
        counts.same(f"a list, {reason}: a check", page.check("no record")["outcome"], "")
        draws_again(counts, page, f"a list, {reason}")
    page.load()
    record = "nanorand public draw 2\n"
    page.paste("a\n\n")
    counts.same("a check by a bad list", page.check(record)["outcome"], "")
    counts.same("its focus", page.browser.run("return document.activeElement.id;"), "list-text")


def errors_of_the_page(counts: Counts, page: Page) -> None:
    """An error of the page disappears with another list, even before a draw."""
    page.load()
    page.browser.run(REFUSED)
    filled(page)
    page.browser.run(SET, "draw", "no memory", {})
    counts.case("an error of the page", "" if page.draw()["page"] else "is not said")
    page.paste("other\n")
    counts.same("no error of the page", (page.facts()["digest"], errors(page)), (sha256(b"other\n"), {}))


def changes(counts: Counts, page: Page) -> None:
    """Equal lines cannot be removed, because of an error."""
    page.load()
    page.browser.run(REFUSED)
    page.paste(LIST + LIST)
    digest = page.facts()["digest"]
    page.browser.run(SET, "tidy", "no memory", {})
    page.browser.run("document.getElementById('tidy-unique').click();")
    page.browser.wait("return !document.getElementById('page-error').hidden;")
    found = page.shown()
    counts.same("a change that fails", (found["page"], found["digest"]), (REFUSALS["no memory"][2], digest))
    text = page.browser.run("return document.getElementById('list-text').value;")
    counts.same("the list after it", text, LIST + LIST)


def lost_workers(counts: Counts, page: Page) -> None:
    """Every later task is rejected, and nothing old is shown as if it were new."""
    page.load()
    page.browser.run(REFUSED)
    filled(page)
    page.draw()
    page.browser.run("window.lost();")
    for count in ("2", "all", "x"):
        page.fill("seed", count)
        shown = page.draw()
        counts.same(f"a draw of {count} without a worker", (errors(page), shown["record"], shown["title"]),
                    ({"page": FAILED}, "", ""))
    counts.same("a check without a worker", page.check("no record")["outcome"], "")
    page.tab("draw")
    page.paste("other\n")
    page.browser.wait("return !document.getElementById('page-error').hidden;")
    found = page.shown()
    counts.same("a list without a worker", (errors(page), found["digest"]), ({"page": FAILED}, ""))
    counts.same("no progress", page.browser.run("return document.getElementById('progress').hidden;"), True)


def with_worker(page: Page, code: str) -> Page:
    """A copy of the page with code before that of its worker."""
    text = Path(url2pathname(urlparse(page.address).path)).read_text(encoding="utf-8")
    path = page.folder / "worker.html"
    start = '<script type="text/plain" id="worker">'
    path.write_text(text.replace(start, start + code, 1), encoding="utf-8")
    return Page(page.browser, path.as_uri(), page.folder)


def answers_not_copied(counts: Counts, page: Page) -> None:
    """An answer that cannot be copied to the page is an error, and the page continues with the next one."""
    wanted = {"page": "The page failed, and nothing is drawn: DataCloneError: no room. Reload the page, and try again."}
    page = with_worker(page, UNCOPIED)
    page.load()
    hidden = "return document.getElementById(arguments[0]).hidden;"
    there = "return !document.getElementById(arguments[0]).hidden;"
    page.browser.wait(there, "page-error", seconds=20)
    counts.same("a list not copied", errors(page), wanted)
    page.paste(LIST + LIST)
    page.fill("seed", "all")
    counts.same("a list after it", (page.facts()["entrants"], errors(page)), ("6 entrants", {}))
    for button, shown in (("tidy-unique", "tidied"), ("draw", "result"), ("check", "outcome")):
        page.tab("check" if button == "check" else "draw")
        for element, said in (("page-error", wanted), (shown, {})):
            page.browser.run("document.getElementById(arguments[0]).click();", button)
            page.browser.wait(there, element, seconds=20)
            counts.same(f"{button}, {element}", errors(page), said)
            counts.same("no progress", page.browser.run(hidden, "progress"), True)


def files(counts: Counts, page: Page) -> None:
    page.load()
    page.paste(LIST)
    digest = page.facts()["digest"]
    page.browser.run("document.getElementById('list-file').dispatchEvent(new Event('change'));")
    counts.same("no file is chosen", page.facts()["digest"], digest)
    for target in ("list-text", "check-text", "panel"):
        left = page.browser.run(DROP_TEXT, target)
        counts.same(f"a text dropped on {target}", (left, page.facts()["digest"]), ([False, False], digest))
    page.browser.run("""window.read = Blob.prototype.arrayBuffer;
        Blob.prototype.arrayBuffer = () => Promise.reject(new Error("gone"));""")
    page.open_file(b"Max\n")
    found = page.facts()
    wanted = {"list": "The file cannot be read."}, ""
    counts.same("a file that cannot be read", (errors(page), found["digest"]), wanted)
    page.fill("seed", "all")
    counts.same("its draw", page.draw()["record"], "")
    page.browser.run("Blob.prototype.arrayBuffer = window.read;")
    page.open_file(b"Max\n")
    counts.same("the next file", (page.facts()["digest"], errors(page)), (sha256(b"Max\n"), {}))


def prints(counts: Counts, page: Page) -> None:
    page.load()
    filled(page)
    page.facts()
    page.check(page.draw()["record"])
    page.browser.run("""window.print = () => {
        dispatchEvent(new Event("beforeprint"));
        window.printed = document.getElementById("panel").dataset.paper + ": " +
          document.getElementById("paper-title").textContent;
        dispatchEvent(new Event("afterprint"));
      };""")
    for tab in ("draw", "check"):
        page.tab(tab)
        for button, title in (("print-list", "list: Public draw: the closed list"),
                              ("print", "result: Public draw: the result"),
                              ("print-check", "check: Public draw: a check")):
            page.browser.run("document.getElementById(arguments[0]).click();", button)
            counts.same(f"{button}, {tab}", page.browser.run("return window.printed;"), title)
        page.browser.run("dispatchEvent(new Event('beforeprint'));")
        counts.same(f"the browser's own print, {tab}", page.browser.run(
            "return document.getElementById('panel').dataset.paper;"), "result" if tab == "draw" else "check")


def run(counts: Counts, page: Page) -> None:
    for part in (draws, draws_after_draws, checks, checks_after_checks, lost_after_checks, lists, lists_after_lists,
                 errors_of_the_page, changes, lost_workers, files, prints, answers_not_copied):
        part(counts, page)
