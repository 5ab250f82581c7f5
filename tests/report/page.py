"""Tries of the page that programs/lockd_report writes: what it has, and what it does in a browser."""
import re
import resource
import tempfile

from report.page import page
from report.session import follow
from report.trace import read_trace
from tests.report.browser import PROGRAM, Browser
from tests.report.heads import UNLOCKED, WAITED_FOR, headed
from tests.report.kit import *
from tests.tries import TOP, run, text_of

ORDERS, MOST_BYTES = 100_000, 6_000_000
# Of a processor, which other programs may have meanwhile.
SECONDS = 30
PICTURES = (("waiting", ()), ("waiting_fair", ("--fair",)))


def try_a_page_of_its_own():
    """It loads nothing: it has no address, no import, and no file of its own."""
    trace, session = followed(text_of("examples/a_lock_is_waited_for.txt"))
    made = page("a <title>", trace, session, None)
    assert "a &lt;title&gt;" in made and "://" not in made and "@import" not in made and not re.search(r"\ssrc=|<link(?! rel=\"icon\" href=\"data:,\")", made)
    same(set(re.findall(r"url\((.)", made)), {"#"})
    same(made.count('<div class="wide"><table><caption>'), 5)
    assert 'scope="col"' in made and 'role="img"' in made and "<desc" in made
    assert "</script><b>" not in page("", *(lambda it: (it, follow(it)))(read_trace(traced(CREATED.replace(" 61", " " + b"</script><b>".hex())
                                                                             + "ask 0 2 2 0 0 0 setlk 1 7 0 0 1 11 0\n"))), None)
    page("", read_trace(b""), follow(read_trace(b"")), None)


def used():
    """Seconds of a processor that programs took which this one has started, and which ended."""
    found = resource.getrusage(resource.RUSAGE_CHILDREN)
    return found.ru_utime + found.ru_stime


def try_a_hundred_thousand_orders():
    same(run("check", text=busy_trace(1500)).stdout, b"legal\n")
    begun, ran = used(), reported(text=busy_trace(ORDERS))
    took, size = used() - begun, len(ran.stdout)
    same((ran.stderr, ran.returncode), (b"", 0))
    assert size < MOST_BYTES and took < SECONDS, (size, took)
    return f"passed, {size / 1e6:.1f} MB in {took:.1f} s"


# ---- In a browser

def in_browser(function):
    """A try that gets a browser, and a function that writes a page and gives its path. Nothing may be told on the console."""
    def it():
        if not PROGRAM:
            return "not tried: there is no chromium"
        with tempfile.TemporaryDirectory() as folder, Browser() as browser:
            def written(text, *words):
                path = f"{folder}/page.html"
                ran = reported("-o", path, *words, text=text)
                same((ran.stderr, ran.returncode), (b"", 0))
                return path

            function(browser, written, folder)
            same(browser.console, [])
        return None

    return it


def says(browser):
    return browser.tell("document.getElementById('says').textContent")


def tip(browser, selector):
    browser.point(*browser.center(selector))
    return browser.tell("document.getElementById('tip').innerText")


@in_browser
def try_bars_and_hover(browser, written, _):
    browser.open(written(traced(text_of("examples/a_lock_is_waited_for.txt"))))
    same(says(browser), "Orders 1 to 8 of 8: 4 lanes in 1 file")
    same(browser.tell("document.querySelectorAll('#chart rect[data-bar]').length"), 6)
    browser.tell("document.getElementById('lanes').scrollIntoView()")
    same(tip(browser, "#chart rect[fill='url(#eintr)']"),
         "read lock: waited, then EINTR\na (node 2), byte 9\nowner 9, pid 13\nfrom line 6 to line 8, 2 orders\nfor owner 7")
    same(tip(browser, "#chart rect[fill='var(--read)']"),
         "read lock: held\na (node 2), bytes 0 to 4\nowner 10, pid 14\nfrom line 13 to the end of the trace, 1 order")
    browser.click("#list summary")
    same(browser.tell("document.querySelectorAll('#list tbody tr').length"), 6)
    assert "Orders 1 to 8" in browser.tell("document.getElementById('lanes-desc').textContent")


@in_browser
def try_a_page_behind_a_head(browser, written, _):
    """What the head tells begins at the left edge, which is 0, before order 1."""
    browser.open(written(headed(*WAITED_FOR, behind=UNLOCKED)))
    same(says(browser), "Orders 0 to 1 of 1: 3 lanes in 1 file")
    browser.tell("document.getElementById('lanes').scrollIntoView()")
    same(tip(browser, "#chart rect[fill='url(#granted)']"),
         "write lock: waited, then granted\na (node 2), byte 0\nowner 8, pid 12\nfrom before the trace to line 8, at least 1 order\nfor owner 7")
    browser.click("td a[href='#at=0']")
    same(browser.tell("document.querySelectorAll('#chart path[stroke-dasharray]').length"), 1)
    browser.open(written(headed()))
    same(says(browser), "Orders 0 to 0 of 0: 0 lanes in 0 files")


@in_browser
def try_marks_and_whole_files(browser, written, _):
    browser.open(written(traced(locks("setlk 1 7 0 0 1 11 1", "setlk 1 8 0 0 1 12 1", "setlk 1 7 0 0 1 11 0", "setlk 1 8 3 3 1 12 0", "setlkw 1 8 0 0 1 12 0",
                                      "setlkw 1 7 3 3 1 11 0", "setlk 9 7 0 0 2 11 0"))))
    same(browser.tell("[...document.querySelectorAll('#chart use')].map(it => it.getAttribute('href')).join()"), "#mark-eagain,#mark-edeadlk,#mark-other")
    same(tip(browser, "#chart use[href='#mark-other']").split("\n")[-1], "EBADF, to an unlock")
    same(browser.tell("document.querySelectorAll('#chart rect[stroke=\"#000\"][rx]').length"), 1)


@in_browser
def try_search_and_links(browser, written, _):
    browser.open(written(busy_trace(1000)))
    same(says(browser).split(":")[0], "Orders 1 to 1,000 of 1,000")
    everything = browser.tell("document.querySelectorAll('#chart rect[data-bar]').length")
    for text, lanes in ("lock7", 0), ("1005", 0), ("node 3", 0), ("nothing", 0):
        browser.type("#find", text)
        found = re.search(r"(\d+) lanes? of (\d+) found in (\d+) files?", says(browser))
        assert found and (found[1] != "0") == (text != "nothing"), (text, says(browser))
        assert text != "lock7" or found[3] == "1", says(browser)
    browser.type("#find", " ")
    same(browser.tell("document.querySelectorAll('#chart rect[data-bar]').length"), everything)
    browser.click("td a")
    same(browser.tell("document.querySelectorAll('#chart path[stroke-dasharray]').length"), 1)
    assert re.match(r"Orders [\d,]+ to [\d,]+ of 1,000", says(browser)) and "1 to 1,000" not in says(browser), says(browser)
    browser.open(browser.tell("location.pathname"), "#from=100&to=200&find=lock2")
    same(says(browser).split(":")[0], "Orders 101 to 200 of 1,000")


@in_browser
def try_moving_and_zooming(browser, written, _):
    browser.open(written(busy_trace(ORDERS)))
    same(says(browser).split(":")[0], "Orders 1 to 1,000 of 100,000")
    for press, wanted in ("later", "801 to 1,800"), ("nearer", "1,051 to 1,550"), ("farther", "801 to 1,800"), ("whole", "1 to 100,000"):
        browser.click(f"#{press}")
        same(says(browser).split(" of ")[0], f"Orders {wanted}")
    assert browser.tell("document.querySelectorAll('#chart *').length") < 40_000
    assert browser.tell("document.querySelectorAll('#chart rect[data-count]').length") > 100
    browser.tell("document.getElementById('over').scrollIntoView()")
    browser.click("#nearer")
    before = says(browser)
    browser.tell("document.getElementById('over').scrollIntoView()")
    x, y = browser.center("#brush")
    for kind, by in ("mousePressed", 0), ("mouseMoved", 100), ("mouseReleased", 100):
        browser.point(x + by, y, kind, button="left", buttons=1, clickCount=1)
    assert says(browser) != before, before
    took = []
    # Other programs may have the processors for a while.
    for _ in range(3):
        browser.click("#nearer")
        took.append(browser.tell("(() => { const begun = performance.now(); document.getElementById('whole').click(); return new Promise("
                                 "done => requestAnimationFrame(() => requestAnimationFrame(() => done(performance.now() - begun)))); })()"))
    assert min(took) < 5000, took
    browser.tell("document.getElementById('lanes').scrollTop = 3000")
    browser.settle()
    assert browser.tell("document.getElementById('chart').getBoundingClientRect().top >= document.getElementById('lanes').getBoundingClientRect().top")


@in_browser
def try_touches(browser, written, _):
    """A finger on a lock shows what it is. One that scrolls the lanes leaves the window where it is, and so does the pointer after it."""
    browser.call("Emulation.setTouchEmulationEnabled", enabled=True)
    browser.open(written(busy_trace(1000)))
    browser.click("#nearer")
    browser.tell("document.getElementById('lanes').scrollIntoView()")
    before, (x, y) = says(browser), browser.center("#lanes")
    browser.touch("touchStart", *browser.center("#chart rect[data-bar]"))
    assert "owner" in browser.tell("document.getElementById('tip').innerText")
    browser.touch("touchEnd")
    browser.touch("touchStart", x, y)
    for by in range(15, 165, 15):
        browser.touch("touchMove", x + by / 5, y - by)
    browser.touch("touchEnd")
    assert browser.tell("document.getElementById('lanes').scrollTop") > 0
    browser.point(x + 150, y)
    same(says(browser), before)


@in_browser
def try_a_page_with_times(browser, written, folder):
    trace = traced(text_of("examples/a_lock_is_waited_for.txt"))
    with open(f"{folder}/times", "wb") as file:
        file.write(times_of(read_trace(trace), 250_000))
    browser.open(written(trace, "--times", f"{folder}/times"))
    same(says(browser).split(":")[0], "0.000 ms to 3.250 ms, orders 1 to 8 of 8")
    browser.tell("document.getElementById('lanes').scrollIntoView()")
    assert "0.750 ms" in tip(browser, "#chart rect[fill='url(#eintr)']")


@in_browser
def try_a_picture(browser, written, _):
    browser.open(written(busy_trace(1000)))
    found = browser.picture()
    assert found.startswith(b"\x89PNG") and len(found) > 20_000, len(found)


def make_pictures():
    """The lanes of one script, in which readers come and go while a writer waits, without and with --fair."""
    with tempfile.TemporaryDirectory() as folder, Browser(width=900, height=1200) as browser:
        for name, rules in PICTURES:
            with open(f"{folder}/page.html", "w", encoding="utf-8") as file:
                trace = read_trace(traced(text_of("examples/a_writer_among_readers.txt"), *rules))
                file.write(page(name, trace, follow(trace), None))
            browser.open(f"{folder}/page.html")
            top, bottom = browser.tell("[document.getElementById('axis').getBoundingClientRect().top, document.getElementById('lanes').getBoundingClientRect().bottom]")
            with open(f"{TOP}/docs/{name}.png", "wb") as file:
                file.write(browser.picture({"x": 16, "y": top - 3, "width": 868, "height": bottom - top + 6}))
