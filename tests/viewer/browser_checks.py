"""The checks in a real browser: every event of every example, hands, traps, times, and the wrong versions that they must catch."""
import base64
import re

import check
import talk
from check import HERE, ROOM, ROOT, data_of, examples, held, states, watched
from diagram import planned
from driver import Browser
from given import Given
from page import Page, digest
from sketch import sketch_of
from text import pools_of

SHOWN = """
const numbers = (element, ...names) => names.map((name) => isNaN(element.dataset[name]) ? element.dataset[name] : Number(element.dataset[name]));
const all = (selector, ...names) => [...document.querySelectorAll(selector)].map((element) => numbers(element, ...names));
const dump = () => ({ tokens: all('#tokens .token', 'pool', 'instance', 'edge', 'count'), counts: all('.count', 'pool', 'instance', 'task', 'what', 'count'),
  queues: all('.station', 'queue', 'count').filter((pair) => pair[1]), cards: [...document.querySelectorAll('.card')].map((card) => [Number(card.dataset.pool), Number(card.dataset.instance), card.dataset.fields]),
  mores: [...document.querySelectorAll('.more')].map((more) => [more.dataset.edge, more.dataset.more]), seen: [...document.querySelectorAll('#tokens .token:not(.hid)')].map((token) => token.dataset.pool + '.' + token.dataset.edge), at: document.body.dataset.at });
"""
WALK = SHOWN + """
const slider = document.getElementById('slider'), found = [];
const ring = () => { const ring = document.querySelector('.ring.now, .ring.bad'); if (!ring) return null; const box = ring.getBBox(); return [box.x + box.width / 2, box.y + box.height / 2]; };
const go = (at) => { if (at > Number(slider.max)) return done(found); slider.value = at; slider.dispatchEvent(new Event('input'));
  requestAnimationFrame(() => setTimeout(() => { found.push({ ...dump(), ring: ring() }); go(at + 1); })); };
go(0);
"""


def alike(shown, state):
    """What is wrong with what a page shows of one state."""
    wrong = [sort for sort in ("tokens", "counts", "queues") if sorted(shown[sort], key=str) != sorted(state[sort], key=str)]
    fields = {tuple(entry[:2]): entry[2] for entry in state["fields"]}
    if any(fields.get(tuple(card[:2])) != card[2] for card in shown["cards"]):
        wrong.append("fields")
    if [card[:2] for card in shown["cards"]] != sorted(card[:2] for card in shown["cards"]):
        wrong.append("the order of instances")
    held_by = {}
    for pool, _, edge, _ in state["tokens"]:
        held_by.setdefault(f"{pool}.{edge}", []).append(edge)
    more = {edge: int(count) for edge, count in shown["mores"]}
    if any(shown["seen"].count(edge) + more.get(edge, 0) != len(tokens) for edge, tokens in held_by.items()):
        wrong.append("how many tokens are seen")
    return wrong


def rings_alike(shown, data):
    """The ring of a step stands round its own node, that of a branch round the catch event."""
    for at, event in enumerate(data["events"]):
        words = event["l"].replace("step ", "").split(" ")
        if not words[0].isdigit():
            continue
        key = ".".join((words[0], words[2]))
        key = f"{key}.{words[4]}" if f"{key}.{words[4]}" in data["nodes"] else key
        if key in data["nodes"]:
            x, y, wide, high = data["nodes"][key]
            ring = shown[at + 1]["ring"]
            if ring is None or abs(ring[0] - x - wide / 2) > 1 or abs(ring[1] - y - high / 2) > 1:
                return False
    return True


def faults(browser, page, expected):
    browser.open(page.as_uri())
    shown = browser.wait(WALK)
    found = [] if len(shown) == len(expected) else [f"{len(shown)} states are shown, and {len(expected)} are there"]
    for at, (one, other) in enumerate(zip(shown, expected)):
        found += [f"step {at}: {sort}" for sort in alike(one, other)]
    return found + ([] if rings_alike(shown, data_of(page)) else ["the ring of a step"])


def every_event(browser):
    for name, model, session in examples():
        found = faults(browser, ROOM / f"{name}.html", states(model, session))
        held(not found, f"{name} in the browser: {found[:3]}")
        complaints = browser.complaints()
        held(not complaints, f"{name}: the browser says {complaints[:2]}")


# wrong versions

def altered(page, old, new, in_data=False):
    """A page with one thing wrong in its script or data, and the policy's digest to fit."""
    html = page.read_text()
    script = re.search(r"<script>(.*?)</script>", html, re.S).group(1)
    if in_data:
        html = html.replace(old, new, 1)
    else:
        assert old in script, old
        wrong = script.replace(old, new, 1)
        html = html.replace(script, wrong).replace(digest(script), digest(wrong))
    path = ROOM / "wrong.html"
    path.write_text(html)
    return path


def wrong_versions(browser):
    coupled, full, cancel, counts = (ROOM / f"{name}.html" for name in ("coupled", "full-pool", "cancel", "counts"))
    told_by = {name: states(model, session) for name, model, session in examples() if name in ("coupled", "full-pool", "cancel", "counts")}
    change = re.search(r'"c":\["instance 2 0 [^]]*\]', coupled.read_text()).group(0)
    cases = [
        ("the state of the event before", coupled, ("k < at; k++", "k < at - 1; k++")),
        ("a change left out", coupled, (change, '"c":[]', True)),
        ("counts always 1", counts, ('setIf(token, "data-count", String(count))', 'setIf(token, "data-count", "1")')),
        ("task counts always 1", counts, ('setIf(mark, "data-count", String(entry.count))', 'setIf(mark, "data-count", "1")')),
        ("+n counted as one", full, ("showMore(edge, held.length - 3)", "showMore(edge, 1)")),
        ("a branch drawn at its gateway", cancel, ("return data.nodes[branch] ? branch : key;", "return key;")),
        ("instance 10 put before 2", full, ("|| a.instance - b.instance", "|| (String(a.instance) < String(b.instance) ? -1 : 1)")),
    ]
    for words, page, change in cases:
        held(faults(browser, altered(page, *change), told_by[page.stem]), f"the wrong version is caught: {words}")
    html = coupled.read_text().replace('"use strict";', '"use strict"; document.title = "altered";', 1)
    (ROOM / "wrong.html").write_text(html)
    browser.complaints()
    browser.open((ROOM / "wrong.html").as_uri())
    held(browser.ask("return [document.title, document.body.dataset.at || '', document.querySelectorAll('.node').length > 5]") == ["Coupled", "", True], "an altered script does not run, and the drawing stays")
    held(any("Content Security Policy" in entry for entry in browser.complaints()), "the policy stops an altered script")


# hands

AT = "return Number(document.body.dataset.at)"
KEYS = {"right": "\ue014", "left": "\ue012", "home": "\ue011", "end": "\ue010", "escape": "\ue00c", "down": "\ue015", "up": "\ue013"}


def settled(browser):
    browser.wait("const look = () => document.getElementById('movers').children.length ? setTimeout(look, 50) : setTimeout(done, 30); setTimeout(look, 60);")


def hands(browser):
    browser.open((ROOM / "coupled.html").as_uri())
    last = browser.ask("return Number(document.getElementById('slider').max)")
    for key, due in (("right", 1), ("right", 2), ("left", 1), ("end", last), ("left", last - 1), ("home", 0)):
        browser.press(KEYS[key])
        settled(browser)
        held(browser.ask(AT) == due, f"the key {key} leads to step {due}")
    for button, due in (("on-button", 1), ("last-button", last), ("back-button", last - 1), ("first-button", 0)):
        browser.ask("document.getElementById(arguments[0]).click()", button)
        settled(browser)
        held(browser.ask(AT) == due, f"the {button} leads to step {due}")
    settings(browser)
    playing(browser)
    choosing(browser)
    browser.open((ROOM / "coupled.html").as_uri() + "#step=22&instance=1.1&theme=dark&numbers=0")
    found = browser.ask("return [document.body.dataset.at, document.body.dataset.instance, document.documentElement.dataset.theme, document.body.dataset.numbers]")
    held(found == ["22", "1.1", "dark", "0"], f"an address is followed: {found}")
    held(browser.ask("return performance.getEntriesByType('resource').length") == 0, "no resource is fetched")
    held(not browser.complaints(), "the browser has no complaint")


def settings(browser):
    shown = "return [document.body.dataset.numbers, document.documentElement.dataset.theme || '', document.getElementById('speed').value, document.getElementById('drawing').getAttribute('viewBox')]"
    before = browser.ask(shown)
    for key in ("n", "d", "]", "+"):
        browser.press(key)
    after = browser.ask(shown)
    held(before[0] == "1" and after[0] == "0" and after[1] in ("dark", "light") and after[2] == "2" and before[3] != after[3], f"numbers, theme, speed and zoom: {before} {after}")
    for key in ("n", "d", "[", "0"):
        browser.press(key)
    held(browser.ask(shown)[3] == before[3] and browser.ask(shown)[2] == "1", "0 fits the drawing again, [ is slower")
    browser.ask("const rows = document.getElementById('rows'); rows.focus()")
    browser.press(KEYS["down"])
    browser.press(KEYS["down"])
    held(browser.ask(AT) == 2, "down in the list is a step on")
    browser.press(KEYS["up"])
    held(browser.ask(AT) == 1, "up in the list is a step back")


def playing(browser):
    browser.ask("document.activeElement.blur(); document.getElementById('first-button').click()")
    browser.ask("const slider = document.getElementById('slider'); slider.value = 12; slider.dispatchEvent(new Event('input'))")
    browser.wait("setTimeout(done, 200)")
    browser.press(" ")
    moving = browser.wait("let most = 0, times = 0; const look = () => { most = Math.max(most, document.getElementById('movers').children.length); if (++times > 10) done(most); else setTimeout(look, 30); }; look();")
    held(moving > 0, "while it plays tokens move")
    browser.press(" ")
    found = browser.ask("return [document.getElementById('movers').children.length, document.getElementById('play-button').getAttribute('aria-label'), document.querySelectorAll('#tokens .hid').length]")
    held(found == [0, "Play", 0], f"a pause while moving leaves the state whole: {found}")
    at = browser.ask(AT)
    browser.wait("setTimeout(done, 1200)")
    held(browser.ask(AT) == at, "after a pause nothing moves on")
    browser.protocol("Emulation.setEmulatedMedia", features=[{"name": "prefers-reduced-motion", "value": "reduce"}])
    browser.press(" ")
    most = browser.wait("let most = 0, times = 0; const look = () => { most = Math.max(most, document.getElementById('movers').children.length); if (++times > 20) done(most); else setTimeout(look, 60); }; look();")
    browser.press(" ")
    held(most == 0 and browser.ask(AT) > at, "with reduced motion it goes on and nothing moves")
    browser.protocol("Emulation.setEmulatedMedia", features=[])


def choosing(browser):
    browser.ask("document.getElementById('last-button').click(); document.querySelector('.card[data-pool=\"1\"][data-instance=\"1\"]').click()")
    found = browser.ask("return [document.body.dataset.instance, document.querySelectorAll('.card.other').length, [...document.querySelectorAll('.row .line')].every((line) => /^(step )?1 1 /.test(line.textContent))]")
    held(found == ["1.1", 3, True], f"a click on a card shows its instance alone: {found}")
    browser.ask("document.activeElement.blur()")
    browser.press(KEYS["home"])
    browser.press(KEYS["right"])
    settled(browser)
    line = browser.ask("return document.querySelector('.row.now .line').textContent")
    held(line.startswith("1 1 "), f"the step keys keep to its events: {line}")
    browser.press(KEYS["escape"])
    held(browser.ask("return document.body.dataset.instance || ''") == "", "Escape ends it")


def sheets(browser):
    """Narrow and on paper: nothing is wider than the page."""
    for name in ("coupled", "drawing-route-request"):
        browser.open((ROOM / f"{name}.html").as_uri() + "#step=9")
        for wide, high, media in ((360, 700, ""), (800, 900, ""), (1000, 1400, "print")):
            browser.protocol("Emulation.setDeviceMetricsOverride", width=wide, height=high, deviceScaleFactor=1, mobile=False)
            browser.protocol("Emulation.setEmulatedMedia", media=media)
            browser.wait("setTimeout(done, 150)")
            found = browser.ask("return [document.documentElement.scrollWidth, innerWidth, getComputedStyle(document.getElementById('transport')).display]")
            held(found[0] <= found[1], f"{name} at {wide} {media}: {found}")
            held((found[2] == "none") == (media == "print"), f"{name}: the controls are not printed, and only there")
        browser.protocol("Emulation.setEmulatedMedia", media="")
        browser.protocol("Emulation.clearDeviceMetricsOverride")


# traps

def traps(browser):
    title = "</script><script>alert(4)</script>@DATA@"
    page = watched("traps", HERE / "traps.bpmn", None, "--title", title)
    check.well_made("traps", page.read_text())
    browser.complaints()
    browser.open(page.as_uri())
    found = browser.ask("return [document.title, document.images.length, document.scripts.length, document.querySelectorAll('[onerror], [onload]').length, document.querySelector('h1').textContent]")
    held(found == [title, 0, 2, 0, title], f"names are only names: {found}")
    words = browser.ask("return document.getElementById('drawing').textContent")
    held("@DATA@" in words and "\u202e" not in words and "<img" in words, "a name is shown as it was typed, without what turns the writing")
    held("url(http" not in page.read_text() and not browser.complaints(), "no colour but #rrggbb, and no violation")


# times, at 65,535 events and 64 instances

def long_page():
    """A page of the greatest size, its run set down here: it is about time, not about what the engine did."""
    given = Given.__new__(Given)
    given.sketch = sketch_of(pools_of("|".join(f"miPool({pool},startRcv({pool}:<?d0>,1)|xorJoin({{1,3}},2)|task(2,1,a,true,{{d1:=d0+1}},3),16)" for pool in range(1, 5))))
    given.plan, given.note = planned(given.sketch, None, False)
    line = "instance {} {} tokens {}:1 active - ready - fields 0:{},1:{}".format
    record = talk.Record(fresh=[line(pool, instance, 3, instance, 1) for pool in range(1, 5) for instance in range(16)])
    for at in range(65535):
        pool, instance = at % 64 // 16 + 1, at % 16
        place, edge = ((1, 2), (2, 3))[at // 64 % 2]
        record.events.append(talk.Event("", f"{pool} {instance} {place} 0 {1 if place == 1 else 0} -", changes=[line(pool, instance, edge, instance, 1)]))
    path = ROOM / "long.html"
    path.write_text(Page(given, record, "Long", "", "", {}, 0).html())
    return path


def thread_time(browser):
    return sum(metric["value"] for metric in browser.protocol("Performance.getMetrics")["metrics"] if metric["name"] == "ThreadTime")


def times(browser):
    page = long_page()
    held(page.stat().st_size < 9000000, f"65,535 events are {page.stat().st_size} bytes")
    browser.protocol("Performance.enable", timeDomain="threadTicks")
    before = thread_time(browser)
    browser.open(page.as_uri())
    browser.wait("requestAnimationFrame(() => setTimeout(done))")
    load = thread_time(browser) - before
    before = thread_time(browser)
    browser.wait("const slider = document.getElementById('slider'); let k = 0; const go = () => { if (k++ === 200) return done(); slider.value = k * 7919 % 65536; slider.dispatchEvent(new Event('input')); requestAnimationFrame(() => setTimeout(go)); }; go();")
    jump = (thread_time(browser) - before) / 200
    browser.protocol("Performance.disable")
    print(f"65,535 events, 64 instances: {page.stat().st_size} bytes, ready in {load:.2f} s, a jump {jump * 1000:.1f} ms of thread time", flush=True)
    held(load <= 0.5, f"the page is ready within 0.5 s: {load:.2f}")
    held(jump <= 0.020, f"a jump takes at most 20 ms: {jump * 1000:.1f}")
    browser.open(page.as_uri() + "#step=1")
    held(browser.ask("return [...document.querySelectorAll('.more')].map((more) => more.dataset.more).sort().join()") == "12,13,13,13", "sixteen on one edge are three and +13")


# contrast

def contrast():
    style = "".join((ROOT / "viewer" / name).read_text() for name in ("picture.css", "page.css"))
    colours = {name: pair for name, *pair in re.findall(r"--([a-z0-9-]+): light-dark\((#[0-9a-f]{6}), (#[0-9a-f]{6})\)", style)}
    due = [(f"t{k}", "on-token", 5.3, 7.0) for k in range(8)]
    due += [(one, other, 4.5, 4.5) for one, other in (("ink", "field"), ("ink", "page"), ("ink", "now"), ("ink", "queue"), ("ink", "tag"), ("soft", "field"), ("soft", "header"), ("refused", "field"), ("accent", "on-accent"))]
    due += [(one, other, 3.0, 3.0) for one, other in (("now-rim", "field"), ("queue-rim", "field"), ("may", "field"), ("line", "field"), ("queue-line", "ground"))]
    for one, other, *least in due:
        for theme in (0, 1):
            found = ratio(colours[one][theme], colours[other][theme])
            held(found >= least[theme], f"{one} on {other} has {found:.1f}:1, and {least[theme]}:1 is due")


def ratio(one, other):
    light, dark = sorted((brightness(one), brightness(other)), reverse=True)
    return (light + 0.05) / (dark + 0.05)


def brightness(colour):
    parts = [int(colour[at:at + 2], 16) / 255 for at in (1, 3, 5)]
    return sum(share * (part / 12.92 if part <= 0.04045 else ((part + 0.055) / 1.055) ** 2.4) for share, part in zip((0.2126, 0.7152, 0.0722), parts))


def picture_for_readme(browser, store):
    """The README's picture; its bytes are the browser's own, so that it is only made, not compared."""
    if store:
        browser.protocol("Emulation.setDeviceMetricsOverride", width=1200, height=720, deviceScaleFactor=1, mobile=False)
        browser.open((ROOM / "docs.html").as_uri() + "#step=15&theme=light")
        browser.wait("setTimeout(done, 600)")
        (ROOT / "docs/watch.png").write_bytes(base64.b64decode(browser.call("GET", "/screenshot")))
    held((ROOT / "docs/watch.png").exists(), "docs/watch.png is there; tests/viewer/run --store makes it")


def all_of(store):
    contrast()
    browser = Browser()
    try:
        for part in (every_event, wrong_versions, hands, sheets, traps, times):
            print(f"in the browser: {part.__name__.replace('_', ' ')}", flush=True)
            part(browser)
        picture_for_readme(browser, store)
    finally:
        browser.close()
