"""What the tests of the page share: what is entered, clicked and shown."""
import json
import os

from service import check, same

PICTURES = os.environ.get("BUREAU_PICTURES")
NORTH, SOUTH, PUBLISHER = "north-token", "south-token", "publisher-token"
# the date comes later than the rest, and is looked at by itself, as boxes are
LINES = """[...document.querySelectorAll('.report tbody tr:not(.space)')].map(
    r => [...r.cells].filter(c => !c.matches('.of-date, .of-box')).map(c => c.innerText.replace(/[+−]\\d+$/, '').trim()))"""
ZONES = """[...document.querySelectorAll('.zone')].map(z => [z.querySelector('.zone-name').innerText,
    [...z.querySelectorAll('.figure')].map(f => f.innerText.replace(/\\s+/g, ' ')).join(', ')])"""


def picture(browser, name):
    if PICTURES:
        browser.picture(os.path.join(PICTURES, name + ".png"))


def enter(browser, token):
    """By the keyboard alone."""
    browser.until("document.getElementById('token')?.offsetParent")
    browser.run("document.getElementById('token').focus()")
    browser.write(token)
    browser.key("Enter", 13, "\r")


def said(browser, text):
    return check(
        "the page says: " + text,
        browser.until("document.getElementById('message').innerText.includes(%s)" % json.dumps(text)),
        browser.run("document.body.innerText"),
    )


def shows(browser, text, place="main"):
    """Waits until a part of the page shows a text."""
    script = "(document.querySelector(%s)?.innerText ?? '').includes(%s)"
    return check(
        "%s shows %s" % (place, text),
        browser.until(script % (json.dumps(place), json.dumps(text))),
        browser.run("document.body.innerText")[:3000],
    )


def go(browser, address):
    """Goes to an address of the page, and waits until nothing is asked for any more."""
    browser.run("location.hash = %s" % json.dumps(address))
    browser.until("!document.querySelector('[aria-busy]') && !document.querySelector('.wait')")


def lines(browser):
    """The lines of the table that is shown: of a large one, those that are drawn."""
    return browser.run(LINES)


def click(browser, selector, text=None):
    """Clicks what has this text, or the first that there is."""
    found = browser.run(
        """(b => { if (b) { b.focus(); b.click(); } return !!b; })(
        [...document.querySelectorAll(%s)].find(b => %s === null || b.innerText.trim() === %s))"""
        % (json.dumps(selector), json.dumps(text), json.dumps(text))
    )
    return check("%s %s is there" % (selector, text), found)


def filter_by(browser, text):
    browser.run(
        "(f => { f.value = %s; f.dispatchEvent(new Event('input')); })(document.querySelector('.filters input'))"
        % json.dumps(text)
    )


def count(browser):
    return browser.run("document.querySelector('.count').innerText")


def is_wide(browser):
    return browser.run("document.documentElement.scrollWidth > window.innerWidth")


def no_faults(browser):
    same(
        "no fault in the page",
        [one for one in browser.said if "exceptionDetails" in one or one.get("entry", {}).get("source") == "security"],
        [],
    )
