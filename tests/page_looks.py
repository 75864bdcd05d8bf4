"""How the page looks: on a phone, on a desktop and between, in the dark and on paper; and what none sees but a screen
reader tells. test_page_large.py tries it with a zone LARGE of 10,000 rows."""
import base64
import re

from page import check, click, go, is_wide, picture, same, shows

# texts and badges outside their row, the table's frame or the window; and long texts that have little room
CUT = """[...document.querySelectorAll('tbody tr:not(.space) td')].flatMap(cell => {
    const text = document.createRange(); text.selectNodeContents(cell);
    const parts = [...cell.querySelectorAll('.cut, .badge, .opener'), ...(cell.querySelector('.cut, .off') ? [] : [text])];
    const edges = [cell.closest('tr'), cell.closest('.scroll')].map(e => e.getBoundingClientRect());
    return parts.filter(part => {
        const its = part.getBoundingClientRect(), isNarrow = part.scrollWidth > part.clientWidth;
        const most = Math.min(window.innerWidth, ...edges.map(edge => edge.right)), least = Math.max(...edges.map(edge => edge.left));
        return its.width && (its.left < least || its.right > most || isNarrow && its.width < (part.className === 'cut' ? 120 : 1e9));
    }).map(part => (part.innerText ?? part.toString()));
})"""

# whether the lines that are drawn fill the table's frame, a moment after it was scrolled
FILLED = """new Promise(done => {
    const frame = document.querySelector('.scroll'); frame.scrollTop = %d;
    requestAnimationFrame(() => requestAnimationFrame(() => {
        const lines = [...frame.querySelectorAll('tbody tr:not(.space)')].map(line => line.getBoundingClientRect());
        done(lines[0].top <= frame.querySelector('th').getBoundingClientRect().bottom && lines.at(-1).bottom > frame.getBoundingClientRect().bottom - 2);
    }));
})"""


# what can be clicked and is no 24 pixels wide or high; what stands outside of the window can't be
SMALL = """[...document.querySelectorAll('a, button, input, select, summary')].filter(part => {
    const its = part.getBoundingClientRect();
    return its.width && its.right > 0 && (its.width < 24 || its.height < 24);
}).map(part => part.tagName + ' ' + part.className + ' ' + (part.innerText || part.ariaLabel) + JSON.stringify(part.getBoundingClientRect()))"""


def targets(browser):
    """On a phone a finger finds what can be touched."""
    for width in (320, 390):
        browser.size(width, 844)
        for address in ("#", "#MIDDLE/fixes", "#MIDDLE/plan", "#LARGE/errors", "#LARGE/errors?status=GOOD"):
            go(browser, address)
            browser.until("document.querySelector('tbody tr.first, .figures')")
            same("nothing is too small for a finger at %d pixels: %s" % (width, address), browser.run(SMALL), [])
        click(browser, "tbody tr.first")
        shows(browser, "can be installed", ".beside")
        same("nor in the chain", browser.run(SMALL), [])
        click(browser, ".close")


def without_resolver(browser):
    """A hold without a resolver says so once to the eye, and to a screen reader where the resolver would stand."""
    marks = """[...document.querySelectorAll('tbody tr.first')].map(row => [...row.querySelectorAll('td, td *')].filter(e =>
        e.children.length === 0 && e.getBoundingClientRect().left >= 0 && /none|no resolver/.test(e.innerText)).length)"""
    for width in (1400, 320):
        browser.size(width)
        go(browser, "#LARGE/errors?status=none")
        browser.until("document.querySelector('tbody tr.first')")
        same("none stands once in a line, %d pixels wide" % width, set(browser.run(marks)), {1})
        root = browser.call("DOM.getDocument")["root"]["nodeId"]
        line = browser.call("DOM.querySelector", nodeId=root, selector="tbody tr.first")["nodeId"]
        cells = browser.call("Accessibility.queryAXTree", nodeId=line, role="gridcell")["nodes"]
        told = [cell["name"]["value"] for cell in cells]
        check("and is told, %d pixels wide" % width, "no resolver" in told and "none" in told, told)
    browser.size(1400)


def looks(browser):
    """Dark, a phone, paper."""
    targets(browser)
    # 721 is the narrowest with tables, and 1201 with the chain beside them
    for width, height in ((320, 640), (390, 844), (721, 900), (768, 1024), (1000, 800), (1201, 800), (1240, 800), (1400, 900)):
        browser.size(width, height)
        for address in ("#", "#LARGE/errors", "#LARGE/fixes", "#LARGE/plan"):
            go(browser, address)
            browser.until("document.querySelector('tbody tr.first, .figures')")
            browser.until("!document.querySelector('td.of-date') || document.querySelector('td.of-date').textContent")
            check("nothing is wider than %d pixels: %s" % (width, address), not is_wide(browser), browser.run("document.documentElement.scrollWidth"))
            beyond = "(frame => frame ? frame.scrollWidth - frame.clientWidth : 0)(document.querySelector('.scroll'))"
            same("nor does a table scroll sideways at %d pixels: %s" % (width, address), browser.run(beyond), 0)
            same("nothing in a line is cut at %d pixels: %s" % (width, address), sorted(set(browser.run(CUT))), [])
            picture(browser, "%s-%d" % (address.strip("#").replace("/", "-") or "zones", width))
        right = "document.querySelector('.split').getBoundingClientRect().right"
        beyond = "[...document.querySelectorAll('.tab')].filter(e => e.getBoundingClientRect().right > %s + 1).length" % right
        same("nor is a tab at %d pixels" % width, browser.run(beyond), 0)
    browser.size(390, 844)
    go(browser, "#LARGE/errors?status=GOOD")
    browser.until("document.querySelector('tbody tr.first')")
    heights = "[...document.querySelectorAll('tbody tr.first')].map(r => Math.round(r.getBoundingClientRect().height))"
    same("lines are as high as they are said to be", browser.run("[...new Set(%s)]" % heights), [66])
    click(browser, "tbody tr.first")
    shows(browser, "can be installed", ".beside")
    check("the chain lies over the table on a phone", browser.run("getComputedStyle(document.querySelector('.beside')).position") == "fixed")
    check("with its job", browser.run("document.querySelector('.beside .saves').offsetParent !== null"))
    picture(browser, "chain-390")
    click(browser, ".close")
    click(browser, ".any-chain")
    same("any chain can be asked for there", browser.run("document.activeElement.ariaLabel"), "SYSMOD")
    browser.write("uj90000")
    browser.key("Enter", 13, "\r")
    shows(browser, "UJ90000 is not published", ".beside")
    click(browser, ".close")
    check("and is closed again", browser.run("getComputedStyle(document.querySelector('.beside')).display") == "none")
    browser.size(1000, 800)
    click(browser, "tbody tr.first")
    shows(browser, "can be installed", ".beside")
    picture(browser, "chain-1000")
    click(browser, ".close")
    browser.size(1400)
    colours = []
    for scheme in ("light", "dark"):
        browser.call("Emulation.setEmulatedMedia", features=[{"name": "prefers-color-scheme", "value": scheme}])
        go(browser, "#LARGE/errors")
        colours.append(browser.run("['color', 'backgroundColor'].map(name => getComputedStyle(document.body)[name])"))
        picture(browser, "errors-" + scheme)
    check("dark is dark", colours[0] != colours[1] and colours[1][1] == "rgb(15, 20, 27)", colours)
    browser.call("Emulation.setEmulatedMedia", features=[{"name": "forced-colors", "value": "active"}])
    click(browser, ".chip.is-pe")
    for part in (".tab", ".chips:has(.is-pe) .chip"):
        backs = browser.run("[...document.querySelectorAll('%s')].map(each => getComputedStyle(each).backgroundColor)" % part)
        same("where the machine sets all colours, what is chosen has its own: " + part, sorted(backs.count(each) for each in set(backs))[0], 1)
    picture(browser, "errors-forced")
    click(browser, ".chip.is-pe")
    browser.call("Emulation.setEmulatedMedia", features=[])
    top = "s.querySelector('thead th').getBoundingClientRect().top - s.getBoundingClientRect().top"
    heights = "(s => { s.scrollTop = 5000; return [%s, s.scrollTop]; })(document.querySelector('.scroll'))" % top
    same("headings stay", browser.run(heights), [0, 5000])
    places = (0, 20, 170, 400, 0, 5000, 5300, 4900, 10000000)
    same("wherever one scrolls, all that is seen is drawn", [place for place in places if not browser.run(FILLED % place)], [])


def paper(browser, want):
    """All rows are printed, with a title, the level and the filters. WANT is how many lines the HIPER holds take."""
    go(browser, "#LARGE/errors?class=HIPER")
    browser.until("document.querySelector('tbody tr.first')")
    browser.run("window.addEventListener('beforeprint', () => { window.printed = [...document.querySelectorAll('tbody tr:not(.space)')].length; })")
    data = base64.b64decode(browser.call("Page.printToPDF")["data"])
    same("all lines are on paper", browser.run("window.printed"), want)
    pages = int(max(re.findall(rb"/Count (\d+)", data), key=int))
    check("on as many pages as they take", want / 80 < pages < want / 20, pages)
    check("and afterwards those that are seen", browser.run("document.querySelectorAll('tbody tr').length") < 120)
    browser.call("Emulation.setEmulatedMedia", media="print")
    title = browser.run("document.querySelector('caption').innerText")
    same("the title", title, "Exception SYSMODs of LARGE, only HIPER")
    seen = "(e => e.offsetParent !== null && e.getBoundingClientRect().left >= 0)(document.querySelector('%s'))"
    picture(browser, "paper-errors")
    same("title and level are there", [browser.run(seen % place) for place in ("caption", "#level")], [True, True])
    shown = "[...document.querySelectorAll('button, input, select')].filter(e => e.offsetParent && !e.closest('th')).length"
    same("buttons and fields are not", browser.run(shown), 0)
    go(browser, "#")
    tiles = browser.run("[...document.querySelectorAll('.tile')].filter(e => e.offsetParent).length")
    same("the sums are all on paper", tiles, 4)
    picture(browser, "paper-zones")
    browser.call("Emulation.setEmulatedMedia", media="")
    go(browser, "#MIDDLE/plan")
    browser.until("document.querySelector('.left')")
    opened = "[...document.querySelectorAll('.left')].map(part => part.open)"
    browser.run("window.addEventListener('beforeprint', () => { window.opened = %s; })" % opened)
    browser.call("Page.printToPDF")
    same("what is left over is opened on paper", browser.run("window.opened"), [True, True])
    same("and folded afterwards", browser.run(opened), [False, False])
