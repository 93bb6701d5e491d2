"""The page for those who cannot see it, or use no mouse: the keyboard alone, 400 %, and what a screen reader is told."""

import shutil
import unittest

from browsing import reason_to_skip
from hosted import Hosted

# In CSS pixels: a window of 1,280 by 1,024 at 400 %.
NARROW = {"width": 320, "height": 256, "deviceScaleFactor": 4, "mobile": False}
# What has text has at least this contrast with what is behind it (WCAG 2.1, 1.4.3).
CONTRAST = """
const channel = (value) => (value /= 255) <= 0.03928 ? value / 12.92 : ((value + 0.055) / 1.055) ** 2.4;
const light = ([r, g, b]) => 0.2126 * channel(r) + 0.7152 * channel(g) + 0.0722 * channel(b);
const numbers = (text) => text.match(/[0-9.]+/g).map(Number);
const behind = (element) => {
  for (; element; element = element.parentElement) {
    const found = numbers(getComputedStyle(element).backgroundColor);
    if (found.length < 4 || found[3] > 0) return found;
  }
  return [255, 255, 255];
};
return [...document.querySelectorAll("body *")].filter((element) => element.checkVisibility()
    && [...element.childNodes].some((node) => node.nodeType === 3 && node.data.trim())).map((element) => {
  const [one, other] = [light(numbers(getComputedStyle(element).color)), light(behind(element))].sort((a, b) => b - a);
  return [element.id || element.className || element.tagName, (one + 0.05) / (other + 0.05)];
}).filter(([, contrast]) => contrast < 4.5);
"""
# What axe asks of a page, as far as no browser's tree tells it: each with the element that does not hold to it.
RULES = """
const found = [], every = [...document.querySelectorAll("*")], seen = every.filter((one) => one.checkVisibility());
const say = (rule, one) => found.push([rule, one ? one.id || String(one.className) || one.tagName : ""]);
const INTERACTIVE = "a[href], button, input, select, textarea, [tabindex]";
const ARIA = ["label", "labelledby", "describedby", "invalid", "hidden", "live", "expanded", "controls", "current", "pressed"];
let level = 0;
for (const one of seen.filter((one) => /^H[1-6]$/.test(one.tagName))) {
  if (Number(one.tagName[1]) > level + 1) say("heading-order", one);
  level = Number(one.tagName[1]);
  if (!one.textContent.trim()) say("empty-heading", one);
}
if (seen.filter((one) => one.tagName === "H1").length !== 1) say("page-has-heading-one");
if (seen.filter((one) => one.matches("main, [role=main]")).length !== 1) say("landmark-one-main");
for (const one of seen) {
  if (one.matches("aside, [role=complementary], [role=banner], main") && one.parentElement.closest("main, aside, header")) say("landmark-is-top-level", one);
  if (one.childElementCount === 0 && one.textContent.trim() && one.closest("body") && !one.closest("header, main, footer, nav")) say("region", one);
  if (one.tabIndex > 0) say("tabindex", one);
  if (one.matches(INTERACTIVE) && one.parentElement.closest("a[href], button, select")) say("nested-interactive", one);
  if (one.matches("img, svg") && !one.getAttribute("alt") && !one.getAttribute("aria-label")) say("image-alt", one);
  if (one.matches("button") && !one.getAttribute("type")) say("button-type", one);
  const label = one.matches("input, select") && one.closest("label"), name = one.getAttribute("aria-label");
  if (label && name && ![...label.childNodes].filter((node) => node !== one).map((node) => node.textContent.trim().toLowerCase())
      .every((text) => name.toLowerCase().includes(text))) say("label-content-name-mismatch", one);
  if (one.matches("input, select") && !label && !name) say("label", one);
  for (const { name, value } of one.attributes) {
    if (name.startsWith("aria-") && !ARIA.includes(name.slice(5))) say("aria-valid-attr", one);
    if (["aria-labelledby", "aria-describedby", "list", "for", "aria-controls"].includes(name)
        && !value.split(" ").every((id) => document.getElementById(id))) say("aria-valid-attr-value", one);
    if (name === "aria-hidden" && value === "true" && one.querySelector(INTERACTIVE)) say("aria-hidden-focus", one);
  }
  const style = getComputedStyle(one), scrolls = one.scrollHeight > one.clientHeight + 1 && /auto|scroll/.test(style.overflowY)
    || one.scrollWidth > one.clientWidth + 1 && /auto|scroll/.test(style.overflowX);
  if (scrolls && one.closest("main") && one.tabIndex < 0 && !one.querySelector(INTERACTIVE)) say("scrollable-region-focusable", one);
}
const names = seen.filter((one) => one.matches("[role=region], [role=search], main, header"))
  .map((one) => [one.getAttribute("role") || one.tagName, one.getAttribute("aria-label") || one.getAttribute("aria-labelledby") || ""].join());
if (new Set(names).size !== names.length) say("landmark-unique");
const ids = every.map((one) => one.id).filter(Boolean);
if (new Set(ids).size !== ids.length) say("duplicate-id");
if (!document.title.trim()) say("document-title");
if (!/^[a-z]{2}(-|$)/.test(document.documentElement.lang)) say("html-lang-valid");
if (/user-scalable *= *(no|0)|maximum-scale/.test(document.querySelector("meta[name=viewport]").content)) say("meta-viewport");
return found;
"""


@unittest.skipIf(reason_to_skip() or not shutil.which("git"), reason_to_skip() or "the command git is missing")
class Access(Hosted):
    def judge(self, what: str) -> None:
        """Whether the page as it is now holds to the rules."""
        self.assertEqual((self.browser.execute_script(RULES), self.browser.execute_script(CONTRAST)), ([], []), what)

    def test_the_keyboard_alone(self) -> None:
        from selenium.webdriver.common.action_chains import ActionChains
        from selenium.webdriver.common.keys import Keys

        def press(*keys: str) -> None:
            for key in keys:
                ActionChains(self.browser).send_keys(key).perform()

        def focus() -> str:
            return self.browser.execute_script("const on = document.activeElement; return on.id || on.className || on.tagName")

        self.assertEqual(focus(), "pattern")
        press("return")
        self.wait(lambda: self.done() == "return")
        press(Keys.ARROW_DOWN, Keys.ARROW_DOWN)
        self.assertEqual(self.browser.switch_to.active_element.find_element("css selector", ".text").text.strip(), "return call(1);")
        press(Keys.ARROW_DOWN, Keys.ARROW_UP, Keys.ENTER)
        self.wait(lambda: self.is_open() and focus() == "file-name")
        self.assertEqual(self.targets(), ["3"])
        press(Keys.TAB, Keys.TAB, Keys.TAB, Keys.TAB)
        self.assertEqual(focus(), "file-lines")
        press(Keys.TAB, Keys.ENTER)
        self.assertEqual((focus(), self.words()["lines"]), ("number", "1"))
        press(Keys.ESCAPE)
        self.wait(lambda: not self.one("#file").is_displayed())
        self.assertEqual(focus(), "row")
        press("/")
        self.assertEqual(focus(), "pattern")
        # each control is reached, and shows that it is
        reached = []
        for _ in range(40):
            press(Keys.TAB)
            reached.append(focus())
            if reached[-1].startswith("row"):
                break
        self.assertEqual(reached[:7], ["ignore-case", "word", "literal", "name", "not", "context", "INPUT"])

    def test_at_400_percent(self) -> None:
        """Nothing is cut off, and nothing but code is to be moved sideways."""
        self.browser.execute_cdp_cmd("Emulation.setDeviceMetricsOverride", NARROW)
        try:
            self.open("/")
            self.type("return")
            self.assertGreater(len(self.shown()), 1)
            wide = "return document.documentElement.scrollWidth - document.documentElement.clientWidth"
            self.assertEqual(self.browser.execute_script(wide), 0)
            row = self.one("#results .row:not(.around)")
            self.browser.execute_script("arguments[0].scrollIntoView({block: 'center'})", row)
            row.click()
            self.wait(self.is_open)
            self.assertEqual(self.browser.execute_script(wide), 0)
            self.judge("at 400 %")
            box = self.one("#file").rect
            self.assertEqual((box["width"], box["height"]), (320, 256))
            self.assertTrue(self.one("#close").is_displayed())
            self.one("#close").click()
            self.wait(lambda: not self.one("#file").is_displayed())
        finally:
            self.browser.execute_cdp_cmd("Emulation.clearDeviceMetricsOverride", {})

    def test_that_the_rules_find_what_breaks_them(self) -> None:
        add = "document.querySelector('%s').insertAdjacentHTML('beforeend', '%s')"
        before = self.browser.execute_script("return document.documentElement.innerHTML")
        for script, rule in {
            "document.querySelector('h1').remove()": "page-has-heading-one", add % ("main", "<h5>x</h5>"): "heading-order", add % ("main", "<h2></h2>"): "empty-heading",
            add % ("main", "<aside>x</aside>"): "landmark-is-top-level", add % ("body", "<main>x</main>"): "landmark-one-main", add % ("body", "<p>x</p>"): "region",
            add % ("main", '<a href="x" tabindex="1">x</a>'): "tabindex", add % ("main", '<a href="x"><button type="button">x</button></a>'): "nested-interactive",
            add % ("main", "<svg></svg>"): "image-alt", add % ("main", "<input>"): "label", add % ("main", '<p aria-lable="x">x</p>'): "aria-valid-attr",
            add % ("main", '<p aria-labelledby="nothing">x</p>'): "aria-valid-attr-value", add % ("main", '<p id="results">x</p>'): "duplicate-id",
            add % ("main", '<p aria-hidden="true"><a href="x">x</a></p>'): "aria-hidden-focus", "document.title = ''": "document-title",
            "document.querySelector('#ignore-case').setAttribute('aria-label', 'Case')": "label-content-name-mismatch", "document.documentElement.lang = ''": "html-lang-valid",
            "document.querySelector('meta[name=viewport]').content = 'user-scalable=no'": "meta-viewport",
            add % ("main", '<div role="region" aria-labelledby="results-name">x</div>'): "landmark-unique",
            "const box = document.createElement('div'); box.style = 'overflow: auto; height: 20px; flex: none'; box.innerHTML = '<p>x<p>x<p>x'; document.querySelector('main').append(box)": "scrollable-region-focusable",
        }.items():  # fmt: skip
            self.browser.execute_script(script)
            self.assertIn(rule, [found for found, _ in self.browser.execute_script(RULES)], script)
            self.browser.execute_script("document.documentElement.innerHTML = arguments[0]; document.documentElement.lang = 'en'", before)

    def test_for_a_screen_reader(self) -> None:
        """What can be reached has a role and a name, what is told is told, and there is contrast, by day and by night."""
        for scheme in "light", "dark":
            self.browser.execute_cdp_cmd("Emulation.setEmulatedMedia", {"features": [{"name": "prefers-color-scheme", "value": scheme}]})
            self.open("/")
            self.judge(scheme)
            # of two repositories, refused, none, and of one
            self.type("many lines|int few")
            self.judge(scheme)
            self.type("(")
            self.judge(scheme)
            self.one("#pattern").clear()
            self.type("no such line")
            self.judge(scheme)
            self.one("#pattern").clear()
            self.one("#repositories label:nth-child(1)").click()
            self.type("return")
            self.one("#results .row:not(.around)").click()
            self.wait(self.is_open)
            self.judge(scheme)
            self.one("#revision").clear()
            self.type("topic/x", "#revision")
            self.type("main", "#before")
            self.wait(lambda: self.all("#results .row.added"))
            self.judge(scheme)
        self.browser.execute_cdp_cmd("Emulation.setEmulatedMedia", {"features": []})
        self.browser.execute_cdp_cmd("Accessibility.enable", {})
        nodes = self.browser.execute_cdp_cmd("Accessibility.getFullAXTree", {})["nodes"]
        roles = {}
        for node in nodes:
            if node.get("ignored"):
                continue
            role, name = node["role"]["value"], node.get("name", {}).get("value", "")
            roles.setdefault(role, []).append(name)
            is_reached = any(one["name"] == "focusable" and one["value"].get("value") for one in node.get("properties", []))
            if is_reached and role != "RootWebArea":
                self.assertTrue(name, (role, node))
        for role in "search", "main", "status", "region", "heading", "link", "checkbox", "combobox":
            self.assertIn(role, roles)


if __name__ == "__main__":
    unittest.main()
