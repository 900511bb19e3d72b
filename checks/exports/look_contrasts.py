"""The contrast of all text and bars of the page with what lies behind them, as WCAG 2 defines it: over each rule of the
style sheet that gives a colour, in both schemes, at each width, and under the pointer and the focus too."""
import browser
from exporter import complain, same

LEAST = 7

# Gives the number of texts, those of low contrast, all rules with colours, and those of them that some text has.
CONTRASTS = r"""
const channel = c => (c /= 255, c <= 0.04045 ? c / 12.92 : ((c + 0.055) / 1.055) ** 2.4);
const light = ([r, g, b]) => 0.2126 * channel(r) + 0.7152 * channel(g) + 0.0722 * channel(b);
const ratio = (one, other) => {
  const [low, high] = [light(one), light(other)].sort((a, b) => a - b);
  return (high + 0.05) / (low + 0.05);
};
const numbers = text => text.match(/[\d.]+/g).map(Number), isWhole = color => color.length === 3 || color[3] === 1;
const behind = element => {
  const colors = [];
  for (let up = element; up; up = up.parentElement) {
    const style = getComputedStyle(up), color = numbers(style.backgroundColor);
    colors.push(...(style.backgroundImage.match(/rgba?\([^)]*\)/g) || []).map(numbers).filter(isWhole));
    if (isWhole(color)) return [...colors, color];
  }
  return colors;
};
let count = 0;
const low = [];
const isText = element => element.getClientRects().length && !element.closest("script, style, .hidden")
  && (element.matches("input, select") || [...element.childNodes].some(node => node.nodeType === 3 && node.data.trim()));
const look = (element, state) => {
  if (!isText(element)) return;
  const style = getComputedStyle(element), colors = [numbers(style.color)];
  if (element.placeholder) colors.push(numbers(getComputedStyle(element, "::placeholder").color));
  count++;
  for (const color of colors)
    for (const back of behind(element))
      if (ratio(color, back) < LEAST || Number(style.opacity) < 1)
        low.push([state, element.id || element.className, element.textContent.slice(0, 20), ratio(color, back)]);
};
// A bar has no text, and is told from what lies behind it by its own colour.
const isBar = element => element.matches("#bars > div") && element.getClientRects().length > 0;
const lookAtBar = bar => {
  const color = numbers(getComputedStyle(bar).backgroundColor);
  for (const back of behind(bar.parentElement))
    if (ratio(color, back) < LEAST) low.push(["bar", bar.title, ratio(color, back)]);
};

// The rules that hold at this width and in this scheme, as they are written; those of a state once more for a class.
const STATES = /:(hover|focus-visible|focus|active)\b/g;
const rules = [], all = [], extra = new CSSStyleSheet();
const gather = list => {
  for (const rule of list) {
    if (rule.media) { if (matchMedia(rule.media.mediaText).matches) gather(rule.cssRules); }
    else if (rule.selectorText) {
      const text = rule.selectorText.replace(STATES, ".in-$1");
      if (text !== rule.selectorText) extra.insertRule(`${text} { ${rule.style.cssText} }`, extra.cssRules.length);
      const {color, background, backgroundColor, opacity} = rule.style;
      if (color || background || backgroundColor || opacity) rules.push(rule);
    }
  }
};
for (const sheet of document.styleSheets) gather(sheet.cssRules);
document.adoptedStyleSheets = [extra];
document.querySelectorAll("body *").forEach(element => look(element, ""));
const had = [];
for (const {selectorText} of rules)
  for (const selector of selectorText.split(/,\s*/)) {
    // What has no text: the marks of edges, and the canvas.
    if (/::after|^:root|^::placeholder|\.edge/.test(selector)) continue;
    all.push(selector);
    const states = [...selector.matchAll(STATES)].map(([, state]) => `in-${state}`);
    const found = [...document.querySelectorAll(selector.replace(STATES, ""))];
    let texts = 0;
    for (const element of found) {
      const parts = [element, ...element.querySelectorAll("*")].filter(isText);
      texts += parts.length + isBar(element);
      if (isBar(element)) lookAtBar(element);
      element.classList.add(...states);
      parts.forEach(part => look(part, selector));
      element.classList.remove(...states);
    }
    if (texts) had.push(selector);
  }
document.adoptedStyleSheets = [];

const {icicle} = view, {graph} = icicle, step = Math.max(1, Math.floor(graph.count / 3000));
const rgb = color => [1, 3, 5].map(at => parseInt(color.slice(at, at + 2), 16)), kept = icicle.matched;
for (const matched of [null, Uint8Array.from({length: graph.count + 1}, (_, k) => k % 2)]) {
  icicle.matched = matched;
  for (let node = 0; node <= graph.count; node += step) {
    const {box, text} = icicle.lookOf(node);
    count++;
    if (ratio(rgb(box), rgb(text)) < LEAST) low.push(["graph", graph.label(node), ratio(rgb(box), rgb(text))]);
  }
}
icicle.matched = kept;
return [count, low.slice(0, 8), all, had];
""".replace("LEAST", str(LEAST))

# What is opened, so that each kind of text is seen: source, search, filters, the way to a node, a message, and a table
# without rows (of a procedure that is inlined alone).
OPENED = """
view.setSource(true);
view.setGraph("scope");
view.grid.hotPath(0);
view.setSearch(profile.procedures[0]);
view.setFilters([{what: "focus", kind: "procedure", of: view.procedure}]);
view.icicle.zoom(view.icicle.graph.first[view.icicle.graph.count]);
view.icicle.hover(view.icicle.root);
document.getElementById("problem").hidden = document.getElementById("causes").hidden = false;
document.getElementById("problem").textContent = document.getElementById("causes").textContent = "words";
"""
EMPTY = """
view.setSearch("");
view.setFilters([]);
const inlined = profile.procedures.findIndex((_, of) => !procedureGroups(view.samples).has(of));
if (inlined < 0) return false;
view.procedure = inlined;
view.setTable("sandwich");
return !!document.querySelector(".note");
"""


# The heads that a table cuts off at its right, whichever column it is sorted by.
CUT = """
const {right} = document.getElementById("grid").getBoundingClientRect(), cut = [];
for (const kind of Object.keys(TABLES)) {
  view.setTable(kind);
  for (const column of view.grid.columns) {
    view.grid.sortBy(column, true);
    for (const head of document.querySelectorAll("#head button"))
      if (head.getBoundingClientRect().right > right + 1) cut.push([kind, column, head.textContent]);
  }
}
return cut;
"""


def look_at_contrasts(window, name, page, rules):
    """`rules` gathers the rules with colours, and whether some text had each."""
    for scheme in (browser.LIGHT, browser.DARK):
        for size in (browser.DESKTOP, browser.TABLET, browser.PHONE):
            window.open(page, size, scheme)
            window.run(OPENED)
            looks = [window.run(CONTRASTS)]
            if window.run(EMPTY):
                looks.append(window.run(CONTRASTS))
            for count, low, selectors, had in looks:
                same(f"{name}: contrasts below {LEAST}, {scheme}, {size}", low, [])
                if count < 30:
                    complain(f"{name}: only {count} texts were looked at")
                for selector in selectors:
                    rules[scheme, selector] = rules.get((scheme, selector), False) or selector in had
            wide = window.run("return document.documentElement.scrollWidth - innerWidth;")
            same(f"{name}: wider than the screen, {size}", wide > 0, False)
            if scheme == browser.LIGHT:
                same(f"{name}: heads that are cut off, {size}", window.run(CUT), [])


def look_at_rules(rules):
    """Each rule with a colour was met by some text of some page, in both schemes."""
    missed = sorted(rule for rule, was_had in rules.items() if not was_had)
    same("rules of the style sheet that no text had", missed, [])
    if len(rules) < 40:
        complain(f"only {len(rules)} rules with colours were found")
