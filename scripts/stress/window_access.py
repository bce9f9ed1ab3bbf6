"""Rules of accessibility that a script of the page checks, under the names that axe-core has for them (Debian has no package of it, so they are
written anew here, and `reflow` is WCAG's 1.4.10). Each rule looks at what is in sight; what is disabled or inert needs no contrast."""

NAMES = ["html-has-lang", "document-title", "meta-viewport", "landmark-one-main", "page-has-heading-one", "heading-order", "empty-heading", "region", "bypass",
         "button-name", "link-name", "label", "svg-img-alt", "aria-roles", "aria-required-children", "aria-required-parent", "aria-valid-attr-value", "duplicate-id",
         "tabindex", "scrollable-region-focusable", "nested-interactive", "color-contrast", "target-size", "reflow"]

RULES = r"""
const faults = [], all = [...document.querySelectorAll("body *")];
let least = 99, tried = 0;
const modal = document.querySelector("dialog:modal");
const inSight = (it) => it.checkVisibility({ checkOpacity: true, checkVisibilityCSS: true }) && !it.closest("[hidden]") && (!modal || modal.contains(it));
const shown = all.filter(inSight);
const what = (it) => `<${it.tagName.toLowerCase()}${it.id ? "#" + it.id : ""}${it.className && it.className.baseVal === undefined ? "." + it.className : ""}> ${(it.textContent || "").slice(0, 30)}`;
const fault = (rule, it) => faults.push(`${rule}: ${typeof it === "string" ? it : what(it)}`);
const ids = (it, name) => (it.getAttribute(name) || "").split(/\s+/).filter(Boolean);
function nameOf(it) {
  const by = ids(it, "aria-labelledby").map((id) => document.getElementById(id)).filter(Boolean).map((one) => one.textContent).join(" ");
  const label = it.labels && it.labels.length ? [...it.labels].map((one) => one.textContent).join(" ") : "";
  return (by || it.getAttribute("aria-label") || label || (/^(INPUT|SELECT)$/.test(it.tagName) ? "" : it.textContent) || it.title || "").trim();
}

if (!document.documentElement.lang) fault("html-has-lang", "html");
if (!document.title.trim()) fault("document-title", "title");
if (/user-scalable=no|maximum-scale/.test(document.querySelector("meta[name=viewport]").content)) fault("meta-viewport", "viewport");
if (document.querySelectorAll("main").length !== 1) fault("landmark-one-main", "main");
if (document.querySelectorAll("h1").length !== 1) fault("page-has-heading-one", "h1");
let level = 0;
for (const it of shown.filter((one) => /^H[1-6]$/.test(one.tagName))) {
  const now = Number(it.tagName[1]);
  if (!modal && now > level + 1) fault("heading-order", it);
  if (!it.textContent.trim()) fault("empty-heading", it);
  level = now;
}
if (!document.querySelector("a.skip[href='#view']") || !document.getElementById("view")) fault("bypass", "the link to the rows");
for (const it of shown.filter((one) => [...one.childNodes].some((node) => node.nodeType === 3 && node.data.trim())))
  if (!it.closest("main, nav, header, footer, dialog, [role=status], [role=alert], .skip, .alarm")) fault("region", it);

for (const it of shown) {
  tried++;
  if (it.tagName === "BUTTON" && !nameOf(it)) fault("button-name", it);
  if (it.tagName === "A" && !nameOf(it)) fault("link-name", it);
  if (/^(INPUT|SELECT|TEXTAREA)$/.test(it.tagName) && !nameOf(it)) fault("label", it);
  if (it.getAttribute("role") === "img" && !nameOf(it)) fault("svg-img-alt", it);
  if (it.tabIndex > 0) fault("tabindex", it);
  if (/^(BUTTON|A|INPUT|SELECT)$/.test(it.tagName) && it.parentElement.closest("button, a")) fault("nested-interactive", it);
  for (const name of ["aria-labelledby", "aria-describedby", "aria-controls", "aria-activedescendant"])
    for (const id of ids(it, name)) if (!document.getElementById(id)) fault("aria-valid-attr-value", `${name} ${id}`);
}
const seen = new Set();
for (const it of document.querySelectorAll("[id]")) { if (seen.has(it.id)) fault("duplicate-id", it); seen.add(it.id); }

const ROLES = ["alert", "columnheader", "grid", "gridcell", "group", "img", "log", "presentation", "region", "row", "rowgroup", "search", "status", "tab", "tablist", "tabpanel"];
const roleOf = (it) => it.getAttribute("role");
const owned = (it, role) => [...it.querySelectorAll(`[role=${role}]`)].some(inSight);
const PARENT = { row: "[role=rowgroup], [role=grid]", gridcell: "[role=row]", columnheader: "[role=row]", tab: "[role=tablist]", rowgroup: "[role=grid]" };
for (const it of shown.filter(roleOf)) {
  const role = roleOf(it);
  if (!ROLES.includes(role)) fault("aria-roles", it);
  if (role in PARENT && !it.parentElement.closest(PARENT[role])) fault("aria-required-parent", it);
  if (role === "grid" && !owned(it, "row") || role === "tablist" && !owned(it, "tab") || role === "row" && !owned(it, "gridcell") && !owned(it, "columnheader")) fault("aria-required-children", it);
}

for (const it of shown) {
  const style = getComputedStyle(it), scrolls = (axis, inner, outer) => /auto|scroll/.test(axis) && inner > outer + 1;
  if (!scrolls(style.overflowY, it.scrollHeight, it.clientHeight) && !scrolls(style.overflowX, it.scrollWidth, it.clientWidth)) continue;
  const focusable = it.matches("[tabindex], a, button, input, select") || it.querySelector("a, button, input, select, [tabindex='0']") || it.closest("[tabindex='0']");
  if (!focusable) fault("scrollable-region-focusable", it);
}

const channels = (color) => { const it = color.match(/[\d.]+/g).map(Number); return it.length < 4 ? [...it, 1] : it; };
const light = ([r, g, b]) => [r, g, b].map((it) => it / 255).map((it) => (it <= 0.04045 ? it / 12.92 : ((it + 0.055) / 1.055) ** 2.4)).reduce((sum, it, n) => sum + it * [0.2126, 0.7152, 0.0722][n], 0);
function ground(it) {
  for (let at = it; at; at = at.parentElement) {
    const color = channels(getComputedStyle(at).backgroundColor);
    if (color[3] === 1) return color;
    if (color[3] !== 0) return null;
  }
  return channels(getComputedStyle(document.body).backgroundColor);
}
for (const it of shown) {
  if (![...it.childNodes].some((node) => node.nodeType === 3 && node.data.trim()) || it.closest(":disabled") || it.tagName === "OPTION") continue;
  const under = ground(it), style = getComputedStyle(it), over = channels(style.color);
  if (!under) { fault("color-contrast", `${what(it)}: no plain ground`); continue; }
  const [a, b] = [light(over), light(under)].sort((x, y) => y - x), ratio = (a + 0.05) / (b + 0.05);
  const isLarge = parseFloat(style.fontSize) >= 24 || parseFloat(style.fontSize) >= 18.66 && Number(style.fontWeight) >= 700;
  least = Math.min(least, ratio);
  if (ratio < (isLarge ? 3 : 4.5)) fault("color-contrast", `${ratio.toFixed(2)} ${style.color} on ${under}: ${what(it)}`);
}
for (const it of shown.filter((one) => /^(BUTTON|INPUT|SELECT)$/.test(one.tagName) && !one.closest(".bars"))) {
  const box = it.getBoundingClientRect();
  if (box.height < 24 || box.width < 24) fault("target-size", `${Math.round(box.width)} by ${Math.round(box.height)}: ${what(it)}`);
}
if (document.documentElement.scrollWidth > innerWidth) {
  const wide = shown.filter((it) => it.getBoundingClientRect().right > innerWidth + 1 && !it.closest(".panels, .side ul, .grid"))[0];
  fault("reflow", `${document.documentElement.scrollWidth} of ${innerWidth} pixels: ${wide ? what(wide) : ""}`);
}
return { faults, least, tried };
"""
