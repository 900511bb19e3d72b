// Colours of the graph: a procedure has one hue everywhere, and what is written on it has a contrast of 7 or more.

const isDark = matchMedia("(prefers-color-scheme: dark)");
const colors = new Map();
const PLACE = -3, LEAST_CONTRAST = 7.1;
const colorKey = (scope, operand) =>
  scope === ROOT ? -1 - operand : scope === PROC ? 2 * operand : scope === INLINE ? 2 * operand + 1 : PLACE;

function hueOf(name) {
  let hash = 2166136261;
  for (let i = 0; i < name.length; i++) hash = Math.imul(hash ^ name.charCodeAt(i), 16777619);
  // Names that are alike get hues that are not.
  hash = Math.imul(hash ^ hash >>> 16, 0x85ebca6b);
  hash = Math.imul(hash ^ hash >>> 13, 0xc2b2ae35);
  return ((hash ^ hash >>> 16) >>> 0) % 360;
}

const themeColor = name => getComputedStyle(document.documentElement).getPropertyValue(`--${name}`).trim();

// Red, green and blue, 0 to 255, of #rrggbb.
const parts = color => [1, 3, 5].map(at => parseInt(color.slice(at, at + 2), 16));
const hex = rgb => "#" + rgb.map(part => Math.round(part).toString(16).padStart(2, "0")).join("");
const mixed = (color, other, much) => hex(parts(color).map((part, k) => part * (1 - much) + parts(other)[k] * much));

// Relative luminance and contrast, as WCAG 2 defines them.
function luminance(color) {
  const linear = c => c <= 0.04045 ? c / 12.92 : ((c + 0.055) / 1.055) ** 2.4;
  const [r, g, b] = parts(color).map(part => linear(part / 255));
  return 0.2126 * r + 0.7152 * g + 0.0722 * b;
}
function contrast(one, other) {
  const [low, high] = [luminance(one), luminance(other)].sort((a, b) => a - b);
  return (high + 0.05) / (low + 0.05);
}

function fromHsl(hue, saturation, lightness) {
  const a = saturation * Math.min(lightness, 1 - lightness);
  const part = n => { const k = (n + hue / 30) % 12; return lightness - a * Math.max(-1, Math.min(k - 3, 9 - k, 1)); };
  return hex([part(0), part(8), part(4)].map(c => 255 * c));
}

// A colour of this hue on which the page's ink can be read.
function readableColor(hue, saturation, lightness, step) {
  const ink = themeColor("ink");
  let color = fromHsl(hue, saturation, lightness);
  while (contrast(color, ink) < LEAST_CONTRAST && lightness > 0.05 && lightness < 0.97)
    color = fromHsl(hue, saturation, lightness += step);
  return color;
}

// Of a comparison: red where a share of the total was added, blue where one was saved, the more the stronger.
function changeColor(part) {
  const dark = isDark.matches, strength = Math.min(1, Math.sqrt(Math.abs(part)) * 2), hue = part > 0 ? 8 : 215;
  return dark ? readableColor(hue, 0.1 + 0.5 * strength, 0.24 + 0.1 * strength, -0.01)
    : readableColor(hue, 0.15 + 0.75 * strength, 0.93 - 0.13 * strength, 0.01);
}

function colorOf(key) {
  const cached = colors.get(key);
  if (cached) return cached;
  const dark = isDark.matches;
  const fixed = dark ? {[-1]: "#343c47", [-2]: "#55400f", [PLACE]: "#262d36"}
    : {[-1]: "#d5dbe2", [-2]: "#f3d18b", [PLACE]: "#e9edf1"};
  const isInlined = key & 1, hue = key < 0 ? 0 : hueOf(profile.procedures[key >> 1]);
  const color = fixed[key] || (dark ? readableColor(hue, isInlined ? 0.24 : 0.36, isInlined ? 0.25 : 0.31, -0.01)
    : readableColor(hue, isInlined ? 0.48 : 0.58, isInlined ? 0.87 : 0.79, 0.01));
  colors.set(key, color);
  return color;
}
