// The tables: their columns, and what each is about.

const ALL = ["inclusive", "share"], OWN = [...ALL, "exclusive", "exclusive share"];
const TABLES = {
  top: {title: "Top-down", columns: [...ALL, "frame", "exclusive"], make: topDown,
    about: "each procedure below the place that called it"},
  callers: {title: "Callers", columns: OWN, make: callers, about: "each procedure, and below it who called it"},
  callees: {title: "Callees", columns: OWN, make: callees, about: "each procedure, and below it what it calls"},
  sandwich: {title: "Sandwich", columns: OWN, make: samples => sandwich(samples, view.procedure), inOrder: true,
    about: "one procedure, its callers and its callees"},
  flat: {title: "Flat", columns: OWN, make: flat, about: "files, their procedures, and their lines"},
};
const HEADS = {
  inclusive: "Inclusive", share: "%", frame: "Frame", exclusive: "Exclusive", "exclusive share": "%",
  imbalance: "Imbalance", before: "Before", change: "Change",
};
const VALUE = {
  inclusive: "inclusive", share: "inclusive", frame: "frame", exclusive: "exclusive", "exclusive share": "exclusive",
  imbalance: "imbalance", before: "before", change: "change",
};

// A table's columns: of a comparison other ones. Of several harts a row says how unevenly they have its samples.
const columnsOf = kind => profile.before ? [...ALL, "before", "change"]
  : [...TABLES[kind].columns, ...(view.shown.base.harts.length > 1 ? ["imbalance"] : [])];

// A row's value in a column: samples, or for what is compared the event's instructions, or a ratio.
function valueOf(row, column) {
  const name = VALUE[column];
  if (name === "imbalance") return imbalanceOf(row);
  if (name === "before" && row.before === undefined) row.before = covered(row.nodes, view.samples.before);
  return name === "change" ? row.inclusive * view.shown.period - valueOf(row, "before") : row[name];
}

const isRatio = column => column === "imbalance", isCompared = column => column === "before" || column === "change";
// The column that goes first where there is little room.
const isMore = (column, place) => profile.before ? column === "before" : place === 3;
const signed = value => (value > 0 ? "+" : "") + grouped.format(value);

// The whole text of a value.
function textOf(value, column, total) {
  if (column.endsWith("share")) return share(value, total);
  return isRatio(column) ? hundredths(value) : column === "change" ? signed(value)
    : isCompared(column) ? grouped.format(value) : figure(value);
}

// The same of few letters.
function shortText(value, column) {
  if (column === "change") return (value > 0 ? "+" : value < 0 ? "-" : "") + shortValue(Math.abs(value));
  return isCompared(column) ? shortValue(value) : shortFigure(value);
}

// The rows that are unfolded, as lines of words: CSV as RFC 4180 has it, or separated by tabulators for a copy.
function written(rows, columns, total, separator) {
  const quoted = word => separator === "\t" ? word.replace(/[\t\n]/g, " ")
    : /[",\n]/.test(word) ? `"${word.replace(/"/g, '""')}"` : word;
  const head = ["level", "scope", ...columns.map(column => column.endsWith("share") ? `${VALUE[column]} %` : column)];
  const word = (value, column) => column.endsWith("share") || isRatio(column) ? textOf(value, column, total)
    : String(isCompared(column) ? value : value * view.shown.period);
  const lines = rows.map(row =>
    [String(row.level), row.name, ...columns.map(column => word(valueOf(row, column), column))]);
  return [head, ...lines].map(words => words.map(quoted).join(separator)).join("\r\n") + "\r\n";
}
