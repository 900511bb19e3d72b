// Focus and hide: buttons for the selected row, and the filters that are on, each with a button that takes it off.

class Filters {
  constructor() {
    this.list = document.getElementById("filters");
    for (const what of ["focus", "hide"])
      for (const kind of ["procedure", "file"])
        document.getElementById(`${what}-${kind}`).onclick = () => this.add(what, kind);
  }

  add(what, kind) {
    const of = view.selected[kind];
    const isThere = view.shown.filters.some(filter => filterText(filter) === filterText({what, kind, of}));
    if (of >= 0 && !isThere) view.setFilters([...view.shown.filters, {what, kind, of}]);
  }

  show() {
    const {filters} = view.shown;
    this.list.hidden = !filters.length;
    this.list.replaceChildren(...filters.map((filter, place) => {
      const button = document.createElement("button"), {what, kind, of} = filter;
      const name = kind === "procedure" ? profile.procedures[of] : profile.files[of];
      button.type = "button";
      const short = shortened(kind === "file" ? profile.shortFile(of) : name, 30);
      button.textContent = `${what === "focus" ? "Focus" : "Hidden"}: ${short} ✕`;
      button.title = name;
      button.setAttribute("aria-label", `${what === "focus" ? "focus on" : "hidden"} ${kind} ${name}: take off`);
      button.onclick = () => {
        view.setFilters(filters.filter((_, k) => k !== place));
        (this.list.querySelector("button") || view.grid.element).focus();
      };
      return button;
    }));
  }
}

// The file of a node: that of its line, or for a procedure of the first line in it.
function fileOf(node) {
  const {lineFile, sameFile, scope, end} = profile;
  const at = scope[node] >= CALL ? node : node + 1 < end[node] ? node + 1 : node;
  return lineFile[at] < 0 ? -1 : sameFile[lineFile[at]];
}
