export const byId = id => document.getElementById(id);
// An element with a text, and its properties.
export function made(kind, text, parent, properties) {
  const element = Object.assign(document.createElement(kind), properties);
  if (text !== null) element.textContent = text;
  if (parent) parent.append(element);
  return element;
}
// A control, with a label for those who don't see it, and a key by which it gets the focus again.
export function control(kind, key, label, parent, properties) {
  const element = made(kind, null, parent, {title: label, ariaLabel: label, ...properties});
  element.dataset.key = key;
  return element;
}
// A row of a table. The cells after the first one have this class.
export function rowOf(cells, parent, kind = "td", className = "") {
  const row = made("tr", null, parent);
  cells.forEach((cell, at) => made(kind, cell, row, {className: at ? className : ""}));
  return row;
}
// The height of a row, and how many rows are drawn: a third of them before those that are seen.
const HIGH = 32, DRAWN = 36;
export let isDrawing = false;
// A list of many rows in a box, of which only those that are seen are drawn: `draw` makes a row. `head` makes the head.
export function listIn(box, draw, head) {
  const table = made("table", null, box), top = made("thead", null, table), body = made("tbody", null, table);
  let count, from;
  const space = rows => made("tr", null, null, {style: `height: ${rows * HIGH}px`});
  function focusOn(key) {
    const found = box.querySelector(`[data-key="${CSS.escape(key)}"]`);
    if (found) found.focus({preventScroll: true});
    return found;
  }
  function update(isNew) {
    const first = Math.max(0, Math.floor(box.scrollTop / HIGH) - DRAWN / 3), last = Math.min(count, first + DRAWN);
    if (!isNew && first === from) return;
    const own = document.activeElement, key = box.contains(own) ? own.dataset.key : undefined;
    const [typed, start, end] = own.type === "text" ? [own.value, own.selectionStart, own.selectionEnd] : [];
    // A field that loses the focus tells its change.
    if (key !== undefined && !isNew) own.blur();
    from = first;
    const rows = Array.from({length: last - first}, (_, at) => draw(first + at));
    rows.forEach((row, at) => { row.ariaRowIndex = first + at + 1; });
    isDrawing = true;
    body.replaceChildren(space(first), ...rows, space(count - last));
    const found = key !== undefined && focusOn(key);
    // What is being written while a change before it is read again.
    if (found && found.type === "text") Object.assign(found, {value: typed, selectionStart: start, selectionEnd: end});
    isDrawing = false;
  }
  box.addEventListener("scroll", () => update(false));
  return {
    show(rows) {
      box.hidden = !rows;
      count = table.ariaRowCount = rows;
      top.replaceChildren(...head && rows ? [head()] : []);
      update(true);
    },
    // Scrolls to a row, and gives the focus to what has this key.
    reach(at, key) {
      const y = at * HIGH, last = box.scrollTop + box.clientHeight - 3 * HIGH;
      if (y < box.scrollTop || y > last) box.scrollTop = y - box.clientHeight / 3;
      update(false);
      return focusOn(key);
    },
  };
}
// The name of a cell, as spreadsheets have it.
export function letters(column) {
  let text = "";
  for (; column; column = Math.floor((column - 1) / 26)) text = String.fromCharCode(65 + (column - 1) % 26) + text;
  return text;
}
