// Draws the table, and changes it.
import {change, changing, doing, isTooLarge, settled, state, trouble} from "./desk.js";
import {cellTyped, headOf, isRead, jobsAt, machineChosen, machineEarlier, machinesOf, rowAdded, rowLeft, skipsFilled,
        skipsOf, typedAs} from "./document.js";
import {fault, tr} from "./german.js";
import {byId, control, isDrawing, letters, listIn, made, rowOf} from "./lists.js";

// What a row was said to be, by the row itself, so that one that was changed isn't marked before it is read.
const wrong = new WeakMap();
const saidOf = (row, column) => wrong.get(row)?.get(column) || "";
const shown = {typed: null, read: null};
const typed = () => state.doc.typed, cells = listIn(byId("table"), drawRow, drawHead);
const wide = () => Math.max(0, ...typed().rows.map(([, row]) => row.length));

export function drawTable() {
  const {read} = state;
  byId("options").hidden = !typed();
  byId("read").hidden = byId("faults").hidden = !typed();
  if (!typed()) {
    Object.assign(shown, {typed: null, read: null});
    cells.show(0);
    return;
  }
  for (const id of ["read", "faults"]) byId(id).classList.toggle("unread", !isRead(state));
  byId("table").classList.toggle("waits", !isRead(state) && Boolean(trouble()));
  if (isRead(state)) drawNotes(read);
  if (shown.typed === typed() && shown.read === read) return;
  Object.assign(shown, {typed: typed(), read});
  for (const name of ["unit", "decimal", "decimals", "jobs", "quantity", "setup"])
    byId(name).value = [typed()[name]].flat().join(", ");
  byId("columns").replaceChildren(...(headOf(typed())?.[1] || []).filter(Boolean).map(name => new Option("", name)));
  byId("totals").checked = typed().totals;
  if (isRead(state)) drawRead(read);
  cells.show(typed().rows.length);
}
function drawNotes(read) {
  const other = read.isOther ? tr("It isn't in UTF-8 and was read as Windows text: look at its letters.") : "";
  const [rows, columns] = read.hidden || [0, 0], {own} = read;
  const hidden = rows + columns ? tr("hidden rows: {rows}, hidden columns: {columns}, which are read too",
                                     {rows, columns}) : "";
  const used = own?.typed ? tr("the options of its sheet pfs are used") : "";
  const unused = own?.unused?.length ? `${tr("but for these:")} ${own.unused.join(", ")}` : "";
  const large = isTooLarge ? ` ${tr("It is too large to survive a reload of the page.")}` : "";
  byId("read").textContent = [typed().name, read.shop && described(read.shop), fault(read.rounded || ""), hidden, used,
                              unused, other].filter(Boolean).join(": ") + large;
}
function drawRead(read) {
  for (const row of typed().rows) wrong.delete(row);
  for (const {line, column, text} of read.faults) {
    // Of the cells of a kind in a column, the server names the first one.
    const isFirst = / \(and \d+ more cells? of the column\)$/.test(text), job = jobsAt(typed());
    const isWrong = ([at, cells]) => at === line || isFirst && at > line && cells[job]
      && !/^\d+([.,]\d+)?$/.test(cells[column - 1] || "");
    for (const row of typed().rows.filter(isWrong))
      wrong.set(row, new Map([...wrong.get(row) || [], [column, fault(text)]]));
  }
  byId("sheet").replaceChildren(...(read.sheets || []).map(name => new Option(name, name)));
  byId("sheet").value = typed().sheet || "";
  byId("sheet").parentElement.hidden = !read.content || byId("sheet").options.length < 2;
  byId("suggest").hidden = !read.suggested.length || typed().machines.length;
  byId("suggest").textContent = `${tr("The machines are:")} ${read.suggested.join(", ")}`;
  const skips = skipsOf(state);
  byId("skips").hidden = skips.length < 2;
  byId("skips").textContent = tr("0 in these {count} cells", {count: skips.length});
  byId("faults").replaceChildren(...read.faults.map(({line, column, text}) => {
    const item = made("li", null), cell = (column ? letters(column) : `${tr("Row")} `) + line;
    made("button", `${cell}: ${fault(text)}`, item, {onclick: () =>
      cells.reach(typed().rows.findIndex(row => row[0] === line), `${line},${column || 1}`)});
    return item;
  }));
  if (read.more) made("li", tr("and {more} more", read), byId("faults"));
}
export function described({jobs, machines, unit, decimals}) {
  return tr("{jobs} jobs, {machines} machines ({names}), times in {unit}, decimals: {decimals}", {jobs: jobs.length,
    machines: machines.length, names: machines.slice(0, 12).join(", ") + (machines.length > 12 ? ", .." : ""),
    unit: unit || tr("no unit"), decimals});
}
function drawHead() {
  const top = rowOf([""], null, "th"), head = headOf(typed()), all = machinesOf(typed()), job = jobsAt(typed());
  for (let column = 1; column <= wide(); ++column) {
    const cell = made("th", letters(column), top), text = head && head[1][column - 1];
    if (column === job + 1 || !text) continue;
    const place = all.indexOf(text), label = `${text} ${tr("is a machine")}`;
    control("input", `${column},machine`, label, cell, {type: "checkbox", checked: place >= 0, onchange:
      changing((now, _, isOn) => machineChosen(now, text, isOn))});
    if (place > 0) control("button", `${column},earlier`, `${text}: ${tr("earlier")}`, cell, {textContent: "\u2190",
      onclick: doing(() => change(now => machineEarlier(now, text)))});
    if (place >= 0) made("small", place + 1, cell);
  }
  return top;
}
function drawRow(at) {
  const row = typed().rows[at], [line, texts] = row, drawn = made("tr", null), said = saidOf(row, 0);
  const head = headOf(typed()), all = machinesOf(typed()), job = jobsAt(typed());
  const side = made("th", `${line} `, drawn, {title: said, className: said ? "wrong" : ""});
  control("button", `${line},out`, `${tr("leave this row out")}: ${line}`, side, {textContent: "\u2715",
    onclick: doing(() => change(now => rowLeft(now, line)))});
  for (let column = 1; column <= wide(); ++column) {
    const key = `${line},${column}`, title = saidOf(row, column), before = texts[column - 1] || "";
    const name = head && head[1][column - 1], isOff = column !== job + 1 && name && !all.includes(name);
    const td = made("td", null, drawn, {className: title ? "wrong" : isOff ? "off" : ""});
    const commit = doing(() => {
      if (!isDrawing && field.value.trim() !== before) change(now => cellTyped(now, line, column, field.value.trim()));
    });
    const field = control("input", key, letters(column) + line, td, {type: "text", value: before, title,
      ariaInvalid: Boolean(title), onblur: commit, onkeydown: event => { if (event.key === "Enter") commit(); }});
  }
  return drawn;
}
byId("skips").onclick = doing(() => change(skipsFilled));
byId("suggest").onclick = doing(() => change(now => typedAs(now, "machines chosen", {machines: now.read.suggested})));
byId("all").onclick = doing(() => change(now => typedAs(now, "machines chosen", {machines: []})));
byId("add").onclick = doing(async () => {
  change(now => rowAdded(now, tr("new")));
  await settled();
  setTimeout(() => cells.reach(typed().rows.length - 1, `${typed().rows.at(-1)[0]},1`)?.select());
});
