// The page: files, options, dates, and what is drawn when.
import * as desk from "./desk.js";
import * as steps from "./document.js";
import {fault, tr} from "./german.js";
import {byId} from "./lists.js";
import {download, drawResult} from "./result.js";
import {enough, follow, search} from "./search.js";
import {drawTable} from "./table.js";

const {change, changing, doing, say} = desk;
function draw() {
  const {doc, before, search: running} = desk.state, trouble = desk.trouble();
  drawTable();
  drawResult();
  const unread = trouble && doc.typed && !steps.isRead(desk.state) ? tr("The table on this page isn't read yet.") : "";
  const again = trouble?.isPassing ? tr("It is asked again.") : "";
  byId("message").textContent = [trouble ? trouble.message : desk.message, unread, again].filter(Boolean)
    .map(each => each.replace(/\p{L}$/u, unread || again ? "$&." : "$&")).join(" ");
  byId("message").hidden = !byId("message").textContent;
  byId("save").hidden = !doc.typed;
  byId("back").hidden = !before;
  byId("back").textContent = before ? `${tr("Back")}: ${tr(before.what)}` : "";
  drawSearch(running);
}
function drawSearch(running) {
  const was = byId("end").hidden, told = running?.told;
  byId("end").hidden = byId("bar").hidden = !running;
  byId("plan").disabled = Boolean(running);
  byId("bar").value = told ? told.seconds / told.limit : 0;
  byId("progress").textContent = !told ? "" : told.place > 0 ? tr("waits for a processor, place {place}", told)
    : tr("{makespan} so far, no order is below {bound}; {left} s left", {...told,
      left: Math.max(0, Math.ceil(told.limit - told.seconds))});
  if (was !== !running) byId(running ? "end" : "plan").focus();
}

// Files: a table, or a document of this page
const isDocument = file => /\.json$/i.test(file.name);
async function contentOf(file) {
  if (file.size > desk.MOST) throw new Error(desk.TOO_LARGE);
  const reader = new FileReader();
  await new Promise(done => { reader.onloadend = done; reader.readAsDataURL(file); });
  if (reader.error) throw reader.error;
  return reader.result.split("base64,")[1] || "";
}
function documentIn(content) {
  const doc = steps.fromFile(new TextDecoder().decode(Uint8Array.from(atob(content), each => each.charCodeAt(0))));
  if (!doc) throw new Error(tr("This isn't a document that this page has saved."));
  return doc;
}
const take = doing(async file => {
  const content = await contentOf(file);
  document.activeElement.blur();
  const doc = isDocument(file) && documentIn(content);
  change(now => doc ? steps.documentOpened(now, doc) : steps.openingOf(now, content, file.name));
});
byId("from").onchange = doing(async ({target}) => {
  const [file] = target.files, content = await contentOf(file);
  target.value = "";
  await desk.settled();
  const {typed} = desk.state.doc, shop = steps.shopOf(desk.state);
  const plan = isDocument(file) ? documentIn(content).plan : await desk.ask("order", {shop, content});
  const taken = typed === desk.state.doc.typed && plan && steps.orderTaken(desk.state, plan);
  if (!taken || taken === desk.state) throw new Error(tr("No job of the table is in this order."));
  change(() => taken);
});
byId("save").onclick = () => download(new Blob([steps.toFile(desk.state.doc)]), "json");
byId("back").onclick = doing(() => change(steps.undone));
byId("file").onchange = async event => { await take(event.target.files[0]); event.target.value = ""; };
for (const kind of ["dragover", "dragleave", "drop"]) window.addEventListener(kind, event => {
  if (!event.dataTransfer.types.includes("Files")) return;
  event.preventDefault();
  byId("drop").classList.toggle("over", kind === "dragover");
  if (kind === "drop") take(event.dataTransfer.files[0]);
});
window.addEventListener("paste", event => {
  const text = event.clipboardData.getData("text/plain");
  if (text && !/INPUT|TEXTAREA/.test(event.target.tagName)) take(new File([text], tr("pasted")));
});

// Options, dates and the search
for (const each of document.querySelectorAll("#options [id], #dates [id]"))
  each.onchange = changing((now, value, isOn) => each.id === "sheet" ? steps.sheetOf(now, value)
    : each.id in now.doc.calendar ? steps.changed(now, {calendar: {...now.doc.calendar, [each.id]: value}})
      : steps.typedAs(now, "options chosen", {[each.id]: each.id === "totals" ? isOn : each.id !== "setup"
        ? value.trim() : value.split(",").map(name => name.trim()).filter(Boolean)}));
byId("title").onchange = changing((now, value) => steps.changed(now, {title: value}));
byId("plan").onclick = doing(() => search(Number(byId("seconds").value)));
byId("end").onclick = doing(enough);

// What survived a reload: the document, one step back, and a search that ran
function stored(name) { try { return JSON.parse(sessionStorage.getItem(name)); } catch { return null; } }
const doc = steps.fromFile(sessionStorage.getItem("document")), [step, own] = [stored("before"), stored("search")];
const before = doc && step && steps.fromFile(step.doc);
if (doc) change(now => ({...now, doc, before: before && {what: step.what, doc: before},
                         search: own?.name ? {...own, isOld: true, plan: doc.plan} : null}));
desk.start(draw);
if (desk.state.search) doing(follow)();
else if (!desk.token) say(fault("The token is missing or wrong: ask for the whole address of the page."));
// For tests, and for those who look at the page from the browser's console.
window.desk = {get state() { return desk.state; }, change, steps, say, take};
