// Draws the plan, and changes it.
import {ask, change, changing, doing, settled, state, trouble} from "./desk.js";
import {aboutPlan, changed, held, isRead, isShown, keptNow, moved, movedFirst, planForgotten, planKept, planOf,
        planShown, planned, restPlanned, shopOf, toldOf} from "./document.js";
import {tr} from "./german.js";
import {byId, control, listIn, made, rowOf} from "./lists.js";

let told = null, drawn = [], focus = null;

// Nothing is shown of another table. It stays for a moment, so that the page doesn't flicker while the server reads.
export function drawResult() {
  const [two, three] = [byId("two"), byId("three")], isLate = Boolean(trouble());
  two.classList.toggle("unread", !isRead(state));
  three.classList.toggle("unread", !toldOf(state));
  const isKnown = isRead(state) || !state.doc.typed;
  if (isKnown || isLate) two.hidden = !shopOf(state);
  three.hidden = isLate ? !isShown(state) : isKnown ? !planOf(state) || !state.shown : three.hidden;
  three.ariaBusy = !isShown(state);
  for (const name of ["begin", "shifts", "days", "closed"]) byId(name).value = state.doc.calendar[name];
  byId("title").value = state.doc.title;
  told = toldOf(state);
  if (!told) return;
  byId("now").value = nowOf(state);
  if (told !== drawn[0]) drawTold();
  if (told !== drawn[0] || state.doc.plan !== drawn[1]) order.show(told.jobs.length);
  if (told !== drawn[0] || state.doc.kept !== drawn[2] && isShown(state)) drawPlans();
  drawn = [told, state.doc.plan, state.doc.kept];
  if (focus && isShown(state)) {
    order.reach(state.doc.plan.order.indexOf(focus.job), focus.key);
    focus = null;
  }
}
function nowOf(now) {
  const {end, jobs} = toldOf(now);
  return now.doc.now || end && jobs[0][1].replace(" ", "T").slice(0, 16);
}
// How the jobs of a plan differ from those of its table.
function differing(plan) {
  return [[plan.gone, tr("left out, as the table lacks them:")], [plan.other, tr("with other times:")],
    [plan.new, tr("new, and inserted where they are best:")], [plan.done, tr("finished and left out:")]]
    .filter(([names]) => names?.length)
    .map(([names, text]) => `${text} ${names.slice(0, 20).join(", ")}${names.length > 20 ? ", .." : ""}`);
}
function drawTold() {
  byId("ends").textContent = [told.makespan + (told.end && `, ${tr("finished")} ${told.end}`), told.isOptimal
    ? tr("optimal: no order is shorter") : tr("at most {above} % above the shortest: no order is below {bound}", told),
    ...told.claimed ? [tr("by the file, no order is below {claimed}", told)] : [], ...differing(told),
    ...told.done && !told.done.length ? [tr("nothing is finished by then")] : [],
    ...told.isOther ? [tr("what was proved is of another table")] : []].join("; ");
  // A frame of its own for each chart: one that was hidden stays blank in Chromium.
  const frame = byId("chart").cloneNode();
  frame.srcdoc = told.chart;
  byId("chart").replaceWith(frame);
  byId("machines").replaceChildren(rowOf([...told.heads, tr("down until")], null, "th"));
  for (const each of told.machines) {
    const row = rowOf(each, byId("machines"), "td", "number"), [name] = each;
    row.className = name === told.bottleneck ? "best" : "";
    control("input", name, `${name}: ${tr("down until")}`, made("td", null, row), {type: "datetime-local",
      value: Object.hasOwn(state.doc.down, name) ? state.doc.down[name] : "", onchange:
        changing((now, value) => changed(now, {down: {...now.doc.down, [name]: value}}))});
  }
}
const order = listIn(byId("order"), at => {
  const [job, start, end] = told.jobs[at], row = made("tr", null, null, {draggable: true});
  const isHeld = state.doc.plan.order.indexOf(job) < state.doc.plan.held;
  row.className = isHeld ? "held" : "";
  const add = (kind, key, label, properties, cell = made("td", null, row)) =>
    control(kind, `${job}:${key}`, `${job}: ${label}`, cell, properties);
  add("input", "hold", tr("hold up to here"), {type: "checkbox", checked: isHeld, onchange:
    changing((now, _, isOn) => held(now, job, isOn))});
  add("input", "place", tr("place"), {type: "number", value: at + 1, min: 1, max: told.jobs.length, onchange:
    doing(event => { if (!move("place", job, () => Number(event.target.value) - 1)) order.show(told.jobs.length); })});
  made("td", job, row, {className: "name", title: `${job}: ${start} .. ${end}`});
  made("td", start, row, {className: "number start"});
  made("td", end, row, {className: "number"});
  const buttons = made("td", null, row), place = now => now.doc.plan.order.indexOf(job);
  for (const [textContent, key, act, label] of [
      ["\u2191", "up", () => move("up", job, now => place(now) - 1), tr("earlier")],
      ["\u2193", "down", () => move("down", job, now => place(now) + 1), tr("later")],
      ["\u21c8", "first", () => { focus = {job, key: `${job}:first`}; change(now => movedFirst(now, job)); },
       tr("first after what is held, and hold it")]])
    add("button", key, label, {textContent, onclick: doing(act)}, buttons);
  row.ondragstart = event => event.dataTransfer.setData("text/x-job", job);
  row.ondragover = event => { event.preventDefault(); row.classList.add("over"); };
  row.ondragleave = () => row.classList.remove("over");
  row.ondrop = doing(event => {
    event.preventDefault();
    row.classList.remove("over");
    const from = event.dataTransfer.getData("text/x-job");
    if (from) move("", from, place);
  });
  return row;
});
// Moves a job to a place, and says whether it has moved. Its control gets the focus when the order is drawn.
function move(key, job, to) {
  const before = state;
  change(now => planOf(now) ? moved(now, job, to(now)) : now);
  focus = state === before || !key ? null : {job, key: `${job}:${key}`};
  return state !== before;
}
for (const button of document.querySelectorAll("[data-kind]")) button.onclick = doing(async () => {
  await settled();
  if (!isShown(state)) return;
  const {kind} = button.dataset;
  download(await ask("file", planned(state, {kind})), kind);
});
export function download(content, kind) {
  const stem = (state.doc.title || "plan").replace(/[^\p{L}\p{N} _-]/gu, "-").slice(0, 80);
  const href = URL.createObjectURL(content);
  made("a", null, null, {href, download: `${stem}.${kind}`}).click();
  setTimeout(() => URL.revokeObjectURL(href), 60_000);
}

// What is left of the plan
byId("now").onchange = changing((now, value) => changed(now, {now: value}));
byId("rest").onclick = doing(async () => {
  await settled();
  if (!isShown(state)) return;
  const of = aboutPlan(state), {machines} = shopOf(state);
  const down = Object.fromEntries(Object.entries(state.doc.down)
    .filter(([name, until]) => until && machines.includes(name)));
  const found = await ask("rest", planned(state, {at: nowOf(state), down}));
  change(now => restPlanned(now, of, found));
});

// Plans side by side
byId("keep").onclick = doing(async () => {
  await settled();
  change(now => planKept(now, now.doc.title || tr("Plan {number}", {number: now.doc.kept.length + 1})));
});
let kept = [];
const moves = listIn(byId("moves"), at => {
  const [job, , end] = told.jobs[at], row = rowOf([job, end]);
  for (const {now} of kept) made("td", Object.hasOwn(now.ends, job) ? now.ends[job] : "", row,
                                 {className: now.moved.includes(job) ? "moved" : ""});
  return row;
}, () => rowOf([tr("job ends"), tr("shown"), ...kept.map(({plan}) => plan.title)], null, "th"));
function drawPlans() {
  const all = keptNow(state);
  kept = all.filter(({now}) => now);
  const least = Math.min(...kept.map(({now}) => now.span));
  byId("compared").hidden = !all.length;
  moves.show(kept.length ? told.jobs.length : 0);
  byId("plans").replaceChildren(...all.length ? [rowOf(["plan", "makespan", "finished", "jobs that move", "", ""]
    .map(text => tr(text)), null, "th")] : []);
  all.forEach(({plan, now, other}, at) => {
    // A plan without any job of this table isn't compared.
    const row = rowOf(now ? [plan.title, now.makespan, now.end, now.moved.length, differing({...now, other}).join("; ")]
      : [plan.title, tr("of another table"), "", "", ""], byId("plans"));
    row.className = now && now.span === least ? "best" : "";
    const cell = made("td", null, row);
    made("button", tr("Show"), cell, {onclick: doing(() => change(before => planShown(before, plan)))});
    control("button", `${at},forget`, `${tr("forget this plan")}: ${plan.title}`, cell, {textContent: "\u2715",
      onclick: doing(() => change(before => planForgotten(before, plan)))});
  });
}
