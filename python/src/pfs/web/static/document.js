// The document of a planner, and what is known of it: pure functions from a state to the next one, without the browser.
//
// A state has the document (`doc`, which is saved), the one before the last step (`before`), and what was said of it:
// `read` of its table, `shown` of its plan, the file that is `opening` and the `search` that runs. No object is ever
// changed. So what was said belongs to what it was said of, if it has that very object (`read.typed === doc.typed`),
// or, where it is saved, the digest of its table, which the server computes.
export const VERSION = 1, FORM = "pfs-web document", MOST_PROVED = 50;
const TYPED = {name: "", delimiter: ",", rows: [], texts: null, computed: null, machines: [], jobs: "",
               quantity: "", setup: [], unit: "", decimal: "", decimals: "", totals: false};
const DATES = {begin: "", shifts: "", days: "", closed: ""};
// `plan` has a digest, an order and how many of its first jobs are held; `proved` the greatest bounds by digests, and
// `claimed` those of a file, which nobody has proved here; `kept` has plans with their tables.
export const BLANK = {typed: null, plan: null, proved: {}, claimed: {}, kept: [], calendar: DATES, title: "", now: "",
                      down: {}, seed: 0};
export const FIRST = {doc: BLANK, before: null, read: null, shown: null, opening: null, search: null, language: "en"};

// What is known of what is on the screen

export const isRead = ({doc, read}) => doc.typed !== null && read !== null && read.typed === doc.typed;
export const shopOf = state => isRead(state) && state.read.shop || null;
// The plan of the table that was read.
export const planOf = state => shopOf(state) && state.doc.plan && state.doc.plan.digest === state.read.digest
  ? state.doc.plan : null;
export const aboutPlan = ({doc}) => [doc.plan.digest, doc.plan.order, doc.calendar, doc.title, doc.kept];
export const isSame = (some, others) => Boolean(some && others) && some.length === others.length
  && some.every((each, at) => each === others[at]);
// What was said of a plan of this table, also before its last move; and whether it is of the plan as it is.
export const toldOf = state => planOf(state) && state.shown && state.shown.of[0] === state.read.digest
  ? state.shown.told : null;
export const isShown = state => toldOf(state) !== null && isSame(state.shown.of, aboutPlan(state));
const without = (proved, digest) => Object.fromEntries(Object.entries(proved).filter(([each]) => each !== digest));
const boundIn = (bounds, digest) => Object.hasOwn(bounds, digest) ? bounds[digest] : 0;

// What the server has to say next: what it is of, the request, and the step that its answer makes.
export function wish(state) {
  const {doc, opening} = state;
  if (opening) return {path: "read", of: [opening], body: {content: opening.content, name: opening.options.name,
    options: optionsOf(opening.options)}, take: (now, found) => opened(now, opening, found),
    drop: now => ({...now, opening: null})};
  if (!doc.typed) return null;
  if (!isRead(state)) return {path: "read", of: [doc.typed], body: {rows: doc.typed.rows,
    options: optionsOf(doc.typed)}, take: (now, found) => wasRead(now, doc.typed, found)};
  if (!planOf(state) || isShown(state)) return null;
  const of = aboutPlan(state);
  return {path: "plan", of, body: planned(state), take: (now, found) => wasTold(now, of, found)};
}
const optionsOf = ({name, rows, decimals, ...options}) => ({
  ...options, decimals: decimals === "" ? null : Number(decimals)});
// A request about the plan of the table. Of kept plans of another table only the orders are in it.
export function planned(state, more) {
  const {doc, read: {digest}} = state, {order = null, held = 0} = planOf(state) || {};
  return {shop: shopOf(state), digest, order, held, least: boundIn(doc.proved, digest),
          claimed: boundIn(doc.claimed, digest), calendar: doc.calendar, title: doc.title || doc.typed.name,
          language: state.language, kept: doc.kept.map(each => ({order: each.order, held: each.held,
            ...each.digest === digest && {calendar: each.calendar}})), ...more};
}

// Steps that can be taken back

const stepped = (state, what, more) => ({...state, doc: {...state.doc, ...more}, before: {what, doc: state.doc}});
export function undone(state) {
  const {doc, before} = state, proved = {...before.doc.proved, ...doc.proved};
  return {...state, opening: null, doc: {...before.doc, proved}, before: {what: before.what, doc}};
}
export const typedAs = (state, what, more) => state.doc.typed
  ? stepped(state, what, {typed: {...state.doc.typed, ...more}}) : state;
// The row of the names is the first one that has those that were chosen, or more than one name.
export const headOf = ({rows, machines, jobs}) => rows.find(([, row]) => machines.length || jobs
  ? [jobs, ...machines].every(each => !each || row.includes(each)) : row.slice(1).filter(Boolean).length > 1);
// The place of the column of the jobs, and the machines in their order.
export const jobsAt = typed => Math.max(0, typed.jobs && headOf(typed) ? headOf(typed)[1].indexOf(typed.jobs) : 0);
export function machinesOf(typed) {
  const others = [typed.quantity, ...typed.setup.map(each => each.split("=").at(-1))];
  return typed.machines.length ? typed.machines : (headOf(typed)?.[1] || []).slice(jobsAt(typed) + 1)
    .filter(each => each && !others.includes(each));
}
// A machine that is chosen comes after the one before it in the table.
export function machineChosen(state, name, isOn) {
  const {typed} = state.doc, all = machinesOf(typed).filter(each => each !== name), names = headOf(typed)[1];
  const at = 1 + all.indexOf(names.slice(0, names.indexOf(name)).findLast(each => all.includes(each)));
  return typedAs(state, "machines chosen", {machines: isOn ? all.toSpliced(at, 0, name) : all});
}
export function machineEarlier(state, name) {
  const all = machinesOf(state.doc.typed), at = all.indexOf(name);
  return at < 1 ? state : typedAs(state, "machines chosen", {machines: all.with(at, all[at - 1]).with(at - 1, name)});
}
export function cellTyped(state, line, column, text) {
  const {typed, plan} = state.doc, own = typed.rows.find(row => row[0] === line), isJob = column === jobsAt(typed) + 1;
  // The cells of a workbook have a point, whatever its planner types.
  if (typed.texts && !isJob && state.language === "de") text = text.replace(/^(\d+),(\d+)$/, "$1.$2");
  const before = own && (own[1][column - 1] || "");
  if (!own || before === text) return state;
  const cells = Array.from({length: Math.max(column, own[1].length)}, (_, at) => own[1][at] || "");
  cells[column - 1] = text;
  const rows = typed.rows.map(row => row === own ? [line, cells] : row), isHead = own === headOf(typed);
  const renamed = names => names.map(each => each === before ? text : each);
  const next = typedAs(state, "cell changed", {rows, texts: typed.texts && [...typed.texts, [line, column]],
                                       machines: isHead ? renamed(typed.machines) : typed.machines});
  // A job that has another name keeps its place.
  return isHead || !isJob || !plan ? next
    : {...next, doc: {...next.doc, plan: {...plan, order: renamed(plan.order)}}};
}
// The cells without a time of jobs that have others: where a job skips a machine, these have blanks or dashes.
export function skipsOf(state) {
  const {doc: {typed}, read} = state, head = isRead(state) && read.faults.length ? headOf(typed) : null;
  if (!head) return [];
  const isFaulty = (line, column) => read.faults.some(each => each.line === line && each.column === column);
  const own = machinesOf(typed), job = jobsAt(typed);
  const columns = head[1].flatMap((name, at) => own.includes(name) && !isFaulty(head[0], at + 1) ? [at] : []);
  return typed.rows.filter(([line, cells]) => line > head[0] && cells[job] && !isFaulty(line, job + 1)
      && columns.some(at => /^\d/.test(cells[at] || "")))
    .flatMap(([line, cells]) => columns.filter(at => /^[-\u2010-\u2015]?$/.test(cells[at] || ""))
      .map(at => [line, at + 1]));
}
export function skipsFilled(state) {
  const rows = new Map(state.doc.typed.rows.map(([line, cells]) => [line, [...cells]]));
  for (const [line, column] of skipsOf(state)) {
    const cells = rows.get(line);
    while (cells.length < column) cells.push("");
    cells[column - 1] = "0";
  }
  return typedAs(state, "cell changed", {rows: [...rows]});
}
export const rowLeft = (state, line) => typedAs(state, "row changed", {
  rows: state.doc.typed.rows.filter(row => row[0] !== line)});
export function rowAdded(state, name) {
  const {typed} = state.doc, used = (headOf(typed) || [0, [""]])[1], line = (typed.rows.at(-1) || [0])[0] + 1;
  return typedAs(state, "row changed", {rows: [...typed.rows,
    [line, used.map((text, at) => at === jobsAt(typed) ? `${name} ${line}` : text ? "0" : "")]]});
}
// A file has its own options, its own dates and its own plan; shifts and the plans that are kept stay.
export const openingOf = (state, content, name) => ({...state, opening: {content, options: {...TYPED, name}}});
export const sheetOf = (state, sheet) => ({...state, opening: {content: state.read.content,
  options: {...state.doc.typed, machines: [], jobs: "", quantity: "", setup: [], sheet}}});
function opened(state, opening, found) {
  if (state.opening !== opening) return state;
  const {rows, delimiter, texts, computed, sheet, sheets, own = {}} = found, {doc} = state;
  const typed = {...opening.options, ...own.typed, decimals: String(own.typed?.decimals ?? opening.options.decimals),
                 rows, delimiter, texts, computed, sheet};
  const next = stepped(state, "file opened", {...BLANK, typed, proved: doc.proved, claimed: doc.claimed, kept: doc.kept,
    calendar: own.calendar ? {...DATES, ...own.calendar} : {...doc.calendar, begin: ""}});
  return {...next, opening: null, read: {...found, typed, sheets, content: opening.content}};
}
// A saved document takes the place of this one. It is read anew, and what it says is proved is only said by it.
export const documentOpened = (state, doc) => ({...stepped(state, "file opened", {...doc, proved: state.doc.proved,
  claimed: {...doc.proved, ...doc.claimed}}), opening: null});
export function restPlanned(state, of, found) {
  if (!isShown(state) || !isSame(of, aboutPlan(state))) return state;
  const {rows, delimiter, order, held, done, begin, digest = ""} = found, {doc} = state;
  const typed = {...TYPED, name: doc.typed.name, rows, delimiter, totals: true};
  const next = stepped(state, "rest planned", {typed, plan: {digest, order, held, done},
    calendar: {...doc.calendar, begin}, now: "", down: {}});
  return {...next, read: {...found, typed}};
}

// What the server said

function wasRead(state, typed, found) {
  const {doc, read} = state;
  if (typed !== doc.typed) return state;
  const {plan} = doc, {shop, digest} = found;
  const {content, sheets = [], own, hidden} = read?.typed.rows === typed.rows ? read : {};
  const isOther = plan && shop && plan.digest !== digest;
  return {...state, read: {...found, typed, content, sheets, own, hidden},
          doc: isOther ? {...doc, plan: carried(plan, digest, new Set(shop.jobs))} : doc};
}
// A planner's order for another table. What was proved isn't carried.
function carried({order, held = 0, done}, digest, jobs) {
  const [here, gone] = [true, false].map(is => order.filter(each => jobs.has(each) === is));
  const stay = order.slice(0, held).filter(each => jobs.has(each)).length;
  return here.length ? {digest, order: here, held: stay, gone, done} : null;
}
// The order of a file, for this table.
export function orderTaken(state, plan) {
  const found = shopOf(state) && carried(plan, state.read.digest, new Set(shopOf(state).jobs));
  return found ? stepped(state, "order taken", {plan: found}) : state;
}
function wasTold(state, of, found) {
  if (!planOf(state) || !isSame(of, aboutPlan(state))) return state;
  const {doc} = state, {digest, held, gone = [], done} = doc.plan, names = found.jobs.map(([name]) => name);
  const plan = {digest, held, order: isSame(names, doc.plan.order) ? doc.plan.order : names};
  // A bound that can't be is first looked for among those of files.
  const bounds = boundIn(doc.claimed, digest) ? "claimed" : "proved";
  const next = {...state, doc: {...doc, plan, ...found.isOther && {[bounds]: without(doc[bounds], digest)}}};
  return {...next, shown: {of: aboutPlan(next), told: {...found, gone, done}}};
}
export const searching = (state, search) => ({...state, search});
// What a search has found by now: its order is that of the plan only if the table is still the one that is searched,
// and what was proved is true of that table for ever. A plan that was changed meanwhile can be taken back.
export function searched(state, search, {order, least = 0}) {
  const bound = Math.max(boundIn(state.doc.proved, search.digest), least);
  const proved = Object.fromEntries([...Object.entries(without(state.doc.proved, search.digest)),
    [search.digest, bound]].slice(-MOST_PROVED));
  const next = {...state, doc: {...state.doc, proved}};
  if (!order || !isRead(state) || state.read.digest !== search.digest) return next;
  const plan = {digest: search.digest, order, held: search.held};
  return state.doc.plan === search.plan ? {...next, doc: {...next.doc, plan}} : stepped(next, "plan searched", {plan});
}

// The plan

export const changed = (state, more) => ({...state, doc: {...state.doc, ...more}});
const replanned = (state, more) => changed(state, {plan: {...state.doc.plan, ...more}});
export const held = (state, job, isHeld) => {
  const at = planOf(state) ? state.doc.plan.order.indexOf(job) : -1;
  return at < 0 ? state : replanned(state, {held: isHeld ? at + 1 : at});
};
export function moved(state, job, to) {
  const plan = planOf(state), from = plan ? plan.order.indexOf(job) : -1;
  if (from < 0 || !Number.isInteger(to) || to < 0 || to >= plan.order.length) return state;
  const others = plan.order.filter(each => each !== job);
  return replanned(state, {order: [...others.slice(0, to), job, ...others.slice(to)]});
}
export function movedFirst(state, job) {
  const plan = planOf(state), at = plan ? plan.order.indexOf(job) : -1;
  if (at < 0) return state;
  const next = moved(state, job, Math.min(at, plan.held));
  return at < plan.held ? next : replanned(next, {held: plan.held + 1});
}

// Plans side by side

export function planKept(state, title) {
  if (!isShown(state)) return state;
  const {doc, shown: {told}} = state, {digest, order, held} = doc.plan;
  const marks = Object.fromEntries(told.jobs.map(([name, , , mark]) => [name, mark]));
  return changed(state, {kept: [...doc.kept, {title, typed: doc.typed, digest, order, held, calendar: doc.calendar,
                                              marks}]});
}
// The kept plans with what they come to now, and the jobs that have other times than they had.
export const keptNow = ({shown: {of, told}}) => of.at(-1).map((plan, at) => ({plan, now: told.kept[at], other: told.jobs
  .flatMap(([name, , , mark]) => Object.hasOwn(plan.marks, name) && plan.marks[name] !== mark ? [name] : [])}));
export function planShown(state, {typed, digest, order, held, calendar}) {
  const plan = {digest, order, held};
  return isRead(state) && state.read.digest === digest ? changed(state, {plan, calendar})
    : stepped(state, "plan shown", {typed, plan, calendar, now: "", down: {}});
}
export const planForgotten = (state, plan) => changed(state, {kept: state.doc.kept.filter(each => each !== plan)});

// Files

export const toFile = doc => JSON.stringify({form: FORM, version: VERSION, ...doc});
// The form of a file: an example for each value. What an array has is as its first element; null may be anything.
const TEXTS = [""], CELLS = {...TYPED, rows: [[0, TEXTS]], machines: TEXTS, setup: TEXTS};
const PLAN = {digest: "", order: TEXTS, held: 0};
const SHAPE = {...BLANK, typed: CELLS, plan: PLAN, kept: [{...PLAN, title: "", typed: CELLS, calendar: DATES,
                                                           marks: {}}]};
function fits(shape, value) {
  if (shape === null) return true;
  if (Array.isArray(shape)) return Array.isArray(value) && (shape.length === 2 ? value.length === 2
    && shape.every((each, at) => fits(each, value[at])) : value.every(each => fits(shape[0] ?? null, each)));
  if (typeof shape !== "object") return typeof value === typeof shape;
  return value !== null && typeof value === "object" && Object.keys(shape).every(key => fits(shape[key], value[key]));
}
export function fromFile(text) {
  let found;
  try { found = JSON.parse(text); } catch { return null; }
  if (found?.form !== FORM || found.version !== VERSION) return null;
  if (!fits({...SHAPE, typed: found.typed === null ? null : CELLS, plan: found.plan === null ? null : PLAN}, found))
    return null;
  const isName = each => typeof each === "string", isNumber = each => Number.isSafeInteger(each) && each >= 0;
  const numbers = [found.proved, found.claimed, ...found.kept.map(each => each.marks)].flatMap(Object.values);
  if (!Object.values(found.down).every(isName) || !numbers.every(isNumber)) return null;
  return Object.fromEntries(Object.keys(BLANK).map(key => [key, found[key]]));
}
