// Random steps of the document of the page, with a server that is a function and answers late, in another order or
// never: what is shown and sent is of the table as it is typed, and each step does what it says, and nothing in place.
const [seed, count, done] = arguments;
let number = seed, earlier = [], state, pending = [], saved = [];
const digests = new Map(), proved = new Map(), claimed = new Map();
const random = most => {
  number = (number * 1103515245 + 12345) % 2147483648;
  return Math.floor(number / 65536) % most;
};
const pick = list => list[random(list.length)], text = value => JSON.stringify(value), seen = {shown: 0};
const check = (isTrue, what) => { if (!isTrue) throw new Error(what); };
const same = (one, other, what) => check(text(one) === text(other), `${what}: ${text(one)} ${text(other)}`);
const add = (bounds, digest, bound) => bounds.set(digest, (bounds.get(digest) || new Set([0])).add(bound));

// The server
function shopOf(rows, {machines, jobs, unit}) {
  const [[, head]] = rows, job = jobs ? head.indexOf(jobs) : 0, names = rows.slice(1).map(([, row]) => row[job]);
  const own = machines.length ? machines : head.slice(job + 1), columns = own.map(each => head.indexOf(each));
  const times = rows.slice(1).map(([, row]) => columns.map(at => row[at]));
  const isTable = job >= 0 && names.length && new Set(names).size === names.length && columns.length
    && !columns.includes(-1) && times.flat().every(each => /^\d+$/.test(each || ""));
  return isTable ? {jobs: names, machines: own, unit, times} : null;
}
function read(rows, options) {
  const shop = shopOf(rows, options), key = text(shop);
  if (shop && !digests.has(key)) digests.set(key, `d${digests.size}`);
  return shop ? {faults: [], more: 0, suggested: [], shop, digest: digests.get(key)}
    : {faults: [{line: 1, column: 0, text: "x"}], more: 0, suggested: []};
}
function answer({path, body}) {
  if (path === "read" && body.content) {
    const rows = JSON.parse(body.content);
    return {rows, delimiter: ",", texts: null, sheets: [], sheet: null, ...read(rows, body.options)};
  }
  if (path === "read") return read(body.rows, body.options);
  const {shop, digest, order, held, least, kept} = body;
  same(digest, digests.get(text(shop)), "a plan of another table is asked");
  check(least === 0 || proved.get(digest)?.has(least), "a bound that wasn't proved of this table is sent");
  check(body.claimed === 0 || claimed.get(digest)?.has(body.claimed), "a bound that no file claims is sent");
  same(kept.map(each => each.order), state.doc.kept.map(each => each.order), "kept orders");
  same(kept.map(each => "calendar" in each), state.doc.kept.map(each => each.digest === digest), "kept dates");
  check(order.every(job => shop.jobs.includes(job)), "an order of another table");
  check(held >= 0 && held <= order.length, "held");
  const jobs = [...order, ...shop.jobs.filter(job => !order.includes(job))];
  return {digest, jobs: jobs.map(job => [job, "0", "1", shop.times[shop.jobs.indexOf(job)].join().length]),
          isOther: false, kept: kept.map(() => null), title: body.title, calendar: body.calendar};
}

// What a planner does, and what comes of it
const {default: none, ...d} = await import("/static/document.js");
state = d.FIRST;
const file = () => text([[1, ["job", "no", "a", "b"]], ...Array.from({length: 2 + random(4)}, (_, at) =>
  [3 * at + 2 + random(3), [`J${random(9)}${at}`, `${10 + at}`, `${random(9)}`, `${random(9)}`]])]);
const typed = () => state.doc.typed, plan = () => d.planOf(state), line = () => pick(typed().rows.slice(1))?.[0];
const cell = (rows, at, column) => rows.find(row => row[0] === at)?.[1][column - 1];
const others = (rows, at, column) => text(rows.map(([line, row]) => [line, row.filter((_, place) =>
  line !== at || place !== column - 1)]));
const steps = {
  open: () => [d.openingOf(state, file(), "f")],
  edit: () => {
    const at = line(), column = 1 + random(4), name = `${column > 1 ? "" : "E"}${random(99)}`;
    const value = column > 2 ? pick([..."012345678x"]) : name;
    const before = typed(), old = cell(before.rows, at, column), isJob = column === (before.jobs ? 2 : 1);
    return [d.cellTyped(state, at, column, value), next => {
      if (at === undefined || old === value) return check(next === state, "nothing is typed");
      same(cell(next.doc.typed.rows, at, column), value, "the cell");
      same(others(next.doc.typed.rows, at, column), others(before.rows, at, column), "other cells");
      same(next.doc.plan?.order, state.doc.plan?.order.map(job => isJob && job === old ? value : job),
           "a job that has another name keeps its place");
    }];
  },
  out: () => { const at = line(); return [d.rowLeft(state, at), next =>
    same(next.doc.typed.rows, typed().rows.filter(row => row[0] !== at), "the row is left out")]; },
  add: () => [d.rowAdded(state, "new"), next => same(next.doc.typed.rows.slice(0, -1), typed().rows, "other rows")],
  choose: () => {
    const name = pick(["a", "b"]), isOn = random(2) > 0, before = d.machinesOf(typed());
    return [d.machineChosen(state, name, isOn), next => same(
      [...next.doc.typed.machines].sort(), ["a", "b", ...typed().jobs ? [] : ["no"]].filter(each =>
        each === name ? isOn : before.includes(each)).sort(), "the machines")];
  },
  earlier: () => {
    const all = d.machinesOf(typed()), at = all.indexOf("b");
    return [d.machineEarlier(state, "b"), next =>
      same(d.machinesOf(next.doc.typed).indexOf("b"), at > 0 ? at - 1 : at, "one place earlier")];
  },
  jobs: () => [d.typedAs(state, "options chosen", {jobs: pick(["", "no"]), machines: ["a", "b"]})],
  unit: () => [d.typedAs(state, "options chosen", {unit: pick(["", "h"])})],
  back: () => state.before ? [d.undone(state), next => {
    same({...next.doc, proved: 0}, {...state.before.doc, proved: 0}, "the document before");
    same({...next.before.doc}, state.doc, "and forward again");
    for (const [digest, bound] of Object.entries(state.doc.proved))
      same(next.doc.proved[digest], bound, "stays proved");
  }] : [state],
  search: () => d.shopOf(state) && !state.search ? [d.searching(state, {digest: state.read.digest, plan: plan(),
    held: plan()?.held || 0, jobs: state.read.shop.jobs})] : [state],
  found: () => {
    const own = state.search, least = 1 + random(50), order = own && [...own.jobs].reverse();
    if (!own) return [state];
    add(proved, own.digest, least);
    const isHere = d.isRead(state) && state.read.digest === own.digest, isMoved = state.doc.plan !== own.plan;
    return [d.searching(d.searched(state, own, {order, least}), null), next => {
      same(next.doc.proved[own.digest], Math.max(least, state.doc.proved[own.digest] || 0), "what was proved stays");
      same(next.doc.plan, isHere ? {digest: own.digest, order, held: own.held} : state.doc.plan, "the order");
      check(!isHere || !isMoved || next.before.doc.plan === state.doc.plan, "a plan that was changed comes back");
    }];
  },
  hold: () => { const job = pick(plan()?.order || [""]), isOn = random(2) > 0; return [d.held(state, job, isOn), next =>
    check(!plan() || (next.doc.plan.held > next.doc.plan.order.indexOf(job)) === isOn, "held up to the job")]; },
  move: () => { const job = pick(plan()?.order || [""]), to = random(6) - 1; return [d.moved(state, job, to), next => {
    if (!plan() || to < 0 || to >= plan().order.length) return check(next === state, "no such place");
    same(next.doc.plan.order.indexOf(job), to, "its place");
    same(next.doc.plan.order.filter(each => each !== job), plan().order.filter(each => each !== job), "the others");
  }]; },
  first: () => { const job = pick(plan()?.order || [""]); return [d.movedFirst(state, job), next => {
    if (!plan()) return;
    const {order, held} = plan(), isHeld = order.indexOf(job) < held;
    same(next.doc.plan.held, held + !isHeld, "it is held");
    same(next.doc.plan.order.slice(0, held), order.slice(0, held), "what is held stays");
    check(next.doc.plan.order.indexOf(job) < next.doc.plan.held, "it is first");
  }]; },
  keep: () => [d.planKept(state, `K${random(99)}`), next => { if (next !== state) {
    const {digest, order, held} = plan(), own = next.doc.kept.at(-1);
    same([own.typed, own.digest, own.order, own.held, own.calendar], [typed(), digest, order, held, state.doc.calendar],
         "it is kept as it is");
    check(next.doc.kept.length === state.doc.kept.length + 1, "beside the others");
  } }],
  show: () => { const own = pick(state.doc.kept); return own ? [d.planShown(state, own), next => {
    same([next.doc.plan.order, next.doc.plan.held, next.doc.calendar], [own.order, own.held, own.calendar], "its plan");
    same(read(next.doc.typed.rows, next.doc.typed).digest, own.digest, "its table");
  }] : [state]; },
  forget: () => { const own = pick(state.doc.kept); return own ? [d.planForgotten(state, own), next =>
    same(next.doc.kept, state.doc.kept.filter(each => each !== own), "the others stay")] : [state]; },
  // The server's rest comes when other things have happened since.
  rest: () => { if (!d.isShown(state)) return [state];
    const of = random(2) ? earlier : d.aboutPlan(state), {rows} = typed();
    const left = rows.filter((_, at) => at !== 1 || rows.length < 3), isLate = !d.isSame(of, d.aboutPlan(state));
    earlier = d.aboutPlan(state);
    if (random(3)) return [state];
    const order = left.slice(1).map(([, row]) => row[0]);
    const found = {rows: left, delimiter: ",", order, held: 1, done: [], begin: "b",
                   ...read(left, {machines: [], jobs: "", unit: ""})};
    return [d.restPlanned(state, of, found), next => {
      if (isLate) return check(next === state, "the rest of another plan is taken");
      same([next.doc.typed.rows, next.doc.plan.order, next.doc.plan.held, next.doc.calendar.begin, next.doc.down],
           [left, found.order, 1, "b", {}], "the rest");
    }];
  },
  dates: () => [d.changed(state, {calendar: {...state.doc.calendar, begin: pick(["", "2026-11-30T06:00"])},
                                  title: pick(["", "T"]), down: pick([{}, {a: "2026-12-01T10:00"}])})],
  save: () => { if (typed()) saved = [...saved.slice(-3), d.toFile(state.doc)]; return [state]; },
  load: () => {
    const own = saved.length && d.fromFile(pick(saved));
    return own ? [d.documentOpened(state, own), next => {
    same({...next.doc, proved: 0, claimed: 0}, {...own, proved: 0, claimed: 0}, "what was saved");
    same(next.doc.proved, state.doc.proved, "nothing more is proved");
    for (const [digest, bound] of Object.entries(next.doc.claimed)) add(claimed, digest, bound);
    same(Object.keys(next.doc.claimed).sort(), Object.keys({...own.proved, ...own.claimed}).sort(), "claims");
  }] : [state]; },
  reload: () => [{...d.FIRST, doc: d.fromFile(d.toFile(state.doc)), before: state.before}],
  ask: () => { const wish = d.wish(state); if (wish) pending = [...pending.slice(-2), wish]; return [state]; },
  // An answer may come when something else is asked by then: the page drops it, and nothing of it is taken.
  answer: () => {
    const [own] = pending.splice(random(pending.length || 1), 1);
    if (!own) return [state];
    const isLate = own.path === "plan" ? !d.isSame(own.of, state.doc.plan ? d.aboutPlan(state) : [])
      : !own.body.content && own.of[0] !== typed();
    return isLate ? [own.take(state, {jobs: [], shop: {jobs: []}, digest: "late"}), next =>
      check(next === state, "a late answer is taken")] : [own.take(state, answer(own))];
  },
};
const often = {ask: 60, answer: 60, search: 9, found: 9, edit: 4, move: 3, keep: 3, show: 2, load: 2, rest: 6};
const names = Object.keys(steps).flatMap(name => Array(often[name] || 1).fill(name));
let at = 0, name = "";
try {
  for (; at < count; ++at) {
    name = pick(names);
    if (!typed() && !["open", "ask", "answer", "load", "back"].includes(name)) continue;
    if (state.doc.kept.length > 3) state = d.planForgotten(state, state.doc.kept[0]);
    const was = state, before = text(was.doc), plan = was.doc.plan, [next, due] = steps[name]();
    same(text(was.doc), before, "changed in place");
    if (due) due(next);
    state = next;
    const own = typed() ? read(typed().rows, typed()).digest : undefined, told = d.toldOf(state);
    const here = d.planOf(state), title = state.doc.title || typed()?.name;
    if (d.shopOf(state)) same(state.read.digest, own, "the shop is of another table");
    if (told) { seen.shown += 1; same(told.digest, own, "a plan of another table is shown"); }
    if (d.isShown(state)) same([told.jobs.map(([job]) => job), told.calendar, told.title],
                               [here.order, state.doc.calendar, title], "another plan is shown");
    // Where the table has changed, the held jobs that are left are held.
    if (here && plan && here.digest !== plan.digest && name === "answer")
      same(here.order.slice(0, here.held),
           plan.order.slice(0, plan.held).filter(job => here.order.includes(job)), "held");
    same(d.fromFile(d.toFile(state.doc)), state.doc, "a file");
    if (random(40)) continue;
    let end = state, asked = 0;
    for (let wish; (wish = d.wish(end)); state = end = wish.take(end, answer(wish)))
      check(++asked < 5, "asks for ever");
    check(!d.shopOf(end) || !end.doc.plan || d.isShown(end), "a plan stays unknown");
  }
  done(seen.shown > count / 20 ? "" : text(seen));
} catch (error) { done(`seed ${seed}, step ${at}, ${name}: ${error.message}`); }
