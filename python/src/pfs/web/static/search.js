// The search that runs. Its best order so far comes with each answer, so that little is lost when the server goes away.
import {ask, change, say, settled, state} from "./desk.js";
import {changed, isRead, planOf, planned, searched, searching, shopOf} from "./document.js";
import {tr} from "./german.js";

// Milliseconds for which a server that doesn't answer is asked again, and between two questions.
const PATIENCE = 120_000, PACE = 300;
const pause = time => new Promise(done => setTimeout(done, time));
const update = more => change(now => searching(now, now.search && {...now.search, ...more}));
let isStarting = false;

export async function search(seconds) {
  if (isStarting || state.search) return;
  isStarting = true;
  try { await settled(); } finally { isStarting = false; }
  if (!shopOf(state)) return;
  const plan = planOf(state), own = {name: "", isBegun: false, digest: state.read.digest, plan, seed: state.doc.seed,
    order: plan && plan.order, held: plan ? plan.held : 0, least: 0, limit: seconds, left: seconds, told: null};
  change(now => searching(changed(now, {seed: now.doc.seed + 1}), own));
  await follow();
}
// Follows the search to its end, also one that was begun before the page was loaded again.
export async function follow() {
  for (let failedSince = 0; state.search;) {
    const own = state.search;
    try {
      if (isRead(state) && state.read.digest !== own.digest) {
        take({});
        if (own.name) await ask(`search/${own.name}`, null, {method: "DELETE"});
        return;
      }
      if (!own.name) {
        // Of a table that was typed and not read, nothing can be asked.
        if (isRead(state)) update({isBegun: true, name: (await ask("search", planned(state, {order: own.order,
          held: own.held, seconds: own.left, seed: own.seed}))).search});
        else await pause(PACE);
        continue;
      }
      const told = await ask(`search/${own.name}`);
      if (failedSince) say("");
      failedSince = 0;
      if (state.search !== own) continue;
      const {order = own.order, least = own.least} = told, before = own.limit - own.left;
      update({order, least, told: {...told, seconds: before + told.seconds, limit: own.limit}});
      if (told.state !== "done") { await pause(PACE); continue; }
      await settled();
      take({order, least});
      if (told.isCut || own.isOld && !told.isOptimal && told.seconds < own.left - 1)
        say(tr("The search was ended after {seconds} of {limit} s, as nobody asked for it.",
               {seconds: Math.round(before + told.seconds), limit: own.limit}));
    } catch (error) {
      if (!state.search) return;
      failedSince ||= Date.now();
      if (error.status === 404) {
        // The server was started again: it goes on from the best order so far.
        const left = Math.ceil(own.limit - (own.told ? own.told.seconds : 0));
        if (left > 0 && state.search === own) update({name: "", left});
        else if (left <= 0) take(own);
      } else if (error.isPassing && own.isBegun && Date.now() - failedSince < PATIENCE) {
        say(`${error.message} ${tr("It is asked again.")}`);
        await pause(1000);
      } else {
        take(own);
        throw error;
      }
    }
  }
}
// Ends the search with what it has found.
function take(found) {
  change(now => now.search ? searching(searched(now, now.search, found), null) : now);
}
export async function enough() {
  const {name, told} = state.search, isWaiting = told?.place > 0;
  if (isWaiting || !name) take({});
  try { if (name) await ask(`search/${name}`, null, {method: "DELETE"}); } catch (error) {
    if (state.search) take(state.search);
    throw error;
  }
}
// Those who leave the page end the search. Its result is kept for them for some minutes.
window.addEventListener("pagehide", () => state.search?.name && ask(`search/${state.search.name}`, null,
  {method: "DELETE", keepalive: true}).catch(() => null));
