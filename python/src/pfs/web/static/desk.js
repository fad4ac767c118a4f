// The state of the page, and the server. Each change of the state is drawn, kept in the tab, and asks the server for
// what is then missing. What can't be asked now is asked again.
import {FIRST, isSame, toFile, wish} from "./document.js";
import {fault, language, tr} from "./german.js";

export const token = location.hash.slice(1) || sessionStorage.getItem("token") || "";
sessionStorage.setItem("token", token);
history.replaceState(null, "", location.pathname);
// Bytes of a file, and seconds between two trials.
export const MOST = 6e6, TOO_LARGE = tr("The table is too large: 6 MB are the most."), LONGEST_WAIT = 15;
export let state = {...FIRST, language}, isTooLarge = false, message = "";
let draw = () => {}, drawing = 0, now = null, waiting = [];

// A request that failed. It may be sent again if the server wasn't reached, or has no time.
export class Failed extends Error {
  constructor(text, status) {
    super(text);
    this.status = status;
    this.isPassing = status === 0 || status >= 500 && status !== 500;
  }
}
export async function ask(path, body, {method = body ? "POST" : "GET", ...more} = {}) {
  const headers = {"X-Pfs-Token": token, ...(body && {"Content-Type": "application/json"})};
  let answer, content;
  try {
    answer = await fetch(`api/${path}`, {method, headers, body: body && JSON.stringify(body), ...more});
    const isJson = (answer.headers.get("Content-Type") || "").startsWith("application/json");
    content = isJson ? await answer.json() : answer.ok && path === "file" ? await answer.blob() : null;
  } catch { throw new Failed(tr("The server doesn't answer."), 0); }
  if (answer.ok && content !== null) return content;
  if (answer.status === 413) throw new Failed(TOO_LARGE, 413);
  // What isn't of this server is of a proxy before it.
  throw content ? new Failed(fault(content.error), answer.status) : new Failed(tr("The server is being restarted."), 0);
}

export function start(drawn) { draw = drawn; change(each => each); }
export function say(text) { message = text; drawSoon(); }
// What a control does. What goes wrong is shown.
export function doing(action) {
  return async (...given) => { say(""); try { await action(...given); } catch (error) { say(error.message); } };
}
// Draws soon: a field that loses the focus changes the state while the next one gets it.
function drawSoon() { drawing ||= setTimeout(() => { drawing = 0; draw(); }); }
export function change(step) {
  const before = state;
  state = step(state);
  keep();
  drawSoon();
  work();
}
// What a field does when its value changes: a step that gets the value, and whether it is ticked.
export const changing = step => ({target: {value, checked}}) => change(now => step(now, value, checked));
// Why the server hasn't said what is missing.
export const trouble = () => now && now.trouble;
function work() {
  const next = wish(state);
  if (next && now && isSame(next.of, now.next.of) && next.path === now.next.path) return;
  now?.controller.abort();
  clearTimeout(now?.timer);
  now = next && {next, controller: new AbortController(), trouble: null, timer: 0, tries: 0};
  if (now) send(now);
  else for (const {done} of waiting.splice(0)) done();
}
async function send(own) {
  const {next} = own;
  let found;
  try { found = await ask(next.path, next.body, {signal: own.controller.signal}); } catch (error) {
    if (own !== now) return;
    if (!(error instanceof Failed)) throw error;
    own.trouble = error;
    for (const {fail} of waiting.splice(0)) fail(error);
    if (error.isPassing) own.timer = setTimeout(send, 1000 * Math.min(LONGEST_WAIT, 2 ** own.tries++), own);
    else if (next.drop) { say(error.message); change(next.drop); }
    drawSoon();
    return;
  }
  if (own !== now) return;
  now = null;
  change(before => next.take(before, found));
}
function sendAgain() {
  clearTimeout(now.timer);
  now.trouble = null;
  send(now);
}
// Waits until the server has said all that is missing. It fails as soon as the server does. What failed is asked anew.
export function settled() {
  if (!now) return Promise.resolve();
  if (now.trouble) sendAgain();
  return new Promise((done, fail) => waiting.push({done, fail}));
}
window.addEventListener("online", () => { if (now?.trouble?.isPassing) sendAgain(); });

// The document survives a reload, with one step back, and the name of a search that runs.
function put(name, text) {
  try { sessionStorage.setItem(name, text); return true; } catch { sessionStorage.removeItem(name); return false; }
}
const kept = {};
function keep() {
  const {doc, before, search} = state;
  if (doc !== kept.doc) isTooLarge = !put("document", toFile(doc));
  if (before !== kept.before || isTooLarge)
    put("before", before && !isTooLarge ? JSON.stringify({...before, doc: toFile(before.doc)}) : "");
  if (search !== kept.search) put("search", search ? JSON.stringify({...search, plan: null, order: null}) : "");
  Object.assign(kept, {doc, before, search});
}
