// A page that shows any moment of a run. All that is shown is of the answers of bin/replay; the page computes nothing of a machine.
import { element, find } from "/connection.js";
import { TimeLine } from "/replay_line.js";
import { Panels, hex } from "/replay_panels.js";

const BEFORE = "before";

// address is that of the first row of storage; null until it is known. asked is the word that is framed there
const state = { event: 0, unit: 0, user: 0, address: null, asked: null, since: BEFORE, moment: null };
let about = null, line = null, panels = null;

async function get(path, words = {}, signal = undefined) {
  const answer = await fetch(`${path}?${new URLSearchParams(words)}`, { signal });
  if (!answer.ok) throw new Error(await answer.text());
  return answer.json();
}

const KEYS_SAID = find("found").textContent;

function say(text, isBusy = false) {
  find("found").textContent = text;
  find("found").classList.toggle("is-said", text !== KEYS_SAID);
  find("found").classList.toggle("is-busy", isBusy);
}

function fail(error) {
  say(error instanceof TypeError ? "bin/replay does not answer: was it ended?" : String(error.message || error));
}

const nameOf = (user) => about.users[user].name;
const here = () => ({ event: state.event, unit: state.unit, user: nameOf(state.user) });

// --- going ---

// what was asked for and is not done yet, in order
const wishes = [];
let isAsking = false;

/** Does what is wished after all that was wished before. Of places on the way of a drag only the last one is kept. */
async function wish(act, isDragged = false) {
  if (isDragged && wishes.at(-1)?.isDragged) wishes.pop();
  wishes.push({ act, isDragged });
  if (isAsking) return;
  isAsking = true;
  while (wishes.length) {
    try {
      await wishes.shift().act();
    } catch (error) { fail(error); }
  }
  isAsking = false;
}

/** Shows a moment. Words say which, and what they do not say is as it is then. */
async function ask(words, isKept = false) {
  const place = state.address === null ? {} : { address: hex(state.address) };
  take(await get("/data/moment", { ...here(), ...place, ...words }), isKept);
}

/** A message is about where it was given: the next step has the keys there again. */
function leave() {
  if (!searching && find("found").textContent !== KEYS_SAID) say(KEYS_SAID);
}

/** What the last unit or event before it has changed is marked. */
function goTo(event, unit = 0, isKept = true) {
  wish(() => { leave(); return ask({ event, unit, since: BEFORE }, isKept); }, !isKept);
}

function go(way) {
  if (way === "first") goTo(0);
  else if (way === "last") goTo(about.events);
  else wish(() => { leave(); return ask({ go: way }); });
}

/** Shows the same moment with this change of what is looked at. */
function look(change) {
  wish(() => { change(); leave(); return ask({ since: state.since }); });
}

function showAt(address) {
  look(() => frame(address));
}

/** Has the word at an address framed, with some rows above it; B and F search for its changes then. */
function frame(address) {
  state.asked = address & ~3;
  state.address = Math.max(0, (address & ~15) - 64);
  find("what").value = "word";
  find("of").value = hex(state.asked);
}

/** Shows what is at an address that was typed, and leads the keys to the word there. */
function showTyped() {
  wish(async () => {
    frame(addressOf(find("address").value));
    leave();
    find("address").blur();
    await ask({ since: state.since });
    find("words").querySelector(".asked")?.focus();
  });
}

/** An address, and the label of the source that is there or before it. */
function placeOf(address) {
  const near = panels.labelOf(address);
  return near ? `${near} (${hex(address)})` : hex(address);
}

/** The address that hexadecimal digits name, or a label of the source, also with a number as the source has it, TABLE+12; else why there is none. */
function addressOf(text) {
  const word = text.trim().toUpperCase(), [, label, decimal, digits] = /^([^+]*)\+(?:(\d+)|X'([0-9A-F]+)')$/.exec(word) ?? [, word];
  const more = decimal ? Number(decimal) : digits ? parseInt(digits, 16) : 0;
  const at = Object.entries(about.labels).find(([one]) => one.toUpperCase() === label)?.[1], address = at !== undefined ? at + more : /^[0-9A-F]{1,6}$/.test(word) ? parseInt(word, 16) : undefined;
  const { name, pages } = about.users[state.user], labels = Object.keys(about.labels).length ? ", nor a label of the source" : "";
  if (!word) throw new Error("no address is given");
  if (address === undefined) throw new Error(`${word} is no hexadecimal address${labels}`);
  if (address >= pages * 4096) throw new Error(`${hex(address)} is past the storage of ${name}, whose last byte is at ${hex(pages * 4096 - 1)}`);
  return address;
}

function keepBookmark(isKept) {
  const place = `#${new URLSearchParams({ ...here(), address: hex(state.address), since: state.since })}`;
  if (place === location.hash) return;
  if (isKept) history.pushState(null, "", place);
  else history.replaceState(null, "", place);
}

function readBookmark() {
  const words = new URLSearchParams(location.hash.slice(1)), address = parseInt(words.get("address"), 16);
  // without a bookmark it begins at the end, from which searches go back
  state.event = words.has("event") ? Number(words.get("event")) || 0 : about.events;
  state.unit = Number(words.get("unit")) || 0;
  state.user = Math.max(0, about.users.findIndex((user) => user.name === words.get("user")));
  state.address = address >= 0 ? address : null;
  state.since = /^\d+\.\d+$/.test(words.get("since")) ? words.get("since") : BEFORE;
}

// --- searching ---

// the last thing that was looked for and where that has led; what ends the search that somebody waits for
let searched = "", searching = null;
// the address of the instruction that has made the change that was found, and of those that were passed over
let maker = null, passed = [];

const TELL_EACH = 500;
const NAMES = {
  psw: (of) => `the instruction at ${placeOf(parseInt(of, 16))}`,
  word: (of) => `a change of ${placeOf(parseInt(of, 16))}`,
  gpr: (of) => `a change of G${of}`,
};
const momentsOf = (units) => `${units.toLocaleString("en")} ${units === 1 ? "moment" : "moments"}`;
const took = (found) => `${momentsOf(found.units)} in ${found.seconds} s`;

/** What is looked for: its number, or else why there is none. */
function wantedOf(what) {
  const text = find("of").value.trim().toUpperCase();
  if (what !== "gpr") return hex(addressOf(text));
  const [, register] = /^[GR]?(\d|1[0-5])$/.exec(text) ?? [];
  if (register === undefined) throw new Error(`${text || "that"} is no register: G0 to G15`);
  return register;
}

function search(way) {
  wish(() => {
    const what = find("what").value, of = wantedOf(what), words = { ...here(), what, of, way };
    // asked again where it has led, it goes on
    if (`${state.event}.${state.unit} ${what} ${of}` === searched) words.strict = 1;
    passed = [];
    // keys go on while it looks
    seek(words).catch(fail);
  });
}

/** Goes on back, to a change that another instruction has made than those that were found. */
function searchOther() {
  wish(() => {
    const [moment, what, of] = searched.split(" ");
    if (maker === null || moment !== `${state.event}.${state.unit}`) throw new Error("first look for a change that an instruction has made");
    passed = [...new Set([...passed, maker])];
    seek({ ...here(), what, of, way: "back", strict: 1, passed: passed.map((at) => hex(at)).join(",") }).catch(fail);
  });
}

async function seek(words) {
  const { what, of } = words, others = words.passed ? " by another instruction" : "", name = `${NAMES[what](of)}${others}`;
  const found = await lookedFor(words, `looking ${words.way} for ${name}`);
  if (!found) return;
  let text = "";
  maker = null;
  if (found.event !== undefined) {
    await shown(found, what, of);
    const values = what === "psw" ? "" : `: ${found.old || "nothing"} became ${found.new || "nothing"}${causeOf(state.moment)}`;
    text = `${name}${values}, at event ${found.event}, unit ${found.unit} (${took(found)})`;
    searched = `${found.event}.${found.unit} ${what} ${of}`;
    maker = what === "psw" ? null : state.moment.done?.address ?? null;
  }
  say(text || `${found.late ? "not found in a minute" : "no such moment"}: ${name} (${took(found)})`);
  const isChecked = found.unsure === undefined || await check(words, found, text, name);
  if (isChecked && maker !== null) offerOther();
}

/** Shows the moment that was found, after all that was wished before. */
function shown(found, what, of) {
  return new Promise((done) => wish(async () => {
    try {
      if (what === "word") frame(parseInt(of, 16));
      await ask({ event: found.event, unit: found.unit, since: what === "psw" ? `${state.event}.${state.unit}` : BEFORE }, true);
    } finally { done(); }
  }));
}

/** What has made the change that was found: an instruction, an interruption, a typed line or a device. */
function causeOf({ done, interruption, last }) {
  if (!done) return ` by ${interruption || last.slice(0, 60)}`;
  const text = (done.source || `${done.name} ${done.operands}`).trim().replace(/\s+/g, " ");
  return ` by ${text} at ${hex(done.address)}${interruption ? `, ${interruption}` : ""}`;
}

function offerOther() {
  const made = element("button", "small", "by another instruction?");
  made.type = "button";
  made.title = "O: the last change before, by another instruction";
  made.addEventListener("click", searchOther);
  find("found").append(" ", made);
}

/** Has the program look for something, and says how far that is; the answer, or null if it was stopped. */
async function lookedFor(words, text) {
  const mine = new AbortController();
  searching?.abort();
  searching = mine;
  find("stop").hidden = false;
  say(`${text} ...`, true);
  const teller = setInterval(() => tell(mine, text).catch(() => {}), TELL_EACH);
  try {
    return await get("/data/search", words, mine.signal);
  } catch (error) {
    if (mine.signal.aborted) return null;
    throw error;
  } finally {
    clearInterval(teller);
    if (mine === searching) endSearch();
  }
}

async function tell(mine, text) {
  const { units, event } = await get("/data/progress");
  if (mine === searching && units) say(`${text}: ${momentsOf(units)} so far, now at event ${event} of ${about.events}`, true);
}

function endSearch() {
  searching = null;
  find("stop").hidden = true;
}

/** Ends what somebody waits for. */
async function stop() {
  wishes.length = 0;
  if (!searching) return;
  searching.abort();
  endSearch();
  say("stopped");
  const { units } = await get("/data/stop");
  if (!searching && units !== undefined) say(`stopped after ${momentsOf(units)}`);
}

/** Looks at all units since what comparing states has found, in case of a change that was undone; whether that came to its end. */
async function check(words, found, before, name) {
  const later = await lookedFor({ ...words, after: found.unsure }, `${before ? `${before}; ` : ""}checking that no later change was undone`);
  if (!later) return false;
  if (later.event === undefined) {
    const none = before ? `${before}; no later change was undone` : `no such moment: ${name}`;
    say(later.late ? `${before || name}: not all was looked at in a minute` : `${none} (${took(later)})`);
    return true;
  }
  say(before ? `${before}; later ` : "");
  const text = `${name} at event ${later.event}, unit ${later.unit}: ${later.old} became ${later.new}${before ? ", which was undone" : ""}`;
  const made = element("button", "small", text);
  made.type = "button";
  made.addEventListener("click", () => goTo(later.event, later.unit));
  find("found").append(made);
  return true;
}

function searchBack(what, of) {
  find("what").value = what;
  find("of").value = of;
  search("back");
}

// --- showing ---

function take(moment, isKept) {
  Object.assign(state, { event: moment.event, unit: moment.unit, since: moment.since, moment });
  state.address ??= moment.storage[0][0];
  find("of").value ||= hex(moment.psw.address);
  keepBookmark(isKept);
  show();
}

function show() {
  const { moment } = state, { next } = moment;
  const units = moment.unit ? `, unit ${moment.unit} of ${next.units}` : "";
  const following = next ? `, next: ${next.text.slice(0, 60)}${next.dealt ? " (dealt by AUTO)" : ""}` : ", the end";
  find("where").textContent = `event ${moment.event} of ${about.events}${units}${following}${moment.when ? `, ${moment.when} UTC` : ""}`;
  showTime(moment);
  panels.show(moment, state.user, state.asked);
  const first = moment.storage[0][0], isAskedShown = state.asked >= first && state.asked < first + 16 * moment.storage.length;
  if (document.activeElement !== find("address")) find("address").value = hex(state.asked !== null && isAskedShown ? state.asked : first);
}

function showTime({ event, unit, next }) {
  const units = next?.units ?? 0;
  line.at(event, units ? unit / units : 0, state.user);
  find("line").setAttribute("aria-valuemax", about.events);
  find("line").setAttribute("aria-valuenow", event);
  find("line").setAttribute("aria-valuetext", find("where").textContent);
  find("within").classList.toggle("none", !units);
  find("units").max = units;
  find("units").value = unit;
  find("unit-text").textContent = units ? `${unit} of ${units.toLocaleString("en")}` : "";
  find("units-label").textContent = units ? `Units of ${next.user}'s run` : "";
}

// --- users, keys ---

function choose(user, address = state.address) {
  look(() => showUser(user, address));
}

function showUser(user, address) {
  state.user = user;
  state.address = address;
  [...find("people").children].forEach((tab, place) => {
    tab.setAttribute("aria-selected", String(place === user));
    tab.tabIndex = place === user ? 0 : -1;
    if (place === user) tab.scrollIntoView({ block: "nearest" });
  });
}

function openBookmark() {
  look(() => { readBookmark(); showUser(state.user, state.address); });
}

function addUsers() {
  about.users.forEach((user, place) => {
    const tab = element("button", "", user.name);
    tab.type = "button";
    tab.setAttribute("role", "tab");
    tab.addEventListener("click", () => choose(place));
    find("people").append(tab);
  });
  find("people").addEventListener("keydown", (event) => {
    const way = { ArrowDown: 1, ArrowUp: -1 }[event.key];
    if (!way) return;
    const to = (state.user + way + about.users.length) % about.users.length;
    choose(to);
    find("people").children[to].focus();
    event.preventDefault();
  });
}

function shade(isDark) {
  document.documentElement.classList.toggle("dark", isDark);
  find("shade").textContent = isDark ? "Light" : "Dark";
  if (state.moment) show();
}

const KEYS = { ArrowRight: "unit+", ArrowLeft: "unit-", "Shift+ArrowRight": "own+", "Shift+ArrowLeft": "own-", PageDown: "event+", PageUp: "event-", Home: "first", End: "last" };
const ACTS = {
  a: () => { find("address").focus(); find("address").select(); },
  b: () => search("back"),
  f: () => search("forward"),
  o: () => searchOther(),
  "[": () => turnOver(-1),
  "]": () => turnOver(1),
  "+": () => line.zoom(0.7, state.event),
  "-": () => line.zoom(1.4, state.event),
};

function press(event) {
  if (event.key === "Escape") stop().catch(fail);
  if (event.ctrlKey || event.altKey || event.metaKey || /^(INPUT|SELECT|TEXTAREA)$/.test(event.target.tagName)) return;
  const way = KEYS[(event.shiftKey && event.key.startsWith("Arrow") ? "Shift+" : "") + event.key], act = ACTS[event.key];
  if (!way && !act) return;
  event.preventDefault();
  // a key that is held goes as far as answers come, and no farther
  if (event.repeat && isAsking) return;
  if (way) go(way);
  else act();
}

/** Shows the rows of storage before or after these. */
function turnOver(way) {
  look(() => {
    const { size, storage } = state.moment, room = 16 * storage.length;
    state.address = Math.max(0, Math.min(size - room, (storage[0][0] + way * room) & ~15));
  });
}

function listen() {
  document.addEventListener("keydown", press);
  for (const one of document.querySelectorAll("[data-go]")) one.addEventListener("click", () => go(one.dataset.go));
  find("search").addEventListener("submit", (event) => { event.preventDefault(); search("forward"); });
  document.querySelector("[data-way=back]").addEventListener("click", () => search("back"));
  find("at").addEventListener("submit", (event) => {
    event.preventDefault();
    showTyped();
  });
  find("up").addEventListener("click", () => turnOver(-1));
  find("down").addEventListener("click", () => turnOver(1));
  find("units").addEventListener("input", () => goTo(state.event, Number(find("units").value), false));
  find("shade").addEventListener("click", () => shade(!document.documentElement.classList.contains("dark")));
  find("bookmark").addEventListener("click", copyBookmark);
  find("stop").addEventListener("click", () => stop().catch(fail));
  window.addEventListener("popstate", openBookmark);
  window.addEventListener("resize", () => { if (state.moment) show(); });
}

async function copyBookmark() {
  try {
    await navigator.clipboard.writeText(location.href);
    say(`copied: ${location.hash}`);
  } catch { say(`the browser does not let it be copied: ${location.href}`); }
}

async function begin() {
  about = await get("/data/run", {});
  document.title = `${about.title}: replay`;
  const pointed = (event, isDragged) => { if (event !== state.event || state.unit) goTo(event, 0, !isDragged); };
  const fetched = (from, to, columns) => get("/data/line", { from, to, columns });
  line = new TimeLine(find("line"), about, fetched, pointed);
  panels = new Panels(about, { choose, goTo, searchBack, showAt });
  addUsers();
  listen();
  shade(matchMedia("(prefers-color-scheme: dark)").matches);
  openBookmark();
}

begin().catch(fail);
