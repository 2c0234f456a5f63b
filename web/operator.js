// The operator's page: who is on, how things are, where pages are, what happens, and the commands of bin/operator.
import { Connection, addLine, element, find, typing } from "/connection.js";
import { drawn } from "/paper.js";

const MOST_LINES = 2000;
const SECONDS_SHOWN = 120;
const FRAMES_IN_A_ROW = 64;
const MAPPED = /^(FRAMES?|SLOTS?) (\d+)(?:-(\d+))? (\S+)/;
const FREE = /^FREE (FRAMES|SLOTS) (\d+) OF (\d+)/;
const PAGE_INS = /^PAGE INS (\d+)/;
const COLOURS = ["#2f6f8f", "#8a3b12", "#1d6b3a", "#6b3fa0", "#a0792f", "#3f5fa0", "#a03f6b", "#4f7f2f", "#7f4f4f", "#2f7f7f", "#5f5f2f", "#9f5f2f"];

let token = location.hash.slice(1);
// of the last event that was shown: earlier ones are not shown again
let lastTime = 0;
let connection = null;
let before = null;
let looked = null;
let number = 0;
const rates = [];

// a token is not left in the address, nor in the browser's list of pages
history.replaceState(null, "", location.pathname);

const say = (style, text, time = Date.now()) => addLine(find("journal"), style, text, time, MOST_LINES);

const OBEYED = {
  open() {
    find("open").hidden = true;
    document.body.classList.add("is-on");
  },
  happens(message) {
    lastTime = Math.max(lastTime, message.time);
    say("came", message.text, message.time);
  },
  answer: (message) => say("answer", message.text),
  end: (message) => message.how === 1 && say("note", "not done"),
  state: showState,
  frames: showFrames,
  refused(message) {
    // also if the installation has another token since it was started again
    if (message.what === "open" || !document.body.classList.contains("is-on")) {
      document.body.classList.remove("is-on");
      connection.end();
      connection = null;
      find("open").hidden = false;
      find("link").hidden = false;
      find("link").textContent = message.why;
    } else say("note", message.why);
  },
};

function open() {
  connection = new Connection("/operator/socket", () => ({ is: "open", token, since: lastTime }), (message) => OBEYED[message.is]?.(message), (isThere, seconds) => {
    find("link").hidden = isThere;
    find("link").textContent = isThere ? "" : `no connection; the next try is in ${seconds} s`;
  });
}

const send = (message) => connection?.send({ ...message, token }) ?? false;

function command(text) {
  if (!text.trim()) return false;
  number += 1;
  if (!send({ is: "command", text, number })) return false;
  say("typed", text);
  return true;
}

find("open").addEventListener("submit", (event) => {
  event.preventDefault();
  token = find("token").value.trim();
  find("token").value = "";
  open();
});
typing(find("typing"), find("line"), command);
for (const button of document.querySelectorAll("[data-command]")) button.addEventListener("click", () => command(button.dataset.command));
for (const button of document.querySelectorAll("[data-fill]")) {
  button.addEventListener("click", () => {
    find("line").value = button.dataset.fill;
    find("line").focus();
  });
}

// --- who is on ---

function showState(state) {
  const rows = state.users.map(userRow);
  find("users").tBodies[0].replaceChildren(...rows);
  const on = state.users.filter((user) => user.on).length;
  find("who").textContent = `operator: ${on} on, ${state.strangers} about to log on`;
  const figures = [["Machines", state.busy ? "somebody computes" : "all wait"], ["Session", `since ${state.begun} UTC`],
    ["Recording", `${state.lines.toLocaleString()} lines, ${(state.size / 1048576).toFixed(1)} MB; ${state.free.toLocaleString()} MB free`],
    ["Memory", `command ${state.command} MB, program ${state.program} MB of ${state.most} MB`],
    ["Printouts", `${state.printouts} closed, ${state.unwritten} not written`], ["A start takes", `about ${state.start} s`],
    ...state.ending.map((text) => ["End", text])];
  find("figures").replaceChildren(...figures.flatMap(([name, value]) => [element("dt", "", name), element("dd", "", value)]));
  if (before && state.time > before.time) rates.push((1000 * (state.parts - before.parts)) / (state.time - before.time));
  while (rates.length > SECONDS_SHOWN) rates.shift();
  before = state;
  drawRates();
}

function userRow(user) {
  const row = element("tr", user.on ? "is-on" : "");
  const machine = user.on ? (user.running ? "runs" : "stopped") : "off";
  const lamp = element("td");
  lamp.append(element("span", `lamp ${machine}`, machine));
  const written = user.on ? `${(user.written / 1048576).toFixed(1)} MB` : "";
  row.append(element("th", "", user.name), lamp, element("td", "", user.from ?? (user.on ? "at none" : "")), element("td", "", written));
  const cell = element("td");
  if (user.on) {
    const force = element("button", "small", "Force off");
    force.type = "button";
    force.setAttribute("aria-label", `force ${user.name} off`);
    force.addEventListener("click", () => confirm(`Log ${user.name} off?`) && command(`force ${user.name}`));
    const message = element("button", "small", "Message");
    message.type = "button";
    message.setAttribute("aria-label", `message to ${user.name}`);
    message.addEventListener("click", () => {
      find("line").value = `message ${user.name} `;
      find("line").focus();
    });
    cell.append(message, force);
  }
  row.append(cell);
  return row;
}

function drawRates() {
  const most = Math.max(1, ...rates);
  const points = rates.map((rate, place) => `${(240 * (place + SECONDS_SHOWN - rates.length)) / (SECONDS_SHOWN - 1)},${58 - (50 * rate) / most}`);
  const line = drawn("polyline", { points: points.join(" "), class: "rate" });
  find("rate").replaceChildren(line, drawn("text", { x: 2, y: 10, class: "above" }, `${most.toFixed(0)} at most`));
}

// --- frames ---

find("look").addEventListener("click", () => send({ is: "frames" }));
find("follow").addEventListener("change", follow);

/** Looks again and again, the less often the longer a look takes. */
function follow() {
  if (find("follow").checked) send({ is: "frames" });
}

function showFrames(message) {
  if (!message.done) {
    find("looked").textContent = message.lines.join("; ");
    find("follow").checked = false;
    return;
  }
  const map = { FRAMES: [], SLOTS: [] };
  const sizes = { FRAMES: 0, SLOTS: 0 };
  let pageIns = 0;
  for (const line of message.lines) {
    const mapped = MAPPED.exec(line);
    const free = FREE.exec(line);
    if (mapped) {
      const owners = map[mapped[1].replace(/S?$/, "S")];
      for (let place = Number(mapped[2]); place <= Number(mapped[3] ?? mapped[2]); place += 1) owners[place] = mapped[4];
    }
    if (free) sizes[free[1]] = Number(free[3]);
    if (PAGE_INS.test(line)) pageIns = Number(PAGE_INS.exec(line)[1]);
  }
  drawFrames(map.FRAMES, sizes.FRAMES, map.SLOTS.filter(Boolean).length, sizes.SLOTS);
  const now = Date.now();
  const rate = looked ? `, ${((1000 * (pageIns - looked.pageIns)) / (now - looked.time)).toFixed(1)} a second since the last look` : "";
  find("looked").textContent = `${pageIns.toLocaleString()} page-ins${rate}; the look took ${message.took} s`;
  looked = { pageIns, time: now };
  if (find("follow").checked) setTimeout(follow, Math.max(2000, 5000 * message.took));
}

function drawFrames(owners, count, slots, allSlots) {
  const names = [...new Set(owners.filter(Boolean))].sort();
  const colour = new Map(names.map((name, place) => [name, COLOURS[place % COLOURS.length]]));
  const rows = Math.ceil(count / FRAMES_IN_A_ROW);
  const picture = find("frames");
  picture.setAttribute("viewBox", `0 0 ${FRAMES_IN_A_ROW * 10} ${Math.max(1, rows) * 10}`);
  picture.replaceChildren();
  for (let place = 0; place < count; place += 1) {
    const x = (place % FRAMES_IN_A_ROW) * 10;
    const cell = drawn("rect", { x, y: Math.floor(place / FRAMES_IN_A_ROW) * 10, width: 9, height: 9, fill: colour.get(owners[place]) ?? "#e4dfd2" });
    cell.append(drawn("title", {}, `frame ${place}: ${owners[place] ?? "free"}`));
    picture.append(cell);
  }
  const items = names.map((name) => {
    const item = element("li", "", `${name} ${owners.filter((owner) => owner === name).length}`);
    const mark = drawn("svg", { viewBox: "0 0 10 10", class: "mark" });
    mark.append(drawn("rect", { width: 10, height: 10, fill: colour.get(name) }));
    item.prepend(mark);
    return item;
  });
  items.push(element("li", "note", `${slots} of ${allSlots} slots are used`));
  find("owners").replaceChildren(...items);
}

if (token) open();
