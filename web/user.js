// A user's page: his console, his card reader, his files, his disks and his machine.
import { Connection, addLine, element, find, typing } from "/connection.js";
import { addListing, card, disk } from "/paper.js";

const MOST_LINES = 5000;
const PIECE = 24000;
const MOST_DECK = 1 << 22;
const REGISTER = /^GPR (\d+) = ([0-9A-F]{8})$/;
const CLOSED = /^FILE \d+ CLOSED$/;
// a printout is written soon after it is closed
const TIME_TO_WRITE = 1500;
const PSW = /^PSW ([0-9A-F]{8}) ([0-9A-F]{8})$/;
const CARDS_AT_ONCE = 200;
const TIME_TO_ACKNOWLEDGE = 100;

let page = { name: "", token: "", seen: 0 };
let user = "";
let listing = null;
let acknowledging;

const say = (style, text, time = Date.now()) => addLine(find("paper"), style, text, time, MOST_LINES);

// --- what comes ---

const OBEYED = {
  new(message) {
    if (page.name && user) say("note", "The terminal was left meanwhile: log on again to go on.");
    page = { name: message.page, token: message.token, seen: 0 };
    show({ user: "" });
  },
  resumed() {},
  lines(message) {
    for (const [number, time, text] of message.lines) {
      if (number <= page.seen) continue;
      page.seen = number;
      say("came", text, time);
      read(text);
    }
    acknowledge();
  },
  on: (message) => show(message),
  off: () => show({ user: "" }),
  deck: (message) => find("decks").prepend(element("li", "", `${message.name}: ${message.findings}`)),
  files: showFiles,
  piece: showPiece,
  disks(message) {
    find("tracks").replaceChildren(...message.disks.flatMap(shownDisk));
    if (!message.disks.length) find("tracks").textContent = "You have none.";
  },
  refused(message) {
    if (message.what === "deck") find("decks").prepend(element("li", "wrong", message.why));
    else if (message.what === "disks") find("tracks").textContent = message.why;
    else say("note", message.why);
  },
};

/** Tells soon which lines were seen: the installation keeps the others. */
function acknowledge() {
  acknowledging ??= setTimeout(() => {
    acknowledging = undefined;
    connection.send({ is: "seen", number: page.seen });
  }, TIME_TO_ACKNOWLEDGE);
}

function show({ user: name, running }) {
  const isNew = name && name !== user;
  const isGone = user && !name;
  user = name;
  document.body.classList.toggle("is-on", Boolean(user));
  find("who").textContent = user ? `${user} is logged on` : "nobody is logged on";
  find("lamp").textContent = user ? (running ? "runs" : "stopped") : "off";
  find("lamp").className = `lamp ${user ? (running ? "runs" : "stopped") : "off"}`;
  find("logon").hidden = Boolean(user);
  find("leave").hidden = !user;
  document.title = user ? `${user}: Gathjumli` : "Gathjumli";
  if (isNew) {
    ask({ is: "files" });
    find("line").focus();
  }
  if (isGone) forget();
}

/** Nothing of a user stays on the page when he has gone, but his console. */
function forget() {
  for (const name of ["files", "decks", "tracks", "psw"]) find(name).replaceChildren();
  find("registers").tBodies[0].replaceChildren();
  closeListing();
  find("name").focus();
}

// --- what goes ---

const ask = (message) => connection.send(message);
const change = (message) => {
  if (connection.send({ ...message, token: page.token })) return true;
  say("note", "There is no connection at the moment.");
  return false;
};

find("logon").addEventListener("submit", (event) => {
  event.preventDefault();
  change({ is: "logon", name: find("name").value.trim(), password: find("password").value });
  find("password").value = "";
});
find("leave").addEventListener("click", () => change({ is: "leave" }));
typing(find("typing"), find("line"), (text) => {
  if (!change({ is: "line", text })) return false;
  say("typed", text);
  return true;
});
for (const button of document.querySelectorAll("[data-key]")) {
  button.addEventListener("click", () => {
    if (change({ is: "key", key: button.dataset.key })) say("typed", `(${button.textContent.toLowerCase()})`);
  });
}

// --- the machine ---

find("look").addEventListener("click", () => {
  for (const what of ["PSW", ...Array.from({ length: 16 }, (_, register) => `G${register}`)]) change({ is: "line", text: `#CP DISPLAY ${what}` });
});

/** Looks at files when one is closed, and keeps what a line of the console says of a register. */
function read(text) {
  if (CLOSED.test(text)) setTimeout(() => user && ask({ is: "files" }), TIME_TO_WRITE);
  const psw = PSW.exec(text);
  const register = REGISTER.exec(text);
  if (psw) showPsw(...psw.slice(1).map((word) => Number.parseInt(word, 16)));
  if (register) {
    const rows = find("registers").tBodies[0];
    while (rows.rows.length < 4) rows.insertRow();
    const row = rows.rows[Math.floor(register[1] / 4)];
    while (row.cells.length < 8) row.insertCell();
    row.cells[(register[1] % 4) * 2].textContent = `G${register[1]}`;
    row.cells[(register[1] % 4) * 2 + 1].textContent = register[2];
  }
}

function showPsw(left, right) {
  const bits = (left >>> 16) & 0xff;
  const state = [["Instruction address", (right & 0xffffff).toString(16).toUpperCase().padStart(6, "0")],
    ["State", `${bits & 1 ? "problem" : "supervisor"}, ${bits & 2 ? "waits" : "running"}`],
    ["Key", ((left >>> 20) & 0xf).toString(16).toUpperCase()], ["Condition code", (right >>> 28) & 3],
    ["Mask of channels", (left >>> 24).toString(2).padStart(8, "0")]];
  find("psw").replaceChildren(...state.flatMap(([name, value]) => [element("dt", "", name), element("dd", "", value)]));
}

// --- cards ---

find("waiting").addEventListener("click", () => change({ is: "line", text: "#CP QUERY FILES" }));
find("deck").addEventListener("change", async () => {
  await readIn(find("deck").files);
  find("deck").value = "";
});
const hopper = find("hopper");
for (const kind of ["dragenter", "dragover"]) hopper.addEventListener(kind, (event) => hover(event, true));
for (const kind of ["dragleave", "drop"]) hopper.addEventListener(kind, (event) => hover(event, false));
hopper.addEventListener("drop", (event) => readIn(event.dataTransfer.files));

function hover(event, isOver) {
  event.preventDefault();
  hopper.classList.toggle("is-over", isOver);
}

async function readIn(files) {
  for (const file of files) {
    if (file.size > MOST_DECK) {
      find("decks").prepend(element("li", "wrong", `${file.name}: more than ${MOST_DECK} bytes`));
      continue;
    }
    const bytes = new Uint8Array(await file.arrayBuffer());
    for (let place = 0; place === 0 || place < bytes.length; place += PIECE) {
      const data = btoa(String.fromCharCode(...bytes.subarray(place, place + PIECE)));
      if (!change({ is: "deck", name: file.name, data, more: place + PIECE < bytes.length })) return;
    }
  }
}

// --- files and listings ---

find("again").addEventListener("click", () => ask({ is: "files" }));
find("show-disks").addEventListener("click", () => ask({ is: "disks" }));

function showFiles(message) {
  const rows = message.files.reverse().map((file) => {
    const row = element("li");
    const kind = file.name.startsWith("PUN") ? "card" : "line";
    const open = element("button", "", `${file.name.replace(".txt", "")}, ${file.lines.toLocaleString()} ${kind}${file.lines === 1 ? "" : "s"}`);
    open.type = "button";
    open.disabled = !message.kept || file.state !== "written";
    open.addEventListener("click", () => openListing(file));
    row.append(open, element("span", "note", ` ${file.state}`));
    return row;
  });
  if (!rows.length) rows.push(element("li", "note", "none yet: CLOSE 00E closes what was printed"));
  if (!message.kept) rows.push(element("li", "note", "the operator keeps no printouts"));
  find("files").replaceChildren(...rows);
}

function shownDisk(found) {
  const caption = `${found.address} on ${found.volume} ${found.right}, ${found.cylinders} cylinders, ${found.tracks.length} tracks with records`;
  return [element("p", "", caption), disk(found)];
}

function openListing(file) {
  listing = { name: file.name, at: 0, size: -1, texts: [], cards: 0, isWhole: false };
  find("title").textContent = file.name.replace(".txt", "");
  find("pages").replaceChildren();
  find("listing").hidden = false;
  find("listing").scrollIntoView();
  ask({ is: "file", name: file.name, at: 0 });
}

function closeListing() {
  listing = null;
  find("listing").hidden = true;
  find("pages").replaceChildren();
}

function showPiece(message) {
  if (!listing || message.name !== listing.name || message.at !== listing.at) return;
  listing.at = message.next;
  listing.size = message.size;
  if (listing.isDownloading) listing.texts.push(message.text);
  else if (listing.name.startsWith("PUN")) addCards(message.text);
  else addListing(find("pages"), message.text);
  const isAtEnd = listing.at >= listing.size;
  find("more").disabled = isAtEnd;
  find("shown").textContent = `${listing.at.toLocaleString()} of ${listing.size.toLocaleString()} bytes`;
  if (listing.isDownloading && !isAtEnd) ask({ is: "file", name: listing.name, at: listing.at });
  if (listing.isDownloading && isAtEnd) save();
}

function addCards(text) {
  for (const line of text.split("\n").slice(0, -1)) {
    listing.cards += 1;
    find("pages").append(listing.cards <= CARDS_AT_ONCE ? card(line) : element("div", "printed", line));
  }
}

function save() {
  const link = element("a");
  link.href = URL.createObjectURL(new Blob(listing.texts, { type: "text/plain" }));
  link.download = listing.name;
  link.click();
  URL.revokeObjectURL(link.href);
  Object.assign(listing, listing.before, { isDownloading: false, texts: [] });
  find("more").disabled = listing.at >= listing.size;
  find("shown").textContent += ", downloaded";
}

find("more").addEventListener("click", () => ask({ is: "file", name: listing.name, at: listing.at }));
find("close").addEventListener("click", closeListing);
find("print").addEventListener("click", () => window.print());
find("download").addEventListener("click", () => {
  if (listing.isDownloading) return;
  Object.assign(listing, { isDownloading: true, before: { at: listing.at }, at: 0, texts: [] });
  ask({ is: "file", name: listing.name, at: 0 });
});

// --- the connection ---

const first = () => (page.name ? { is: "resume", page: page.name, token: page.token, seen: page.seen } : { is: "open" });
const connection = new Connection("/socket", first, (message) => OBEYED[message.is]?.(message), (isThere, seconds) => {
  find("link").hidden = isThere;
  find("link").textContent = isThere ? "" : `no connection; the next try is in ${seconds} s`;
});
show({ user: "" });
