// What the page shows of a moment: processor, instructions, storage, devices, paper, frames and cylinders.
import { element, find } from "/connection.js";
import { addListing } from "/paper.js";
import { Squares, colorOf, shadeOf } from "/replay_line.js";

export const hex = (number, digits = 6) => number.toString(16).toUpperCase().padStart(digits, "0");

function button(style, text, title, act) {
  const made = element("button", style, text);
  made.type = "button";
  if (title) made.title = title;
  made.addEventListener("click", act);
  return made;
}

/** Marks what has changed, also for who does not see colors. */
function marked(made, isNew, title) {
  if (!isNew) return made;
  made.classList.add("new");
  made.title = title;
  made.setAttribute("aria-description", title);
  return made;
}

// how far behind a label an address may be that is shown by it
const FARTHEST = 255;
const MASKS = ["fixed overflow", "decimal overflow", "exponent underflow", "significance"];

/** The panels of the page. about is what there is of the run; page has choose(user), goTo(event), searchBack(what, of) and showAt(address). */
export class Panels {
  constructor(about, page) {
    this.about = about;
    this.page = page;
    this.pages = new Squares(find("page-map"), find("page-note"), 9);
    this.frames = new Squares(find("frame-map"), find("frame"));
    this.cylinders = new Squares(find("cylinder-map"), find("cylinder"));
    // the labels of the source by their addresses
    this.places = Object.entries(about.labels).map(([label, at]) => [at, label]).sort(([one], [other]) => one - other);
    find("words").addEventListener("keydown", (event) => this.moveFocus(event));
  }

  /** The label at an address, or the last one before it and how far that is, TABLE+12; nothing if none is near. */
  labelOf(address) {
    const [at, label] = this.places.findLast(([place]) => place <= address) ?? [];
    if (label === undefined || address - at > FARTHEST) return "";
    return at === address ? label : `${label}+${address - at}`;
  }

  /** Shows a moment of a user; asked is the word that is framed in storage, or null. */
  show(moment, user, asked) {
    this.moment = moment;
    this.user = user;
    this.asked = asked;
    this.showProcessor(moment);
    this.showCode(moment);
    this.showStorage(moment);
    this.showPages(moment);
    this.showDevices(moment);
    this.showConsole(moment);
    this.showFiles(moment);
    this.showFrames(moment);
    this.showCylinders(moment);
  }

  // --- processor ---

  showProcessor(moment) {
    const { psw } = moment, old = moment["old psw"];
    const doesWait = psw.wait && moment.mode === "running";
    find("mode").textContent = doesWait ? "waits" : moment.mode;
    find("mode").className = `lamp ${doesWait ? "waits" : moment.mode}`;
    find("pending").textContent = moment.pending.length ? `pending: ${moment.pending.join(", ")}` : "";
    const words = element("div");
    words.append(element("span", "faint", "PSW "));
    psw.words.forEach((word, place) => words.append(marked(element("span", "", word), old.words[place] !== word, `was ${old.words[place]}`), " "));
    find("psw").replaceChildren(words, this.fieldsOf(psw, old));
    this.numbers(find("general"), moment.registers, "G");
    this.numbers(find("control"), moment.control, "X");
  }

  fieldsOf(psw, old) {
    const fields = element("dl", "fields");
    const differs = (...names) => names.some((name) => old[name] !== psw[name]);
    const add = (name, text, isNew) => {
      const value = element("dd");
      value.append(marked(element("span", "", text), isNew, "changed"));
      fields.append(element("dt", "", name), value);
    };
    const channels = [0, 1, 2, 3, 4, 5].filter((place) => psw.system_mask & (0x80 >> place));
    const enabled = [channels.length ? `channels ${channels.join(" ")}` : "", psw.system_mask & 1 ? "external" : "", psw.machine_check ? "machine check" : ""];
    add("address", hex(psw.address), differs("address"));
    add("state", `${psw.problem ? "problem" : "supervisor"}${psw.wait ? ", wait" : ""}${psw.extended ? ", EC" : ""}`, differs("problem", "wait"));
    add("key, CC", `${hex(psw.key, 1)}, ${psw.condition}`, differs("key", "condition"));
    add("enabled for", enabled.filter(Boolean).join(", ") || "nothing", differs("system_mask", "machine_check"));
    const masks = MASKS.filter((_, place) => psw.program_mask & (8 >> place));
    if (masks.length) add("program mask", masks.join(", "), differs("program_mask"));
    return fields;
  }

  numbers(table, values, letter) {
    const rows = [0, 1, 2, 3].map((row) => {
      const line = element("tr");
      for (const place of [row, row + 4, row + 8, row + 12]) {
        const [value, old] = values[place], cell = element("td"), name = `${letter}${place}`;
        const shown = letter === "G" ? button("", value, `who changed ${name} last?`, () => this.page.searchBack("gpr", String(place))) : element("span", "", value);
        if (letter === "G") shown.setAttribute("aria-label", `${name} ${value}: who changed it last?`);
        cell.append(marked(shown, old, `was ${old}`));
        line.append(element("td", "name", name), cell);
      }
      return line;
    });
    table.tBodies[0].replaceChildren(...rows);
  }

  // --- instructions and storage ---

  showCode(moment) {
    const rows = [this.whatLed(moment)];
    if (moment.listing.length) rows.push(...moment.listing.map((one) => this.sourceLine(one, moment.done)));
    else rows.push(...moment.code.map((one, place) => this.instruction(one, place ? "" : "is-here", place ? "" : "the next instruction")));
    find("code").replaceChildren(...rows);
    find("code").querySelector(".is-here")?.setAttribute("aria-current", "step");
    this.showOperand(moment.psw.wait ? null : moment.code[0]);
    if (moment.psw.wait) find("operand").textContent = "the machine waits: Left leads to what it did last";
  }

  /** The unit that led here, in a row that is always there, so that nothing moves under the mouse. */
  whatLed({ done, interruption }) {
    const row = done ? this.instruction(done, "is-done", "the unit that led here") : element("div", "one is-done source");
    if (interruption) row.append(element("span", "interruption", interruption));
    return row;
  }

  instruction(one, style, title) {
    const isSource = style === "is-done" && one.source, row = element("div", `one ${style}${isSource ? " source" : ""}`);
    if (title) row.title = title;
    row.append(element("span", "at", hex(one.address, 4)), element("span", "faint", one.code));
    if (isSource) row.append(element("span", "", one.source));
    else row.append(element("span", "", one.name), element("span", "", one.operands), element("span", "label", one.source || ""));
    return row;
  }

  sourceLine(one, done) {
    const led = done && one.code && one.address === done.address, row = element("div", `one source${one.here ? " is-here" : ""}${led ? " led" : ""}`);
    if (led) row.title = "the unit that led here";
    row.append(element("span", "at", one.address === null || !one.code ? "" : hex(one.address, 4)), element("span", "faint", one.code), element("span", "", one.text));
    return row;
  }

  showOperand(first) {
    const note = find("operand");
    note.replaceChildren(first?.device ? `device ${first.device}` : "");
    for (const [at, there] of first?.places ?? []) {
      note.append(button("small", `operand at ${hex(at)}: ${there || "past storage"}`, "shows it in storage", () => this.page.showAt(at)), " ");
    }
  }

  showStorage(moment) {
    const focused = document.activeElement?.dataset?.word, shownAt = moment.storage.length ? moment.storage[0][0] : 0;
    find("words").replaceChildren(...moment.storage.map((row, place) => this.storageRow(row, moment.labels[place])));
    const words = [...find("words").querySelectorAll("button")], again = words.find((one) => one.dataset.word === focused);
    (again ?? words.find((one) => one.matches(".asked")) ?? words[0])?.setAttribute("tabindex", "0");
    if (focused !== undefined) again?.focus();
    const kept = `block ${hex(shownAt & ~2047)}: key ${hex((moment.key >> 1) & 15, 1)}`;
    find("key").textContent = `${kept}${moment.key & 1 ? ", fetch protected" : ""}`;
    const list = find("changes");
    list.textContent = moment.changed.length ? `Changed since ${moment.since}: ` : "";
    for (const [low, high] of moment.changed.slice(0, 12)) {
      const name = `${hex(low)}${high - low > 1 ? `-${hex(high - 1)}` : ""}`;
      list.append(button("small", name, "shows it", () => this.page.showAt(low)), " ");
    }
  }

  storageRow([at, code, signs, changed], labels) {
    const row = element("div", "line"), left = element("span");
    left.append(element("span", "at", `${hex(at)}  `));
    for (let word = 0; word < 4 && 8 * word < code.length; word++) {
      const address = hex(at + 4 * word), near = this.labelOf(at + 4 * word), name = near ? `${near}, ${address},` : address;
      const made = button("", undefined, `who changed ${name} last?`, () => this.page.searchBack("word", address));
      made.tabIndex = -1;
      made.dataset.word = address;
      made.classList.toggle("asked", at + 4 * word === this.asked);
      const bytes = [0, 1, 2, 3].map((place) => [code.slice(8 * word + 2 * place, 8 * word + 2 * place + 2), changed[4 * word + place] === "1"]);
      made.append(...bytes.map(([text, isNew]) => (isNew ? element("span", "new", text) : text)));
      made.setAttribute("aria-label", `${name} ${code.slice(8 * word, 8 * word + 8)}${bytes.some(([, isNew]) => isNew) ? ", changed" : ""}: who changed it last?`);
      left.append(made, word === 3 ? "  " : " ");
    }
    left.append(element("span", "signs", signs));
    row.append(left);
    const right = element("span", "labels");
    // the last digit of its address says of which word a label is
    for (const [place, label] of labels) right.append(" ", element("span", "at", `${hex(place & 15, 1)}:`), element("span", "label", label));
    if (labels.length) row.append(right);
    return row;
  }

  /** Up and Down lead from row to row of words, and with Shift from word to word. */
  moveFocus(event) {
    const way = { ArrowDown: 1, ArrowUp: -1 }[event.key];
    if (!way || event.ctrlKey || event.altKey) return;
    const words = [...find("words").querySelectorAll("button")];
    const to = words[words.indexOf(document.activeElement) + way * (event.shiftKey ? 1 : 4)];
    event.preventDefault();
    if (!to) return;
    words.forEach((one) => { one.tabIndex = -1; });
    to.tabIndex = 0;
    to.focus();
  }

  showPages(moment) {
    const shownAt = moment.storage.length ? moment.storage[0][0] >> 12 : 0, where = new Map();
    for (const [kind, name] of [["slots", "slot"], ["frames", "frame"]]) {
      for (const [place, user, page] of moment[kind].used) if (user === this.user) where.set(page, `${name} ${place}`);
    }
    const touched = new Set(moment.changed.flatMap(([low, high]) => [low >> 12, (high - 1) >> 12]));
    const colorFor = (page) => {
      if (touched.has(page)) return shadeOf("--halt");
      return where.has(page) ? colorOf(this.user, where.get(page).startsWith("slot") ? 22 : 0) : undefined;
    };
    this.pages.draw([{ squares: moment.pages.map((isThere, page) => ({
      color: colorFor(page),
      title: `page ${hex(page << 12)}: ${where.get(page) || "never used"}${isThere ? "" : ", zero"}${touched.has(page) ? ", changed" : ""}`,
      edge: page === shownAt,
      act: () => this.page.showAt(page << 12),
    })) }]);
    find("page-map").setAttribute("aria-label", `Pages of this storage: ${where.size} of ${moment.pages.length} are in frames or slots`);
  }

  // --- devices ---

  showDevices(moment) {
    const table = element("table");
    for (const one of moment.devices) table.append(this.device(one));
    find("devices").replaceChildren(moment.devices.length ? table : element("p", "note", "This user has none."));
    const working = moment.devices.filter((one) => one.program?.length), parts = [];
    for (const one of working) parts.push(element("div", "note", `${one.address} works:`), this.wordsOf(one.program));
    const isShown = moment.program.length && working.some((one) => one.program[0][0] === moment.program[0][0]);
    if (moment.program.length && !isShown) parts.push(element("div", "note", "Where the CAW points:"), this.wordsOf(moment.program));
    find("program").replaceChildren(...parts);
    find("caw").textContent = `CAW ${moment.caw}, CSW ${moment.csw}`;
  }

  device(one) {
    const row = element("tr"), more = element("td"), lamp = element("td");
    if (one.word) more.append(element("div", "plain", one.word));
    more.append(...one.more.map((text) => element("div", "note", text)));
    if (one.state !== "idle" || !one.attention) lamp.append(element("span", `lamp ${one.state}`, one.state));
    if (one.attention) lamp.append(element("span", "lamp attention", "attention"));
    row.append(element("td", "plain", one.address), element("td", "plain", one.model), element("td", "note", one.kind), lamp, more);
    return row;
  }

  wordsOf(words) {
    const table = element("table");
    for (const [place, text, data] of words) {
      const row = element("tr");
      row.append(element("td", "faint", hex(place)), element("td", "", text), element("td", "faint", data ? `“${data}”` : ""));
      table.append(row);
    }
    return table;
  }

  // --- paper ---

  showConsole(moment) {
    const rows = moment.console.map(([event, text, isTyped]) => {
      const row = element("div", `row${isTyped ? " typed" : ""}`), when = button("when", String(event), "to this event", () => this.page.goTo(event));
      when.tabIndex = -1;
      row.append(when, element("span", "text", text || " "));
      return row;
    });
    find("paper").replaceChildren(...rows);
    find("paper").scrollTop = find("paper").scrollHeight;
  }

  showFiles(moment) {
    const parts = [];
    for (const file of moment.files) {
      const more = file.more ? `, and ${file.more} entries before these` : "";
      parts.push(element("p", "note", `${file.title}${file.event === null ? "" : `, closed by event ${file.event}`}${more}`));
      const sheets = element("div", file.kind === "PRT" ? "sheets" : "punched");
      if (file.kind === "PRT") addListing(sheets, file.text);
      else sheets.textContent = file.text;
      parts.push(sheets);
    }
    find("listings").replaceChildren(...(parts.length ? parts : [element("p", "note", "Nothing yet.")]));
  }

  // --- frames and cylinders ---

  showFrames(moment) {
    const pins = new Set(moment.pins), { users } = this.about;
    const squares = (kind, places, count) => {
      const used = new Map(places.used.map(([place, user, page]) => [place, [user, page]]));
      return Array.from({ length: count }, (_, place) => {
        const owner = used.get(place), isPinned = kind === "frame" && pins.has(place);
        return {
          color: owner ? colorOf(owner[0]) : undefined,
          title: `${kind} ${place}: ${owner ? `${users[owner[0]].name} ${hex(owner[1] << 12)}` : "free"}${isPinned ? ", locked" : ""}`,
          edge: isPinned,
          act: owner && (() => this.page.choose(owner[0], owner[1] << 12)),
        };
      });
    };
    const groups = [{ squares: squares("frame", moment.frames, moment.frames.count) }];
    const last = moment.slots.used.at(-1);
    if (last) groups.push({ heading: "slots", squares: squares("slot", moment.slots, last[0] + 1) });
    this.frames.draw(groups);
    const text = `${moment.frames.full} of ${moment.frames.count} frames and ${moment.slots.full} of ${moment.slots.count} slots have pages; page-ins ${moment["page ins"]}`;
    find("frames-note").textContent = text;
  }

  showCylinders(moment) {
    find("disks").hidden = !moment.volumes.length;
    this.cylinders.draw(moment.volumes.map((volume) => ({
      heading: `${volume.serial}, ${volume.fill.length} cylinders`,
      squares: volume.fill.map((fill, place) => this.cylinder(fill, place, volume.owners[place])),
    })));
  }

  cylinder(fill, place, owner) {
    const user = owner ? this.about.users.findIndex((one) => one.name === owner[0]) : -1;
    const whose = owner ? `${owner[0]} ${owner[1]}${owner[2] ? "" : ", read only"}${owner[3] ? ", the arm" : ""}` : "nobody's";
    const color = owner ? colorOf(user, fill ? 0 : 25) : fill ? colorOf(-1) : undefined;
    return { color, edge: owner && owner[3], title: `cylinder ${place}: ${whose}, ${fill} bytes` };
  }
}
