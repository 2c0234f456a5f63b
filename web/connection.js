// A connection to the installation that comes back by itself. Messages are JSON objects, several of them in a frame that comes.

const FIRST_WAIT = 500;
const LONGEST_WAIT = 10000;

export class Connection {
  /** first() gives the first message of a connection, obey(message) takes each that comes, and report(isThere, seconds) is called with how it is. */
  constructor(path, first, obey, report) {
    this.address = `${location.protocol === "https:" ? "wss" : "ws"}://${location.host}${path}`;
    this.first = first;
    this.obey = obey;
    this.report = report;
    this.wait = FIRST_WAIT;
    this.isEnded = false;
    this.open();
  }

  open() {
    const socket = new WebSocket(this.address);
    this.socket = socket;
    socket.onopen = () => {
      this.wait = FIRST_WAIT;
      this.report(true, 0);
      this.send(this.first());
    };
    socket.onmessage = (event) => {
      for (const message of JSON.parse(event.data)) this.obey(message);
    };
    socket.onclose = () => this.closed();
  }

  closed() {
    if (this.isEnded) return;
    this.report(false, this.wait / 1000);
    setTimeout(() => this.open(), this.wait);
    this.wait = Math.min(LONGEST_WAIT, 2 * this.wait);
  }

  /** Whether a message went. */
  send(message) {
    if (this.socket.readyState !== WebSocket.OPEN) return false;
    this.socket.send(JSON.stringify(message));
    return true;
  }

  end() {
    this.isEnded = true;
    this.socket.close();
  }
}

export const find = (name) => document.getElementById(name);

/** An element with a class and a text; what comes from elsewhere is only ever a text. */
export function element(kind, style, text) {
  const made = document.createElement(kind);
  if (style) made.className = style;
  if (text !== undefined) made.textContent = text;
  return made;
}

export function clock(time) {
  return new Date(time).toLocaleTimeString([], { hour: "2-digit", minute: "2-digit", second: "2-digit", hour12: false });
}

/** Adds a line to paper that keeps its last ones, and follows its end unless somebody has scrolled up. */
export function addLine(paper, style, text, time, most) {
  const isAtEnd = paper.scrollHeight - paper.scrollTop - paper.clientHeight < 40;
  const row = element("div", `row ${style}`);
  const when = element("time", "when", clock(time));
  when.dateTime = new Date(time).toISOString();
  row.append(when, element("span", "text", text || " "));
  paper.append(row);
  while (paper.childElementCount > most) paper.firstElementChild.remove();
  if (isAtEnd) paper.scrollTop = paper.scrollHeight;
}

/** A form of one line with the lines that were typed before. */
export function typing(form, input, enter) {
  const before = [];
  let place = 0;
  form.addEventListener("submit", (event) => {
    event.preventDefault();
    if (!enter(input.value)) return;
    if (input.value && before[before.length - 1] !== input.value) before.push(input.value);
    place = before.length;
    input.value = "";
  });
  input.addEventListener("keydown", (event) => {
    const step = { ArrowUp: -1, ArrowDown: 1 }[event.key];
    if (!step) return;
    event.preventDefault();
    place = Math.max(0, Math.min(before.length, place + step));
    input.value = before[place] ?? "";
  });
}
