// The line of time, and maps of squares, drawn on canvases.

/** The color of a user, as bin/framepicture has it; grey for nobody. */
export function colorOf(place, light = 0) {
  return place < 0 ? "#8a8577" : `hsl(${(place * 137 + 205) % 360},55%,${48 + ((place * 7) % 14) + light}%)`;
}

export function shadeOf(name) {
  return getComputedStyle(document.documentElement).getPropertyValue(name).trim();
}

/** A pen for a canvas of this height, which is empty, and its width. */
function penOf(canvas, height) {
  const scale = window.devicePixelRatio || 1, width = canvas.clientWidth || 300;
  if (canvas.width !== Math.round(width * scale) || canvas.height !== Math.round(height * scale)) {
    canvas.width = Math.round(width * scale);
    canvas.height = Math.round(height * scale);
    canvas.style.height = `${height}px`;
  }
  const pen = canvas.getContext("2d");
  pen.setTransform(scale, 0, 0, scale, 0, 0);
  pen.clearRect(0, 0, width, height);
  pen.font = FONT;
  pen.textBaseline = "middle";
  return [pen, width];
}

const FONT = "11px 'DejaVu Sans Mono', monospace";
const LEFT = 74, RIGHT = 6, FEWEST = 12, TALLEST = 204;
// which bit of a column's marks is drawn in which color, from where, and how tall
const MARKS = [[1, "--typed", 0.2, 0.65], [8, "--answer", 0.2, 0.65], [2, "--go", 0.5, 0.4], [4, "--halt", 0.05, 0.3]];

/** The columns of each value; those that touch, if they are as narrow as a point, are one run. */
function runsOf(columns, valueOf, step) {
  const found = new Map();
  for (const [column, count] of columns) {
    const value = valueOf(count), runs = found.get(value) ?? [], last = runs.at(-1);
    if (last && step <= 1.5 && last[0] + last[1] === column) last[1]++;
    else runs.push([column, 1]);
    found.set(value, runs);
  }
  return found;
}

/** The line of time. fetched(from, to, columns) gives what is drawn; go(event, isDragged) is called where it is pointed at. */
export class TimeLine {
  constructor(canvas, about, fetched, go) {
    this.canvas = canvas;
    this.about = about;
    this.fetched = fetched;
    this.from = 0;
    this.to = Math.max(1, about.events);
    this.line = null;
    this.wanted = "";
    this.here = { event: 0, share: 0, user: 0 };
    let isDragged = false;
    const at = (event) => this.eventAt(event.clientX - canvas.getBoundingClientRect().left);
    canvas.addEventListener("pointerdown", (event) => { isDragged = true; canvas.setPointerCapture(event.pointerId); go(at(event), true); });
    canvas.addEventListener("pointermove", (event) => { if (isDragged) go(at(event), true); });
    canvas.addEventListener("pointerup", (event) => { if (isDragged) go(at(event), false); isDragged = false; });
    canvas.addEventListener("pointercancel", () => { isDragged = false; });
    canvas.addEventListener("wheel", (event) => {
      event.preventDefault();
      this.zoom(event.deltaY > 0 ? 1.3 : 1 / 1.3, at(event));
    }, { passive: false });
  }

  room() { return Math.max(1, this.canvas.clientWidth - LEFT - RIGHT); }

  /** How tall the lane of a user is: all of them have room above the panels. */
  lane() { return Math.max(3, Math.min(17, Math.floor(TALLEST / this.about.users.length))); }

  zoom(factor, center) {
    const all = Math.max(1, this.about.events), size = Math.min(all, Math.max(FEWEST, Math.round((this.to - this.from) * factor)));
    this.show(center - ((center - this.from) / (this.to - this.from)) * size, size);
    this.draw();
  }

  /** Shows so many events, from about this one on. */
  show(from, size) {
    this.from = Math.max(0, Math.min(this.about.events - size, Math.round(from)));
    this.to = this.from + size;
  }

  eventAt(x) {
    const event = Math.floor(this.from + ((x - LEFT) / this.room()) * (this.to - this.from));
    return Math.max(0, Math.min(this.about.events, event));
  }

  /** Shows a moment, so much of an event of which is done. */
  at(event, share, user) {
    this.here = { event, share, user };
    const size = this.to - this.from;
    if (event < this.from || event > this.to) this.show(event - size / 2, size);
    this.draw();
  }

  async fetch() {
    const columns = Math.floor(this.room()), wanted = `${this.from} ${this.to} ${columns}`;
    if (wanted === this.wanted) return;
    this.wanted = wanted;
    const line = await this.fetched(this.from, this.to, columns);
    if (wanted !== this.wanted) return;
    this.line = line;
    this.draw();
  }

  draw() {
    const lanes = this.about.users.length, tall = this.lane(), [pen, width] = penOf(this.canvas, lanes * tall + 18);
    pen.fillStyle = shadeOf("--here");
    pen.fillRect(0, this.here.user * tall, width, tall);
    pen.drawImage(this.picture(width, lanes * tall), 0, 0, width, lanes * tall);
    pen.fillStyle = shadeOf("--ink");
    const middle = Math.max(6, Math.min(lanes * tall - 4, (this.here.user + 0.5) * tall + 1));
    if (tall <= 12) pen.fillText(this.about.users[this.here.user].name, 6, middle);
    this.pointer(pen, lanes * tall);
    this.fetch();
  }

  /** Names and bars, drawn once for what is shown. */
  picture(width, height) {
    const shown = [this.from, this.to, width, height, window.devicePixelRatio, shadeOf("--ink")].join(" ");
    if (this.drawn?.shown === shown && this.drawn.line === this.line) return this.drawn.canvas;
    const canvas = document.createElement("canvas"), scale = window.devicePixelRatio || 1, tall = this.lane();
    canvas.width = Math.max(1, Math.round(width * scale));
    canvas.height = Math.max(1, Math.round(height * scale));
    const pen = canvas.getContext("2d");
    pen.scale(scale, scale);
    pen.font = FONT;
    pen.textBaseline = "middle";
    pen.fillStyle = shadeOf("--ink");
    if (tall > 12) this.about.users.forEach(({ name }, lane) => pen.fillText(name, 6, (lane + 0.5) * tall + 1));
    if (this.line) this.bars(pen, tall);
    this.drawn = { shown, line: this.line, canvas };
    return canvas;
  }

  /** Bars of units, taller where there are more, and marks of other events. */
  bars(pen, tall) {
    const { line } = this, step = ((line.to - line.from) / line.columns / (this.to - this.from)) * this.room();
    const first = LEFT + ((line.from - this.from) / (this.to - this.from)) * this.room();
    let most = 1;
    for (const lane of line.lanes) for (const [, count] of lane.units) most = Math.max(most, count);
    const highOf = (count) => Math.max(2, Math.round((Math.log1p(count) / Math.log1p(most)) * (tall - 3)));
    const paint = (runs, y, high, wide) => runs.forEach(([column, count]) => {
      const x = Math.max(LEFT - 1, first + column * step), end = Math.min(LEFT + this.room(), first + (column + count - 1) * step + wide);
      if (end > x) pen.fillRect(x, y, end - x, high);
    });
    const wide = Math.max(1, Math.min(14, step - 1)), barWide = Math.max(1, step - 0.5);
    line.lanes.forEach((lane, place) => {
      pen.fillStyle = colorOf(place);
      for (const [high, runs] of runsOf(lane.units, highOf, step)) paint(runs, (place + 1) * tall - 1 - high, high, barWide);
      for (const [bit, name, top, part] of MARKS) {
        pen.fillStyle = shadeOf(name);
        const runs = runsOf(lane.marks.filter(([, bits]) => bits & bit), () => bit, step).get(bit);
        if (runs) paint(runs, (place + top) * tall, Math.max(2, part * tall), wide);
      }
    });
  }

  pointer(pen, bottom) {
    const { event, share } = this.here, span = this.to - this.from, x = LEFT + ((event + share - this.from) / span) * this.room();
    pen.fillStyle = shadeOf("--halt");
    pen.fillRect(Math.round(x) - 1, 0, 2, bottom + 4);
    pen.beginPath();
    pen.moveTo(x - 6, bottom + 12);
    pen.lineTo(x + 6, bottom + 12);
    pen.lineTo(x, bottom + 2);
    pen.fill();
    pen.fillStyle = shadeOf("--faint");
    for (const part of [0, 0.25, 0.5, 0.75, 1]) {
      pen.textAlign = part === 1 ? "right" : part ? "center" : "left";
      const at = LEFT + part * this.room();
      if (Math.abs(at - x) > 30) pen.fillText(Math.round(this.from + part * span).toLocaleString("en"), at, bottom + 11);
    }
    pen.textAlign = "left";
  }
}

/** Squares that say what they are when they are pointed at. */
export class Squares {
  constructor(canvas, note, size = 11) {
    this.canvas = canvas;
    this.note = note;
    this.size = size;
    this.squares = [];
    const pointed = (event) => {
      const box = canvas.getBoundingClientRect(), x = event.clientX - box.left, y = event.clientY - box.top;
      return this.squares.find((one) => x >= one.x && x < one.x + size && y >= one.y && y < one.y + size);
    };
    canvas.addEventListener("pointermove", (event) => { note.textContent = pointed(event)?.title ?? ""; });
    canvas.addEventListener("click", (event) => pointed(event)?.act?.());
  }

  /** Draws groups, each with a heading and squares, which have color, title, act and edge. */
  draw(groups) {
    const { size } = this, columns = Math.max(8, Math.floor((this.canvas.clientWidth || 300) / size)), headings = [];
    let y = 0;
    this.squares = [];
    for (const group of groups) {
      if (group.heading) { headings.push([group.heading, y + 8]); y += 15; }
      group.squares.forEach((one, place) => this.squares.push({ ...one, x: (place % columns) * size, y: y + Math.floor(place / columns) * size }));
      y += Math.ceil(group.squares.length / columns) * size + 4;
    }
    const [pen] = penOf(this.canvas, Math.max(4, y)), blank = shadeOf("--edge"), ink = shadeOf("--ink");
    pen.fillStyle = shadeOf("--faint");
    for (const [text, at] of headings) pen.fillText(text, 0, at);
    for (const one of this.squares) {
      pen.fillStyle = one.color || blank;
      pen.fillRect(one.x, one.y, size - 1, size - 1);
      if (one.edge) { pen.strokeStyle = ink; pen.lineWidth = 2; pen.strokeRect(one.x + 1, one.y + 1, size - 3, size - 3); }
    }
  }
}
