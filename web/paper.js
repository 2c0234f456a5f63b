// Listings as pages of striped paper, cards with their holes, and tracks of disks.
import { element } from "/connection.js";

const SVG = "http://www.w3.org/2000/svg";

export function drawn(kind, attributes, text) {
  const made = document.createElementNS(SVG, kind);
  for (const [name, value] of Object.entries(attributes)) made.setAttribute(name, value);
  if (text !== undefined) made.textContent = text;
  return made;
}

/** Adds text of a listing to its pages; a form feed begins the next one. What was printed twice stands there twice. */
export function addListing(pages, text) {
  text.split("\f").forEach((part, place) => {
    if (place || !pages.lastElementChild) pages.append(element("div", "striped"));
    for (const line of part.split("\n").slice(0, part.endsWith("\n") ? -1 : undefined)) pages.lastElementChild.append(printedLine(line));
  });
}

function printedLine(line) {
  const row = element("div", "printed");
  // texts that meet are printed over each other
  for (const text of line.split("\r")) row.append(element("span", "", text || " "));
  return row;
}

// the rows of a card that a character punches: 12, 11, 0, 1 .. 9
const HOLES = new Map([[" ", []]]);
const zoned = (text, zone, from) => [...text].forEach((character, place) => HOLES.set(character, [...zone, from + place]));
zoned("0123456789", [], 2);
zoned("ABCDEFGHI", [0], 3);
zoned("JKLMNOPQR", [1], 3);
zoned("STUVWXYZ", [2], 4);
Object.entries({
  "/": [2, 3], "-": [1], "&": [0], ".": [0, 5, 10], ",": [2, 5, 10], "*": [1, 6, 10], "(": [0, 7, 10], ")": [1, 7, 10], "+": [0, 8, 10],
  "=": [8, 10], "'": [7, 10], ":": [4, 10], "#": [5, 10], "@": [6, 10], $: [1, 5, 10], ";": [1, 8, 10], "<": [0, 6, 10], ">": [2, 8, 10],
  "%": [2, 6, 10], _: [2, 7, 10], "?": [2, 9, 10], '"': [9, 10],
}).forEach(([character, rows]) => HOLES.set(character, rows));

/** A card with its holes, and what they say above. */
export function card(text) {
  const picture = drawn("svg", { viewBox: "0 0 668 130", class: "card", role: "img", "aria-label": `card: ${text.trimEnd()}` });
  picture.append(drawn("path", { d: "M14 .5H667.5V129.5H.5V16Z", class: "edge" }));
  [...text.slice(0, 80)].forEach((character, column) => {
    const x = 14 + column * 8;
    if (character !== " ") picture.append(drawn("text", { x, y: 12, class: "above" }, character));
    for (const row of HOLES.get(character) ?? []) picture.append(drawn("rect", { x: x + 1, y: 17 + row * 9, width: 4, height: 7, class: "hole" }));
  });
  return picture;
}

const HEADS = 19;

/** The tracks of a minidisk, a column a cylinder, darker where more is on them. */
export function disk(found) {
  const wide = Math.max(4, Math.min(24, Math.floor(760 / found.cylinders)));
  const size = { viewBox: `0 0 ${found.cylinders * wide} ${HEADS * 6}`, class: "tracks", role: "img" };
  const picture = drawn("svg", { ...size, "aria-label": `${found.tracks.length} tracks of ${found.cylinders * HEADS} have records` });
  picture.setAttribute("width", Math.min(760, found.cylinders * wide));
  picture.append(drawn("rect", { width: "100%", height: "100%", class: "blank" }));
  for (const [cylinder, head, records, full] of found.tracks) {
    const track = drawn("rect", { x: cylinder * wide, y: head * 6, width: wide - 1, height: 5, class: "track", opacity: 0.25 + (0.75 * full) / 100 });
    track.append(drawn("title", {}, `cylinder ${cylinder} head ${head}: ${records} records, ${full}% full`));
    picture.append(track);
  }
  return picture;
}
