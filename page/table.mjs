// The events as a table. Each row is laid out by itself, so its columns are given their widths here.
import { shownName, shownOwnName } from "./search.mjs";

// What all columns of names have at least; a longer name goes on in the next line.
const ROOM_FOR_NAMES = 40;
const PADDING = 2;

/** A row's texts by the heads' order; the event's own name is undefined where no name file was given, and then has no column. */
function textsOf(event) {
  const { keyText, ticks, us, id, by, ptr, field, info } = event;
  const texts = [keyText, ticks, us, id, shownOwnName(event), by, shownName(event), ptr, field, info.join(" ")];
  return texts.filter((text) => text !== undefined).map(String);
}

const isOfNames = (head) => head.classList.contains("name");

export class EventTable {
  #table;
  #allHeads;
  #ownNameHead;
  #heads = [];
  #shown = [];

  constructor(table) {
    this.#table = table;
    this.#allHeads = [...table.tHead.rows[0].cells];
    this.#ownNameHead = this.#allHeads.find(({ classList }) => classList.contains("own"));
  }

  clear() {
    this.#shown = [];
    this.#table.tBodies[0].replaceChildren();
  }

  show(events) {
    const all = events.map(textsOf);
    this.#ownNameHead.hidden = !events.some(({ event }) => event !== undefined);
    this.#heads = this.#allHeads.filter(({ hidden }) => !hidden);
    const blank = this.#blankRow();
    this.#fitColumns(all);
    this.#shown = events.map((event, index) => ({ event, row: this.#rowOf(all[index], event, index, blank) }));
    this.#table.tBodies[0].append(...this.#shown.map(({ row }) => row));
    this.#table.setAttribute("aria-rowcount", events.length + 1);
  }

  /** Leaves the rows whose event passes a test, and says how many there are of how many. */
  keep(test) {
    for (const { event, row } of this.#shown) row.hidden = !test(event);
    return { found: this.#shown.filter(({ row }) => !row.hidden).length, of: this.#shown.length };
  }

  /** Each column is as wide as its longest text; a long name goes on in the next line. */
  #fitColumns(all) {
    const most = ROOM_FOR_NAMES / this.#heads.filter(isOfNames).length;
    const columns = this.#heads.map((head, column) => {
      const width = all.reduce((widest, texts) => Math.max(widest, texts[column].length), head.textContent.length);
      return isOfNames(head) ? `minmax(${Math.min(width, most) + PADDING}ch, 1fr)` : `${width + PADDING}ch`;
    });
    this.#table.style.setProperty("--columns", columns.join(" "));
  }

  #blankRow() {
    const row = document.createElement("tr");
    row.setAttribute("role", "row");
    for (const { cellIndex, className } of this.#heads) {
      const cell = document.createElement(cellIndex === 0 ? "th" : "td");
      cell.setAttribute("role", cellIndex === 0 ? "rowheader" : "cell");
      if (className !== "") cell.className = className;
      row.append(cell);
    }
    return row;
  }

  #rowOf(texts, { gone }, index, blank) {
    const row = blank.cloneNode(true);
    texts.forEach((text, column) => { row.cells[column].textContent = text; });
    row.querySelector(".thread").classList.toggle("gone", gone);
    // The first row is that of the headings.
    row.setAttribute("aria-rowindex", index + 2);
    return row;
  }
}
