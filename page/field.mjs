// A field of the page that takes one file, chosen or dropped.

// A dump and a name file have no more bytes.
const LONGEST_FILE = 65536;

/** A list of files of its own, which stays when the field is emptied. */
function copied(files) {
  const list = new DataTransfer();
  for (const file of files) list.items.add(file);
  return list.files;
}

/** A field for one file: the file's name and bytes, or null, and then what is said until it is there. */
export class FileField {
  #input;
  #words;
  #changed;
  #before = null;
  #turn = 0;
  file = null;
  awaited;

  constructor(input, words, changed) {
    this.#input = input;
    this.#words = words;
    this.#changed = changed;
    this.awaited = words.none;
    // Emptied before a choice, the field takes a file that was written anew under the same name; where none is chosen, it gets its file back.
    input.addEventListener("click", () => { this.#before = copied(input.files); input.value = ""; });
    input.addEventListener("cancel", () => { input.files = this.#before; });
    input.addEventListener("change", () => this.#take(input.files));
  }

  /** Takes files that were dropped, or none, and shows in the field which. */
  give(files) {
    if (files.length === 1) this.#input.files = files;
    else this.#input.value = "";
    this.#take(files);
  }

  focus() {
    this.#input.focus();
  }

  #become(file, awaited) {
    this.file = file;
    this.awaited = awaited;
    this.#changed();
  }

  async #take(files) {
    const mine = (this.#turn += 1);
    if (files.length === 0) return this.#become(null, this.#words.none);
    if (files.length > 1) return this.#become(null, this.#words.many);
    this.#become(null, this.#words.reading);
    const [file] = files;
    // A longer file is refused for its length: no more of it is read.
    const content = await file.slice(0, LONGEST_FILE + 1).arrayBuffer().catch(() => null);
    if (mine !== this.#turn) return;
    if (content === null) return this.#become(null, this.#words.unreadable);
    this.#become({ name: file.name, bytes: new Uint8Array(content) }, null);
  }
}
