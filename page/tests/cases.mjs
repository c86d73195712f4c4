// Reads a file of cases: of each case a title, a buffer, a name file, and calls that are made in turn on the two.

// A buffer that records are written into may be longer than a name file.
const LONGEST_BUFFER = 70000;

/** A place in bytes that are read from front to back; numbers are little-endian, and past the end nothing can be read. */
class Source {
  constructor(bytes) {
    this.bytes = Buffer.from(bytes.buffer, bytes.byteOffset, bytes.length);
    this.at = 0;
  }

  /** The place of so many bytes, which are passed by. */
  passed(size) {
    const { at } = this;
    if (at + size > this.bytes.length) throw new Error("the file of cases is cut off");
    this.at += size;
    return at;
  }

  byte() {
    return this.bytes.readUInt8(this.passed(1));
  }

  half() {
    return this.bytes.readUInt16LE(this.passed(2));
  }

  word() {
    return this.bytes.readUInt32LE(this.passed(4));
  }

  long() {
    return this.bytes.readBigUInt64LE(this.passed(8));
  }

  part(size) {
    const at = this.passed(size);
    return this.bytes.subarray(at, at + size);
  }

  rest() {
    return this.part(this.bytes.length - this.at);
  }

  get ended() {
    return this.at === this.bytes.length;
  }
}

const readingIn = (given) => ({ rate: given.word(), unit: given.word(), serial: given.long() });
const formatIn = (given) => ({ big: given.byte(), base: given.word(), mask: given.word(), nameSize: given.half(), entries: given.long() });
const wordsIn = (given, count) => Array.from({ length: count }, () => given.word());
const objectIn = (given) => ({ type: given.byte(), words: wordsIn(given, 3), reserved: [given.byte(), given.byte()] });

/** A name as a buffer is given, but for how many bytes come: all that are left. */
function nameIn(given) {
  const name = filled(given.word(), given.byte());
  name.set(given.rest());
  return name;
}

// A call's arguments by its letter, as they stand in the file.
const CALLS = {
  c: () => [],
  p: (given) => [given.word(), given.word() + 1],
  e: (given) => [given.long()],
  n: (given) => [given.word()],
  l: (given) => [readingIn(given), given.long(), given.word()],
  a: (given) => [readingIn(given), given.word()],
  m: (given) => [given.word()],
  b: () => [],
  f: (given) => [formatIn(given)],
  w: (given) => [wordsIn(given, 8)],
  o: (given) => [objectIn(given), given.rest()],
  x: (given) => [given.word()],
  r: (given) => [given.byte(), given.word(), given.long(), nameIn(given)],
};
// With the name file each of these takes the same.
const ARGUMENTS = { ...CALLS, E: CALLS.e, N: CALLS.n, L: CALLS.l, A: CALLS.a };

function filled(length, byte) {
  if (length > LONGEST_BUFFER) throw new Error(`no buffer has ${length} bytes`);
  return Buffer.alloc(length, byte);
}

function bufferIn(file) {
  const buffer = filled(file.word(), file.byte());
  buffer.set(file.part(file.word()));
  return buffer;
}

function callIn(file, letter) {
  if (!Object.hasOwn(ARGUMENTS, letter)) throw new Error(`no call has the letter ${letter}`);
  const source = new Source(file.part(file.half()));
  const given = ARGUMENTS[letter](source);
  if (!source.ended) throw new Error(`a call ${letter} has more arguments than it takes`);
  return { letter, given };
}

function callsIn(file) {
  const calls = [];
  for (;;) {
    const letter = String.fromCharCode(file.byte());
    if (letter === ".") return calls;
    calls.push(callIn(file, letter));
  }
}

/** The cases of a file: of each its title, its buffer and its name file before the first call, and its calls. */
export function casesIn(bytes) {
  const file = new Source(bytes);
  const cases = [];
  while (!file.ended) cases.push({ title: file.part(file.byte()).latin1Slice(), buffer: bufferIn(file), names: bufferIn(file), calls: callsIn(file) });
  return cases;
}
