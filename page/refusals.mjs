// Refusals in the words of the header for C; N stands for the place.

const WORDS = [
  "the dump has fewer than 48 bytes",
  "the dump, the buffer or the name file has more than 65,536 bytes",
  "the first four bytes are not those of a trace buffer, in either byte order",
  "the mask is not a run of ones from the lowest bit on",
  "the name size is not a multiple of 4 from 4 to 64",
  "the registry does not start at offset 48",
  "the registry ends below offset 48, above 65,536 or within an entry",
  "the slots do not start where the registry ends",
  "the slots end at or before their start, above offset 65,536 or within a slot",
  "current lies before the slots, behind them or inside a slot, not at its start",
  "entry N is in use with a type that is not allowed",
  "slot N is used and must be unused, or unused and must be used",
  "slot N is used with the event id 0",
  "the clock rate is 0",
  "the unit number is above 16,777,215, or the first serial and the number of events add up to more than 1,099,511,627,776",
  "the output ends before the text, the copy or the record does",
  "the thread pointer to be written is 0",
  "the event id to be written is 0",
  "the type of the object is not allowed",
  "entry N is in use with that pointer already",
  "no entry is free",
  "no entry in use has that pointer",
  "the name given has a zero byte",
  "the buffer has no room for the header, the registry and one slot",
  "there is no event at that position",
  "the dump was cut; bytes missing up to the end of its registry or its slots: N",
  "the record at offset N of the name file runs past its end, or names an event or a thread and is shorter than 4 bytes",
  "the record would end past byte 65,536 of the name file",
];

/** A refusal's number, its place, and both in words. */
export function refusalOf(number, place) {
  const words = WORDS[number - 1] ?? "a refusal that is not known here";
  return Object.freeze({ number, place, words: words.replace("N", place) });
}
