// The fixed list of 4,096 numbers of every length.
export function fixedNumbers() {
  const numbers = [];
  for (let mixed = 1n; numbers.length < 4096; mixed = BigInt.asUintN(64, mixed * 6364136223846793005n + 1442695040888963407n)) {
    numbers.push(mixed >> BigInt(numbers.length % 64));
  }
  return numbers;
}
