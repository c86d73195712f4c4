"""The fixed list of 4,096 numbers of every length."""


def fixed_numbers():
    numbers, mixed = [], 1
    for index in range(4096):
        numbers.append(mixed >> index % 64)
        mixed = (mixed * 6364136223846793005 + 1442695040888963407) % 2**64
    return numbers
