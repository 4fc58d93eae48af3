"""A small program for a debugger."""
import sys


class Point:
    def __init__(self, x, y):
        self.x, self.y = x, y


def total(numbers, point):
    result = 0
    for number in numbers:
        result += number
    return result + point.x


def main():
    point = Point(4, 5)
    found = total([1, 2, 3], point)
    print("the total is", found)
    return found


if __name__ == "__main__":
    main()
    sys.exit(4)
