#!/bin/sh
# Writes a ballot file to standard output: `many_ballots.sh LINES COMMENT`, with so many lines (1,000,000 where no
# number is given) and a comment of so many bytes (none) after each ballot. Most of its ballots stand in it many times.
set -eu
awk -v lines="${1:-1000000}" -v length_of_comment="${2:-0}" 'BEGIN {
    print "# FILE NAME: many_ballots.toi"
    print "# DATA TYPE: toi"
    print "# NUMBER ALTERNATIVES: 40"
    comment = length_of_comment > 0 ? "\n#" : ""
    for (i = 1; i < length_of_comment; i++) comment = comment "x"
    for (line = 4; line <= lines; line++) {
        ballot = line % 1009
        first = ballot % 40 + 1
        second = (first + ballot % 13) % 40 + 1
        third = (second + ballot % 7) % 40 + 1
        if (second == first) second = first % 40 + 1
        while (third == first || third == second) third = third % 40 + 1
        printf "%d: {%d,%d},%d%s\n", line % 9 + 1, first, second, third, comment
    }
}'
